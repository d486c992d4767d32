// Random sheets: accepted ones, ones with nearly as many operators as are allowed, ones with more, ones that break the
// kinds, ones with other names, and rows without heed of the rules. Tests 1 to 9 hold for the first four by the way they
// are made, 17 and 18 for the first three.

use super::formulas::{random_expression, random_sorts, Manner, Palette, Scope, WITHOUT_FLOATS, WITH_FLOATS};
use super::lines::likely_line;
use super::tree::{rows, Tree};
use super::Rng;
use crate::sheet::{self, MOST_OPERATORS, MOST_ROWS};
use crate::value::Sort;
use std::fmt;

/// How many formulas in a hundred may have floats.
const FLOATS: usize = 42;

/// A sheet with its kinds line.
#[derive(Clone, Debug)]
pub struct Made {
    pub bytes: Vec<u8>,
    pub kinds: Vec<u8>,
}

/// Bytes with each row on a line of its own.
pub fn rows_text(bytes: &[u8]) -> String {
    bytes.escape_ascii().to_string().replace("\\n", "\\n\n")
}

impl fmt::Display for Made {
    fn fmt(&self, f: &mut fmt::Formatter) -> fmt::Result {
        let Made { bytes, kinds } = self;
        write!(f, "sheet of {} bytes:\n{}kinds line {}", bytes.len(), rows_text(bytes), kinds.escape_ascii())
    }
}

impl Made {
    /// The number of its refusal, 0 where it is accepted.
    pub fn refusal(&self) -> u32 {
        sheet::read(&self.bytes, &self.kinds).err().map_or(0, |refusal| refusal.number)
    }

    /// Its sheet, where it is accepted.
    pub fn sheet(&self) -> sheet::Sheet {
        sheet::read(&self.bytes, &self.kinds).expect("an accepted sheet")
    }
}

/// A random accepted sheet of any size.
pub fn accepted_sheet(rng: &mut Rng) -> Made {
    loop {
        let (tree, sorts) = random_tree(0, true, rng);
        if let Some(made) = made(tree, sorts, rng) {
            return made;
        }
    }
}

/// A random accepted sheet of any size without a for.
pub fn loopless_sheet(rng: &mut Rng) -> Made {
    loop {
        let (tree, sorts) = random_tree(0, false, rng);
        if let Some(made) = made(tree, sorts, rng) {
            return made;
        }
    }
}

/// A random sheet that breaks the kinds: it passes tests 1 to 9 and 17, and gets 18.
pub fn unkinded_sheet(rng: &mut Rng) -> Made {
    loop {
        let wrong = rng.pick(&[3, 10, 30]);
        let (tree, sorts) = random_tree(wrong, true, rng);
        let made = laid_out(&tree, sorts, rng.chance(70), rng);
        if made.refusal() == 18 {
            return made;
        }
    }
}

/// A small sheet that breaks the kinds by operands of any kinds, "let x = (some) in (some of x)": which kind goes on behind a fault shows in the rows that
/// stand below it, as those of a let often do. Now and then all operands are floats, and a remainder of them is what is at fault.
pub fn mixed_sheet(rng: &mut Rng) -> Made {
    const NAME: u32 = 4;
    let kinds = [Sort::Real, Sort::Real, Sort::Whole, Sort::Truth];
    let sorts = std::array::from_fn(|name| kinds[name % kinds.len()]);
    let named = (0..NAME).map(|name| Tree::Identifier(name, sorts[name as usize]));
    let leaves: Vec<Tree> =
        [Tree::Real(500)].into_iter().chain(named).chain([Tree::Whole(1), Tree::Truth(true)]).collect();
    loop {
        // The first three are floats.
        let some = if rng.chance(40) { &leaves[..3] } else { &leaves[..] };
        let value = mixed(2, some, rng);
        let (code, leaf) = (mixed_code(rng), mixed(0, &leaves, rng));
        // Of which kind the let's identifier is matters to nobody here.
        let name = Tree::Identifier(NAME, Sort::Whole);
        let inside = match rng.below(3) {
            _ if code == 11 => Tree::operator(code, name),
            0 => Tree::on_two(code, name, leaf),
            1 => Tree::on_two(code, leaf, name),
            _ => Tree::choose(Tree::Truth(true), name, leaf),
        };
        let made = laid_out(&Tree::Let(NAME, 1, Box::new(value), Box::new(inside)), sorts, true, rng);
        if made.refusal() == 18 {
            return made;
        }
    }
}

fn mixed_code(rng: &mut Rng) -> u32 {
    rng.pick(&[1, 2, 3, 4, 5, 5, 6, 7, 11])
}

/// Operators on operators on these leaves.
fn mixed(depth: u32, leaves: &[Tree], rng: &mut Rng) -> Tree {
    if depth == 0 || rng.chance(30) {
        return leaves[rng.below(leaves.len())].clone();
    }
    let left = mixed(depth - 1, leaves, rng);
    match mixed_code(rng) {
        11 => Tree::operator(11, left),
        code => Tree::on_two(code, left, mixed(depth - 1, leaves, rng)),
    }
}

pub(super) fn random_palette(rng: &mut Rng) -> Palette {
    if rng.chance(FLOATS) {
        WITH_FLOATS
    } else {
        WITHOUT_FLOATS
    }
}

/// A random formula and the kinds of its inputs; so many leaves in a hundred may be of another kind. It may have too many rows or operators.
fn random_tree(wrong: usize, loops: bool, rng: &mut Rng) -> (Tree, [Sort; 32]) {
    let palette = random_palette(rng);
    let sorts: [Sort; 32] = std::array::from_fn(|_| rng.pick(palette));
    let many = rng.pick(&[0, 1, 2, 3, 4, 6, 32]);
    let scope = random_scope(many, &sorts, rng);
    let fuel = rng.pick(&[1, 3, 10, 25, 50, 80, 120]);
    let width = rng.pick(&[1, 1, 1, 1, 2, 3, 4, 8, 15, 16]);
    let results = random_sorts(width, palette, rng);
    let mut tree = random_expression(&results, Vec::new(), &scope, &Manner { fuel, wrong, palette, loops }, rng);
    if rng.chance(5) && tree.size() < 200 {
        let extra = 200 - tree.size();
        pad(&mut tree, extra, rng);
    }
    (tree, sorts)
}

/// So many names or fewer, of these sorts.
pub(super) fn random_scope(many: usize, sorts: &[Sort; 32], rng: &mut Rng) -> Scope {
    let mut scope: Scope = [None; 32];
    for _ in 0..many {
        let name = rng.below(32);
        scope[name] = Some(sorts[name]);
    }
    scope
}

/// The sheet of a tree with the kinds line of its inputs.
pub(super) fn laid_out(tree: &Tree, sorts: [Sort; 32], shuffled: bool, rng: &mut Rng) -> Made {
    let bytes = sheet::write(&rows(tree, shuffled, rng));
    let names = sheet::input_names(&bytes).unwrap_or_default();
    let kinds = crate::kinds::write_line(&names.iter().map(|&name| sorts[name as usize]).collect::<Vec<_>>());
    Made { bytes, kinds }
}

/// The sheet of a tree; nothing if it has too many rows or operators.
pub(super) fn made(tree: Tree, sorts: [Sort; 32], rng: &mut Rng) -> Option<Made> {
    if tree.size() > MOST_ROWS {
        return None;
    }
    let shuffled = rng.chance(70);
    let made = laid_out(&tree, sorts, shuffled, rng);
    match made.refusal() {
        0 => Some(made),
        refusal => {
            assert_eq!(refusal, 10, "{}", String::from_utf8_lossy(&made.bytes));
            None
        }
    }
}

/// Adds so many rows, each with one operator, by negating or notting leaves.
fn pad(tree: &mut Tree, extra: usize, rng: &mut Rng) {
    for _ in 0..extra {
        let mut leaves = 0;
        tree.each_leaf(&mut |_| leaves += 1);
        let mut chosen = rng.below(leaves) as isize;
        tree.each_leaf(&mut |leaf| {
            if chosen == 0 {
                let code = if leaf.sort() == Some(Sort::Truth) { 10 } else { 11 };
                *leaf = Tree::operator(code, leaf.clone());
            }
            chosen -= 1;
        });
    }
}

/// The names of a sheet with many operators: whole numbers, then floats where it has some.
struct Heavy {
    wholes: usize,
    palette: Palette,
    loops: bool,
}

const HEAVY_WHOLES: Heavy = Heavy { wholes: 32, palette: WITHOUT_FLOATS, loops: true };
const HEAVY_FLOATS: Heavy = Heavy { wholes: 16, palette: WITH_FLOATS, loops: true };

impl Heavy {
    fn random(rng: &mut Rng) -> Heavy {
        if rng.chance(FLOATS) {
            HEAVY_FLOATS
        } else {
            HEAVY_WHOLES
        }
    }

    fn sorts(&self) -> [Sort; 32] {
        std::array::from_fn(|name| if name < self.wholes { Sort::Whole } else { Sort::Real })
    }

    /// A name whose value is a whole number.
    fn whole(&self, rng: &mut Rng) -> u32 {
        rng.below(self.wholes) as u32
    }

    /// A leaf of this kind: a name, where that is one of the names' kind.
    fn leaf(&self, sort: Sort, rng: &mut Rng) -> Tree {
        match sort {
            Sort::Whole => Tree::Identifier(self.whole(rng), Sort::Whole),
            Sort::Real => Tree::Identifier(rng.between(self.wholes, 31) as u32, Sort::Real),
            Sort::Truth => Tree::Truth(rng.chance(50)),
        }
    }
}

/// A random sheet with nearly 1,024 operators, or exactly so many.
pub fn heavy_sheet(rng: &mut Rng) -> Made {
    let heavy = Heavy::random(rng);
    heavy_sheet_of(&heavy, rng)
}

/// Such a sheet without floats: the one that is timed.
pub fn heavy_sheet_of_wholes(rng: &mut Rng) -> Made {
    heavy_sheet_of(&HEAVY_WHOLES, rng)
}

/// Such a sheet without a for.
pub fn heavy_loopless_sheet(rng: &mut Rng) -> Made {
    let heavy = Heavy { loops: false, ..Heavy::random(rng) };
    heavy_sheet_of(&heavy, rng)
}

/// Such a sheet without floats and without a for, to be timed.
pub fn heavy_loopless_sheet_of_wholes(rng: &mut Rng) -> Made {
    heavy_sheet_of(&Heavy { loops: false, ..HEAVY_WHOLES }, rng)
}

fn heavy_sheet_of(heavy: &Heavy, rng: &mut Rng) -> Made {
    loop {
        let tree = heavy_tree(heavy, MOST_OPERATORS as usize, rng);
        if let Some(made) = made(tree, heavy.sorts(), rng) {
            return made;
        }
    }
}

/// A random sheet with more than 1,024 operators, often by one only; it passes all other tests.
pub fn overfull_sheet(rng: &mut Rng) -> Made {
    loop {
        let heavy = Heavy::random(rng);
        let mut tree = heavy_tree(&heavy, MOST_OPERATORS as usize, rng);
        pad(&mut tree, 1, rng);
        while tree.size() < MOST_ROWS && laid_out(&tree, heavy.sorts(), false, rng).refusal() == 0 {
            pad(&mut tree, 1, rng);
        }
        let made = laid_out(&tree, heavy.sorts(), true, rng);
        if made.refusal() == 10 {
            return made;
        }
    }
}

/// Wraps a formula of many names in ifs and loops, each of which gates every name, and pads it up to so many operators.
fn heavy_tree(heavy: &Heavy, most: usize, rng: &mut Rng) -> Tree {
    let width = rng.pick(&[1, 1, 2, 5]);
    let must: Vec<u32> = (0..rng.between(12, 32) as u32).collect();
    let fuel = rng.between(1, 12) as i32;
    let results = random_sorts(width, heavy.palette, rng);
    let manner = Manner { fuel, wrong: 0, palette: heavy.palette, loops: heavy.loops };
    let mut tree = random_expression(&results, must, &heavy.sorts().map(Some), &manner, rng);
    for _ in 0..60 {
        let wrapped = wrap(&tree, &results, heavy, rng);
        if wrapped.size() <= 190 && operators_of(&wrapped, heavy, rng) <= most {
            tree = wrapped;
        }
    }
    let room = (most - operators_of(&tree, heavy, rng).min(most)).min(200 - tree.size().min(200));
    let extra = if rng.chance(70) { room } else { rng.below(room + 1) };
    pad(&mut tree, extra, rng);
    tree
}

fn operators_of(tree: &Tree, heavy: &Heavy, rng: &mut Rng) -> usize {
    let made = laid_out(tree, heavy.sorts(), false, rng);
    match sheet::read(&made.bytes, &made.kinds) {
        Ok(sheet) => sheet.figures.operators as usize,
        Err(_) => usize::MAX,
    }
}

fn wrap(tree: &Tree, results: &[Sort], heavy: &Heavy, rng: &mut Rng) -> Tree {
    let mut other = match results[0] {
        Sort::Whole => Tree::Whole(1),
        Sort::Real => Tree::Real(1),
        Sort::Truth => Tree::Truth(true),
    };
    for &sort in &results[1..] {
        other = Tree::pair(other, heavy.leaf(sort, rng));
    }
    let name = heavy.whole(rng);
    let test = match rng.chance(60) {
        true => Tree::Truth(rng.chance(50)),
        false => Tree::on_two(6, Tree::Identifier(name, Sort::Whole), Tree::Whole(rng.below(5) as u32)),
    };
    match rng.below(8) {
        0..=2 => Tree::choose(test, tree.clone(), other),
        3..=5 => Tree::choose(test, other, tree.clone()),
        6 if tree.size() < 80 => Tree::choose(test, tree.clone(), tree.clone()),
        _ if !heavy.loops => Tree::choose(test, tree.clone(), other),
        _ => {
            let next = Tree::on_two(2, Tree::Identifier(name, Sort::Whole), Tree::Whole(1));
            let counted = Tree::on_two(6, Tree::Whole(0), Tree::Identifier(name, Sort::Whole));
            let body = Tree::choose(counted, Tree::Iter(Box::new(next)), tree.clone());
            Tree::For(name, 1, Box::new(Tree::Whole(rng.below(3) as u32)), Box::new(body))
        }
    }
}

/// An accepted sheet with some identifiers exchanged for others, where they are used and where they are bound.
/// It passes tests 1 to 8; whether it passes the others is open.
pub fn renamed_sheet(rng: &mut Rng) -> Made {
    let made = accepted_sheet(rng);
    let sheet = made.sheet();
    let mut rows: Vec<sheet::Row> = sheet.lines.iter().map(|line| line.row).collect();
    let share = rng.pick(&[2, 10, 40]);
    let names = rng.pick(&[2, 4, 32]);
    for row in &mut rows {
        if rng.chance(share) {
            match row.kind {
                1 => row.a = rng.below(names) as u32,
                6 | 8 => row.a = rng.below(33 - row.b as usize) as u32,
                _ => {}
            }
        }
    }
    let bytes = rows.iter().map(sheet::write_row).collect::<String>().into_bytes();
    Made { kinds: likely_line(&bytes, &made.kinds, rng), bytes }
}

/// How many rows a row of each kind names.
pub const NAMED: [usize; 11] = [0, 0, 0, 0, 2, 1, 2, 3, 2, 1, 0];

/// A random tree of rows with fields in their ranges, each row named once, and no heed of places, widths or names.
pub fn loose_sheet(rng: &mut Rng) -> Made {
    let mut rows: Vec<[u32; 5]> = Vec::new();
    let mut unnamed: Vec<u32> = Vec::new();
    let wanted = rng.between(1, 30);
    while rows.len() < wanted || unnamed.len() > 1 {
        let joining = rows.len() >= wanted;
        let kind = if joining {
            rng.pick(&[4, 6, 7, 8])
        } else {
            rng.pick(&[1, 1, 1, 1, 2, 3, 3, 10, 4, 4, 5, 5, 5, 6, 6, 7, 8, 8, 9])
        };
        let needs = NAMED[kind as usize];
        if unnamed.len() < needs {
            if !joining {
                rows.push([1, rng.below(3) as u32, 0, 0, 0]);
                unnamed.push(rows.len() as u32);
            }
            continue;
        }
        let mut take = || unnamed.remove(rng.below(unnamed.len()));
        let named: Vec<u32> = (0..needs).map(|_| take()).collect();
        rows.push(loose_row(kind, &named, rng));
        unnamed.push(rows.len() as u32);
    }
    let bytes = sheet::write(&rows);
    Made { kinds: likely_line(&bytes, b"", rng), bytes }
}

/// A row of a kind, with these rows in the fields that name some.
pub fn loose_row(kind: u32, named: &[u32], rng: &mut Rng) -> [u32; 5] {
    let name = rng.below(3) as u32;
    match kind {
        1 => [1, name, 0, 0, 0],
        2 => [2, rng.below(9) as u32, 0, 0, 0],
        3 => [3, rng.below(2) as u32, 0, 0, 0],
        4 => [4, named[0], named[1], 0, 0],
        5 => [5, rng.between(1, 11) as u32, named[0], 0, 0],
        7 => [7, named[0], named[1], named[2], 0],
        9 => [9, named[0], 0, 0, 0],
        10 => [10, rng.below(2_000) as u32, 0, 0, 0],
        _ => [kind, name, rng.pick(&[1, 1, 1, 2, 2, 3]), named[0], named[1]],
    }
}

#[cfg(test)]
mod tests {
    use super::*;

    /// Whether a float can stand anywhere in it: a constant, or an input of that kind.
    fn has_float(sheet: &sheet::Sheet) -> bool {
        sheet.sorts.contains(&Sort::Real) || sheet.lines.iter().any(|line| line.row.kind == 10)
    }

    #[test]
    fn a_third_of_the_accepted_sheets_have_a_float() {
        let mut rng = Rng::new(9);
        let mut share = |make: fn(&mut Rng) -> Made, count: usize| {
            (0..count).filter(|_| has_float(&make(&mut rng).sheet())).count() * 100 / count
        };
        let (accepted, heavy) = (share(accepted_sheet, 2_000), share(heavy_sheet, 100));
        assert!((28..=45).contains(&accepted) && (25..=60).contains(&heavy), "{accepted} and {heavy} of 100");
    }
}
