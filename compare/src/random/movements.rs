// Sheets that drift is told for, with tolerances; tolerances about the greatest that are taken, and such as are at fault; sheets with a row of another sort; and
// pairs of sets within tolerance.

use super::linear::{random_formula, NAMES};
use super::sheets::{laid_out, Made};
use super::tree::Tree;
use super::turns::random_sheet;
use super::Rng;
use crate::drift::{drift, MOST, NUMBER_BYTES, ROOM};
use crate::sheet::{self, MOST_ROWS};
use crate::value::{Sort, Value, PLACES};

/// A sheet with tolerances and, where the way it was made tells it, the refusals of which it gets one, 0 where it may be accepted.
pub struct Moving {
    pub made: Made,
    pub tolerances: Vec<u8>,
    pub known: Option<&'static [u32]>,
}

/// The kinds of cases by turns.
pub fn moving_sheet(number: u64, rng: &mut Rng) -> (&'static str, Moving) {
    match number % 16 {
        0..=6 => ("of the right sort", told_sheet(rng)),
        7..=9 => ("about the greatest number", edged_sheet(rng)),
        10..=12 => ("with a row of another sort", spoiled_sheet(rng)),
        13 => ("with tolerances at fault", misjudged_sheet(rng)),
        _ => ("sheets as they are read", any_sheet(number, rng)),
    }
}

/// The bytes of tolerances.
pub fn encoded(tolerances: &[u32]) -> Vec<u8> {
    tolerances.iter().flat_map(|tolerance| tolerance.to_le_bytes()).collect()
}

fn decoded(bytes: &[u8]) -> Vec<u32> {
    let number = |bytes: &[u8]| u32::from_le_bytes([bytes[0], bytes[1], bytes[2], bytes[3]]);
    bytes.chunks_exact(NUMBER_BYTES).map(number).collect()
}

const ACCEPTED: u32 = 0;
const SORT: u32 = 20;
const MOVEMENT: u32 = 21;

fn told_sheet(rng: &mut Rng) -> Moving {
    let made = sheet_of(rng, |tree, _| tree);
    let small = rng.chance(60);
    let tolerances = random_tolerances(made.sheet().sorts.len(), small, rng);
    Moving { made, tolerances, known: Some(&[ACCEPTED, MOVEMENT]) }
}

/// A formula of the right sort, changed, as a sheet that is accepted.
fn sheet_of(rng: &mut Rng, mut change: impl FnMut(Tree, &mut Rng) -> Tree) -> Made {
    loop {
        let formula = random_formula(rng);
        let tree = change(formula, rng);
        let shuffled = rng.chance(70);
        if tree.size() <= MOST_ROWS {
            let made = laid_out(&tree, SORTS, shuffled, rng);
            if made.refusal() == 0 {
                return made;
            }
        }
    }
}

/// Names that formulas of the right sort do not use.
const TRUTH: u32 = NAMES as u32;
const REAL: u32 = NAMES as u32 + 1;
const SORTS: [Sort; 32] = {
    let mut sorts = [Sort::Whole; 32];
    sorts[TRUTH as usize] = Sort::Truth;
    sorts[REAL as usize] = Sort::Real;
    sorts
};

fn random_tolerances(count: usize, small: bool, rng: &mut Rng) -> Vec<u8> {
    encoded(&(0..count).map(|_| random_tolerance(small, rng)).collect::<Vec<_>>())
}

fn random_tolerance(small: bool, rng: &mut Rng) -> u32 {
    match rng.below(10) {
        0 => 0,
        1..=6 if small => rng.below(30) as u32,
        _ if small => rng.below(100_000) as u32,
        1 => MOST,
        2 => MOST - rng.below(3) as u32,
        _ => rng.number() as u32 >> rng.between(1, 31),
    }
}

/// Tolerances of which one is the greatest, or one more than the greatest, that is taken beside the others.
fn edged_sheet(rng: &mut Rng) -> Moving {
    loop {
        let mut moving = told_sheet(rng);
        let mut tolerances = decoded(&moving.tolerances);
        if tolerances.is_empty() || !is_taken(&moving.made, &tolerances) {
            continue;
        }
        let place = rng.below(tolerances.len());
        let (mut taken, mut refused) = (tolerances[place], MOST + 1);
        while refused - taken > 1 {
            tolerances[place] = taken + (refused - taken) / 2;
            if is_taken(&moving.made, &tolerances) {
                taken = tolerances[place];
            } else {
                refused = tolerances[place];
            }
        }
        let over = rng.chance(40);
        tolerances[place] = if over { refused } else { taken };
        moving.tolerances = encoded(&tolerances);
        moving.known = Some(if over { &[MOVEMENT] } else { &[ACCEPTED] });
        return moving;
    }
}

fn is_taken(made: &Made, tolerances: &[u32]) -> bool {
    drift(&made.bytes, &made.kinds, &encoded(tolerances), &mut [0; ROOM]).refusal == ACCEPTED
}

/// As many tolerances as there are inputs, or not, with one out of range or not; now and then of the right sort no more.
fn misjudged_sheet(rng: &mut Rng) -> Moving {
    let Moving { made, mut tolerances, mut known } = if rng.chance(80) { told_sheet(rng) } else { spoiled_sheet(rng) };
    let fault = match rng.below(6) {
        0 => tolerances.pop().is_some(),
        1 => {
            let length = rng.below(tolerances.len() + 1);
            let cut = length < tolerances.len();
            tolerances.truncate(length);
            cut
        }
        2 => {
            let more = rng.pick(&[1, 2, 3, 4, 4, 4, 8, 100, 70_000]);
            tolerances.resize(tolerances.len() + more, 0);
            true
        }
        _ => match tolerances.len() / NUMBER_BYTES {
            0 => false,
            inputs => {
                let any = rng.number() as u32;
                let tolerance = rng.pick(&[MOST + 1, MOST + 2, u32::MAX, any | (MOST + 1)]);
                let place = NUMBER_BYTES * rng.below(inputs);
                tolerances[place..place + NUMBER_BYTES].copy_from_slice(&tolerance.to_le_bytes());
                true
            }
        },
    };
    if fault && known != Some(&[SORT]) {
        known = Some(&[MOVEMENT]);
    }
    Moving { made, tolerances, known }
}

/// Any sheet, mostly with as many tolerances as it has inputs.
fn any_sheet(number: u64, rng: &mut Rng) -> Moving {
    let (_, made) = random_sheet(number / 16 * 2 + number % 2, rng);
    let inputs = sheet::input_names(&made.bytes).map_or(rng.below(4), |names| names.len());
    let mut tolerances = random_tolerances(inputs, true, rng);
    if rng.chance(5) {
        tolerances.push(0);
    }
    Moving { made, tolerances, known: None }
}

// ---- rows of another sort

/// A formula of the right sort with one part put in that is not, which reading accepts.
fn spoiled_sheet(rng: &mut Rng) -> Moving {
    let made = sheet_of(rng, |mut tree, rng| {
        if rng.chance(30) && width(&tree) < PLACES {
            let (stray, front) = (stray_result(rng), rng.chance(50));
            return if front { Tree::pair(stray, tree) } else { Tree::pair(tree, stray) };
        }
        let mut leaves = 0;
        tree.each_leaf(&mut |_| leaves += 1);
        let mut chosen = rng.below(leaves) as isize;
        tree.each_leaf(&mut |leaf| {
            if chosen == 0 {
                *leaf = spoiled(leaf.clone(), rng);
            }
            chosen -= 1;
        });
        tree
    });
    let small = rng.chance(70);
    let tolerances = random_tolerances(made.sheet().sorts.len(), small, rng);
    Moving { made, tolerances, known: Some(&[SORT]) }
}

/// How many values it has.
fn width(tree: &Tree) -> usize {
    match tree {
        Tree::Pair(left, right) => width(left) + width(right),
        Tree::Let(_, _, _, inside) => width(inside),
        _ => 1,
    }
}

/// A value that is no whole number.
fn stray_result(rng: &mut Rng) -> Tree {
    match rng.below(5) {
        0 => Tree::Real(rng.below(5_000) as u32),
        1 => Tree::Identifier(REAL, Sort::Real),
        2 => Tree::on_two(1, Tree::Real(500), Tree::Identifier(REAL, Sort::Real)),
        _ => truth(Tree::Whole(3), rng),
    }
}

/// A truth, which may use a whole number.
fn truth(of: Tree, rng: &mut Rng) -> Tree {
    match rng.below(5) {
        0 => Tree::Truth(rng.chance(50)),
        1 => Tree::Identifier(TRUTH, Sort::Truth),
        2 => Tree::operator(10, Tree::Identifier(TRUTH, Sort::Truth)),
        3 => Tree::on_two(8, Tree::Truth(true), Tree::Identifier(TRUTH, Sort::Truth)),
        _ => Tree::on_two(rng.pick(&[6, 7]), of, Tree::Whole(5)),
    }
}

/// A leaf within a part that is of another sort, or has a value that is. Where the leaf is the constant of a multiply or a divide, that becomes one too.
fn spoiled(leaf: Tree, rng: &mut Rng) -> Tree {
    const NAME: u32 = NAMES as u32 - 1;
    let named = || Tree::Identifier(NAME, Sort::Whole);
    let binding = |inside: Tree, value: Tree| Tree::Let(NAME, 1, Box::new(value), Box::new(inside));
    let no_constant = |leaf: Tree| if let Tree::Whole(_) = leaf { Tree::operator(11, leaf) } else { leaf };
    match rng.below(15) {
        0 => Tree::on_two(5, leaf, Tree::Whole(7)),
        1 => Tree::on_two(4, leaf, Tree::Whole(0)),
        2 => Tree::on_two(4, leaf.clone(), no_constant(leaf)),
        3 => Tree::on_two(4, Tree::Whole(9), no_constant(leaf)),
        4 => Tree::on_two(3, no_constant(leaf), named()),
        // The constant behind a name, and the pair behind a let.
        5 => binding(Tree::on_two(3, no_constant(leaf), named()), Tree::Whole(4)),
        6 => binding(Tree::on_two(4, no_constant(leaf), named()), Tree::Whole(4)),
        7 => {
            let pair = Tree::pair(named(), Tree::Whole(3));
            Tree::operator(rng.pick(&[3, 4]), binding(pair, leaf))
        }
        // A truth or a float that a name hands on.
        8 => binding(Tree::choose(named(), leaf, Tree::Whole(1)), truth(Tree::Whole(2), rng)),
        9 => binding(Tree::choose(Tree::on_two(6, named(), Tree::Real(1)), leaf, Tree::Whole(1)), Tree::Real(2)),
        10 => {
            let next = Tree::Iter(Box::new(Tree::on_two(2, named(), Tree::Whole(1))));
            let body = Tree::choose(Tree::on_two(6, Tree::Whole(0), named()), next, named());
            Tree::For(NAME, 1, Box::new(leaf), Box::new(body))
        }
        _ => {
            let test = truth(leaf.clone(), rng);
            let other = if rng.chance(50) { leaf.clone() } else { Tree::Whole(1) };
            Tree::choose(test, leaf, other)
        }
    }
}

// ---- sets within tolerance

/// Two sets of which each input is err in either or differs by no more than its tolerance, often by just that much.
pub fn near_sets(tolerances: &[u8], rng: &mut Rng) -> [Vec<Value>; 2] {
    let pairs: Vec<[Value; 2]> = decoded(tolerances).iter().map(|&tolerance| near_values(tolerance, rng)).collect();
    [0, 1].map(|side| pairs.iter().map(|pair| pair[side]).collect())
}

fn near_values(tolerance: u32, rng: &mut Rng) -> [Value; 2] {
    let tolerance = i64::from(tolerance);
    let apart = match rng.below(10) {
        0 => 0,
        1 | 2 => (rng.number() >> 1) as i64 % (tolerance + 1),
        _ => tolerance,
    };
    // The lesser of the two, so that both are in the range.
    let (least, most) = (i64::from(i32::MIN), i64::from(i32::MAX) - apart);
    let lesser = match rng.below(20) {
        0 => least,
        1 => most,
        2 => least + (rng.number() >> 1) as i64 % (most - least + 1),
        3..=9 => (-(apart / 2)).clamp(least, most),
        _ => (rng.between(0, 40) as i64 - 20 - apart / 2).clamp(least, most),
    };
    let mut pair = [lesser, lesser + apart].map(|number| Value::Whole(number as i32));
    if rng.chance(50) {
        pair.reverse();
    }
    if rng.chance(4) {
        pair[rng.below(2)] = rng.pick(&Value::ERRS);
    }
    pair
}

#[cfg(test)]
mod tests {
    use super::*;
    use std::collections::BTreeMap;

    #[test]
    fn what_is_known_of_a_sheet_is_how_it_is_refused() {
        let mut seen: BTreeMap<u32, u32> = BTreeMap::new();
        for case in 0..4_000 {
            let (kind, Moving { made, tolerances, known }) = moving_sheet(case, &mut Rng::new(case));
            let refusal = drift(&made.bytes, &made.kinds, &tolerances, &mut [0; ROOM]).refusal;
            let text = String::from_utf8_lossy(&made.bytes);
            assert!(known.is_none_or(|known| known.contains(&refusal)), "{kind}: {refusal}\n{text}{tolerances:?}");
            *seen.entry(refusal).or_default() += 1;
        }
        assert!([ACCEPTED, SORT, MOVEMENT].iter().all(|refusal| seen[refusal] > 400), "{seen:?}");
    }

    #[test]
    fn sets_are_within_tolerance() {
        let mut rng = Rng::new(3);
        for tolerance in [0, 1, 2, 1_000, MOST - 1, MOST] {
            for _ in 0..2_000 {
                if let [Value::Whole(x), Value::Whole(y)] = near_values(tolerance, &mut rng) {
                    assert!(x.abs_diff(y) <= tolerance);
                }
            }
        }
    }
}
