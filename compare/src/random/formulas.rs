// Random formulas that pass tests 1 to 9 by the way they are made: widths and kinds are asked for, and the identifiers that
// a let or for binds are handed down as names that must be used. Where no leaf is of the wrong kind they pass test 18 too.
// Most loops count down, so that most evaluations end.

use super::tree::Tree;
use super::Rng;
use crate::value::Sort;

/// The identifiers in use, by the sort of their values.
pub type Scope = [Option<Sort>; 32];

/// The sorts that the values of a formula are picked from, some of them more often.
pub type Palette = &'static [Sort];

pub const WITHOUT_FLOATS: Palette = &[Sort::Whole, Sort::Whole, Sort::Truth];
pub const WITH_FLOATS: Palette = &[Sort::Whole, Sort::Real, Sort::Real, Sort::Truth];

/// How a formula is made: fuel is about its number of rows, and wrong how often, in a hundred, a leaf is of another sort.
pub struct Manner {
    pub fuel: i32,
    pub wrong: usize,
    pub palette: Palette,
    /// Whether there may be a for.
    pub loops: bool,
}

/// How many counting loops in a hundred count by floats, in a formula that has them.
const FLOAT_COUNTERS: usize = 20;

/// The loop around a body: its first identifier, the sorts iterated and returned, and the identifier that counts down.
#[derive(Clone)]
struct Loop {
    first: u32,
    iterated: Vec<Sort>,
    returned: Vec<Sort>,
    counter: Option<u32>,
    /// Whether an if on the counter stands above.
    guarded: bool,
}

/// Which endings a body must have, and whether it may iterate.
#[derive(Clone, Copy)]
struct Endings {
    iter: bool,
    returned: bool,
    may_iter: bool,
}

struct Maker<'a> {
    rng: &'a mut Rng,
    fuel: i32,
    wrong: usize,
    palette: Palette,
    loops: bool,
}

/// A random expression with values of these sorts that uses these names.
pub fn random_expression(sorts: &[Sort], must: Vec<u32>, scope: &Scope, manner: &Manner, rng: &mut Rng) -> Tree {
    let &Manner { fuel, wrong, palette, loops } = manner;
    Maker { rng, fuel, wrong, palette, loops }.expression(sorts, must, scope)
}

/// A random for with values of these sorts that does not count down, so that its ending hangs on its own tests.
pub fn random_loop(sorts: &[Sort], scope: &Scope, manner: &Manner, rng: &mut Rng) -> Tree {
    let &Manner { fuel, wrong, palette, loops } = manner;
    let mut maker = Maker { rng, fuel, wrong, palette, loops };
    let count = maker.count();
    maker.repetition_of(count, false, sorts, Vec::new(), scope)
}

/// Sorts for so many values.
pub fn random_sorts(count: usize, palette: Palette, rng: &mut Rng) -> Vec<Sort> {
    (0..count).map(|_| rng.pick(palette)).collect()
}

/// A small number as a constant of this sort, which is no truth.
fn constant(sort: Sort, number: u32) -> Tree {
    match sort {
        Sort::Real => Tree::Real(1000 * number),
        _ => Tree::Whole(number),
    }
}

impl Maker<'_> {
    /// Makes a part with a share of the fuel, in a hundred, so that the parts after it get theirs.
    fn with_share(&mut self, share: i32, make: impl FnOnce(&mut Self) -> Tree) -> Tree {
        let kept = self.fuel * (100 - share) / 100;
        self.fuel -= kept;
        let part = make(self);
        self.fuel += kept;
        part
    }

    fn leaf(&mut self, sort: Sort, scope: &Scope) -> Tree {
        let sort =
            if self.rng.chance(self.wrong) { self.rng.pick(&[Sort::Whole, Sort::Truth, Sort::Real]) } else { sort };
        let names: Vec<u32> = (0..32).filter(|&name| scope[name as usize] == Some(sort)).collect();
        if !names.is_empty() && self.rng.chance(70) {
            return Tree::Identifier(self.rng.pick(&names), sort);
        }
        match sort {
            Sort::Truth => Tree::Truth(self.rng.chance(50)),
            Sort::Whole if self.rng.chance(90) => Tree::Whole(self.rng.below(8) as u32),
            Sort::Whole => Tree::Whole(self.rng.below(1_000_000) as u32),
            Sort::Real if self.rng.chance(50) => Tree::Real(250 * self.rng.below(16) as u32),
            Sort::Real => Tree::Real(self.rng.below(1_000_000) as u32),
        }
    }

    fn has_floats(&self) -> bool {
        self.palette.contains(&Sort::Real)
    }

    /// A name as a value of this sort, over a test or a comparison where it is of another.
    fn name_as(&mut self, name: u32, sort: Sort, scope: &Scope) -> Tree {
        let has = scope[name as usize].unwrap_or(sort);
        let identifier = Tree::Identifier(name, has);
        if has == sort {
            return identifier;
        }
        let test = match has {
            Sort::Truth => identifier,
            _ => Tree::on_two(6, identifier, constant(has, self.rng.below(6) as u32)),
        };
        match sort {
            Sort::Truth => test,
            _ => Tree::choose(test, constant(sort, 1), constant(sort, 0)),
        }
    }

    /// A small expression with these values that uses these names.
    fn least(&mut self, sorts: &[Sort], must: &[u32], scope: &Scope) -> Tree {
        if sorts.len() > 1 {
            let (left, right) = sorts.split_at(self.rng.between(1, sorts.len() - 1));
            let share = self.rng.between(0, must.len());
            return Tree::pair(self.least(left, &must[..share], scope), self.least(right, &must[share..], scope));
        }
        match *must {
            [] => self.leaf(sorts[0], scope),
            [name] => self.name_as(name, sorts[0], scope),
            _ => {
                let code = if sorts[0] == Sort::Truth { self.rng.between(8, 9) } else { self.rng.between(1, 3) };
                let (left, right) = must.split_at(self.rng.between(1, must.len() - 1));
                Tree::on_two(code as u32, self.least(sorts, left, scope), self.least(sorts, right, scope))
            }
        }
    }

    /// Deals names out to so many parts; now and then a name goes to two.
    fn deal(&mut self, names: &[u32], parts: usize) -> Vec<Vec<u32>> {
        let mut dealt = vec![Vec::new(); parts];
        for &name in names {
            for _ in 0..if self.rng.chance(10) { 2 } else { 1 } {
                dealt[self.rng.below(parts)].push(name);
            }
        }
        dealt
    }

    fn expression(&mut self, sorts: &[Sort], must: Vec<u32>, scope: &Scope) -> Tree {
        self.fuel -= 1;
        if self.fuel <= 0 || self.rng.chance(5) {
            return self.least(sorts, &must, scope);
        }
        match (self.rng.below(100), sorts.len()) {
            (0..=44, 1) => self.operator(sorts[0], must, scope),
            (0..=44, _) => {
                let (left, right) = sorts.split_at(self.rng.between(1, sorts.len() - 1));
                let parts = self.deal(&must, 2);
                let left = self.with_share(50, |maker| maker.expression(left, parts[0].clone(), scope));
                Tree::pair(left, self.expression(right, parts[1].clone(), scope))
            }
            (45..=59, _) => self.binding(None, must, scope, |maker, must, inner| maker.expression(sorts, must, inner)),
            (80.., _) if self.loops => self.repetition(sorts, must, scope),
            _ => {
                let parts = self.deal(&must, 3);
                let test = self.with_share(30, |maker| maker.expression(&[Sort::Truth], parts[0].clone(), scope));
                let yes = self.with_share(50, |maker| maker.expression(sorts, parts[1].clone(), scope));
                Tree::choose(test, yes, self.expression(sorts, parts[2].clone(), scope))
            }
        }
    }

    fn operator(&mut self, sort: Sort, must: Vec<u32>, scope: &Scope) -> Tree {
        let code = match sort {
            Sort::Whole => self.rng.pick(&[1, 1, 2, 2, 3, 3, 4, 5, 11]),
            Sort::Truth => self.rng.pick(&[6, 6, 7, 8, 9, 10]),
            Sort::Real => self.rng.pick(&[1, 1, 2, 2, 3, 3, 4, 4, 11]),
        };
        let wanted = match code {
            8..=10 => Sort::Truth,
            6 | 7 if self.has_floats() && self.rng.chance(60) => Sort::Real,
            6 | 7 => Sort::Whole,
            _ => sort,
        };
        let operands = vec![wanted; crate::value::operands(code)];
        Tree::operator(code, self.expression(&operands, must, scope))
    }

    /// A let; what it is in is made by the caller, which is handed the names to use and the new scope.
    /// Now and then it binds identifiers from a given one on, those of the loop around it.
    fn binding(
        &mut self,
        around: Option<u32>,
        must: Vec<u32>,
        scope: &Scope,
        inside: impl FnOnce(&mut Self, Vec<u32>, &Scope) -> Tree,
    ) -> Tree {
        let count = self.count();
        let sorts = random_sorts(count, self.palette, self.rng);
        let near = around.filter(|_| self.rng.chance(50));
        let (first, bound, inner) = self.bind(near, &sorts, scope);
        let (for_value, for_inside) = self.part(&must, &bound);
        let value = self.with_share(30, |maker| maker.expression(&sorts, for_value, scope));
        let inside = inside(self, for_inside, &inner);
        Tree::Let(first, count as u32, Box::new(value), Box::new(inside))
    }

    /// How many identifiers a let or for binds.
    fn count(&mut self) -> usize {
        if self.rng.chance(7) {
            self.rng.between(4, 16)
        } else {
            self.rng.between(1, 3)
        }
    }

    /// Identifiers for values of these sorts, from a given one on or any, and the scope with them.
    fn bind(&mut self, near: Option<u32>, sorts: &[Sort], scope: &Scope) -> (u32, Vec<u32>, Scope) {
        let most = 32 - sorts.len();
        let first = near.map_or_else(|| self.rng.between(0, most), |first| most.min(first as usize));
        let mut inner = *scope;
        for (place, &sort) in sorts.iter().enumerate() {
            inner[first + place] = Some(sort);
        }
        let bound = (first as u32..(first + sorts.len()) as u32).collect();
        (first as u32, bound, inner)
    }

    /// Names to be used in row c and in row d. A name that is bound anew can be used in row c only.
    fn part(&mut self, must: &[u32], bound: &[u32]) -> (Vec<u32>, Vec<u32>) {
        let mut for_value = Vec::new();
        let mut for_inside = bound.to_vec();
        for &name in must {
            if bound.contains(&name) || self.rng.chance(50) {
                for_value.push(name);
            } else {
                for_inside.push(name);
            }
        }
        (for_value, for_inside)
    }

    /// A for with results of these sorts.
    fn repetition(&mut self, sorts: &[Sort], must: Vec<u32>, scope: &Scope) -> Tree {
        let count = self.count();
        let counted = self.rng.chance(85);
        self.repetition_of(count, counted, sorts, must, scope)
    }

    /// A for of so many identifiers, the first of which may count down.
    fn repetition_of(&mut self, count: usize, counted: bool, sorts: &[Sort], must: Vec<u32>, scope: &Scope) -> Tree {
        let mut iterated = random_sorts(count, self.palette, self.rng);
        if counted {
            let by_floats = self.has_floats() && self.rng.chance(FLOAT_COUNTERS);
            iterated[0] = if by_floats { Sort::Real } else { Sort::Whole };
        }
        let (first, bound, inner) = self.bind(None, &iterated, scope);
        let (for_start, for_body) = self.part(&must, &bound);
        let start = self.with_share(25, |maker| maker.expression(&iterated, for_start, scope));
        let counter = counted.then_some(first);
        let around = Loop { first, iterated, returned: sorts.to_vec(), counter, guarded: false };
        let body = self.body(&around, for_body, &inner, Endings { iter: true, returned: true, may_iter: true });
        Tree::For(first, count as u32, Box::new(start), Box::new(body))
    }

    fn body(&mut self, around: &Loop, must: Vec<u32>, scope: &Scope, endings: Endings) -> Tree {
        self.fuel -= 1;
        let more = self.fuel > 0;
        if more && self.rng.chance(20) {
            return self.binding(Some(around.first), must, scope, |maker, must, inner| {
                let mut around = around.clone();
                // A let that rebinds the counter: to another sort, or now and then, the loop counts down no more, and need not end.
                let rebound = around.counter.filter(|name| must.contains(name));
                let counts = Some(around.iterated[0]);
                if rebound.is_some_and(|name| inner[name as usize] != counts || maker.rng.chance(30)) {
                    around.counter = None;
                }
                maker.body(&around, must, inner, endings)
            });
        }
        if (endings.iter && endings.returned) || (more && self.rng.chance(40)) {
            return self.body_if(around, must, scope, endings);
        }
        if endings.iter || (!endings.returned && endings.may_iter && self.rng.chance(60)) {
            return Tree::Iter(Box::new(self.next_values(around, must, scope)));
        }
        if more && self.rng.chance(15) {
            return self.repetition(&around.returned, must, scope);
        }
        self.expression(&around.returned, must, scope)
    }

    fn body_if(&mut self, around: &Loop, must: Vec<u32>, scope: &Scope, endings: Endings) -> Tree {
        let parts = self.deal(&must, 3);
        let none = Endings { iter: false, returned: false, may_iter: endings.may_iter };
        let (mut yes, mut no) = (none, none);
        let mut inner = around.clone();
        let test = match around.counter {
            Some(name) if !around.guarded => {
                inner.guarded = true;
                yes.iter = endings.iter;
                no.may_iter = false;
                let sort = around.iterated[0];
                let least = constant(sort, self.rng.below(3) as u32);
                let guard = Tree::on_two(6, least, Tree::Identifier(name, sort));
                match parts[0].is_empty() {
                    true => guard,
                    false => Tree::on_two(8, guard, self.least(&[Sort::Truth], &parts[0], scope)),
                }
            }
            _ => {
                *self.either(&mut yes.iter, &mut no.iter) |= endings.iter;
                *self.either(&mut yes.returned, &mut no.returned) |= endings.returned;
                self.with_share(30, |maker| maker.expression(&[Sort::Truth], parts[0].clone(), scope))
            }
        };
        let yes = self.with_share(50, |maker| maker.body(&inner, parts[1].clone(), scope, yes));
        let no = self.body(&inner, parts[2].clone(), scope, no);
        Tree::choose(test, yes, no)
    }

    fn either<'b>(&mut self, left: &'b mut bool, right: &'b mut bool) -> &'b mut bool {
        if self.rng.chance(50) {
            left
        } else {
            right
        }
    }

    /// The values of an iter; the counter is less.
    fn next_values(&mut self, around: &Loop, must: Vec<u32>, scope: &Scope) -> Tree {
        let Some(counter) = around.counter else {
            return self.expression(&around.iterated, must, scope);
        };
        let sort = around.iterated[0];
        let less = self.counted_down(counter, sort);
        let rest = &around.iterated[1..];
        if !rest.is_empty() {
            return Tree::pair(less, self.expression(rest, must, scope));
        }
        if must.iter().all(|&name| name == counter) {
            return less;
        }
        let nothing = Tree::on_two(3, constant(sort, 0), self.least(&[sort], &must, scope));
        Tree::on_two(1, less, nothing)
    }

    /// One less; of a float, from which 1 may be too little to take, as often its half.
    fn counted_down(&mut self, counter: u32, sort: Sort) -> Tree {
        let (code, by) = if sort == Sort::Real && self.rng.chance(50) { (4, 2) } else { (2, 1) };
        Tree::on_two(code, Tree::Identifier(counter, sort), constant(sort, by))
    }
}
