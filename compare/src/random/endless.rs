// Random sheets with a loop that goes on for ever for some sets, where most results do not hang on it (document 02, Job 11): "let x = LOOP in if TEST then A else B".
// The arm that TEST mostly chooses does not use x, so that results can be taken while the loop goes on for a set before theirs.

use super::formulas::{random_expression, random_loop, random_sorts, Manner, Palette, Scope};
use super::sheets::{laid_out, made, random_palette, random_scope, Made};
use super::tree::Tree;
use super::{fitting_set, Rng};
use crate::eval::evaluate;
use crate::sheet;
use crate::value::{Sort, Value};
use std::ops::RangeInclusive;

/// How many sets a loop or a test is tried on, and the rounds lent to each.
const SETS: usize = 16;
const ROUNDS: u32 = 40;

/// For how many of these sets a loop must go on.
const GOING_ON: RangeInclusive<usize> = 2..=5;

/// For how many of these sets a test must choose the same arm: behind a set that loops and chooses the arm with x no result need come.
const MOSTLY: usize = 14;

/// How many loops or tests are made for one that is as wanted.
const TRIES: usize = 20;

/// A random accepted sheet of this sort.
pub fn endless_sheet(rng: &mut Rng) -> Made {
    loop {
        let palette = random_palette(rng);
        let sorts: [Sort; 32] = std::array::from_fn(|_| rng.pick(palette));
        let many = rng.pick(&[2, 3, 4, 6, 12]);
        let scope = random_scope(many, &sorts, rng);
        let width = rng.pick(&[1, 1, 1, 1, 1, 2, 2, 3, 5, 16]);
        let results = random_sorts(width, palette, rng);
        let tree = Maker { rng, palette }.formula(&results, &scope);
        if let Some(made) = tree.and_then(|tree| made(tree, sorts, rng)) {
            return made;
        }
    }
}

struct Maker<'a> {
    rng: &'a mut Rng,
    palette: Palette,
}

/// Names that a part must use.
type Names = Vec<u32>;

impl Maker<'_> {
    /// The choice by itself, beside another formula, within a let or within a loop that counts down.
    fn formula(&mut self, results: &[Sort], scope: &Scope) -> Option<Tree> {
        match (self.rng.below(10), results.len()) {
            (0 | 1, 2..) => {
                let (left, right) = results.split_at(self.rng.between(1, results.len() - 1));
                Some(Tree::pair(self.formula(left, scope)?, self.expression(right, vec![], scope)))
            }
            (2 | 3, _) => {
                let (sorts, names, inner) = self.bind(scope);
                let value = self.expression(&sorts, vec![], scope);
                Some(bound(&names, value, self.choice(results, names.clone(), &inner)?))
            }
            (4 | 5, _) => self.repeated_choice(results, scope),
            _ => self.choice(results, vec![], scope),
        }
    }

    /// "let x = LOOP in if TEST then A else B", where B now and then is such a let again.
    fn choice(&mut self, results: &[Sort], must: Names, scope: &Scope) -> Option<Tree> {
        self.choice_with(results, must, scope, |maker, must, scope| match maker.rng.chance(25) {
            true => maker.choice(results, must, scope),
            false => Some(maker.expression(results, must, scope)),
        })
    }

    /// "for i = n do let x = LOOP in if TEST then A else if 0 < i then iter i - 1 else B": here one set starts LOOP several times.
    fn repeated_choice(&mut self, results: &[Sort], scope: &Scope) -> Option<Tree> {
        let counter = self.rng.below(32) as u32;
        let mut inner = *scope;
        inner[counter as usize] = Some(Sort::Whole);
        let body = self.choice_with(results, vec![], &inner, |maker, must, scope| {
            // x may have taken the counter's place.
            scope[counter as usize]?;
            let i = || Tree::Identifier(counter, Sort::Whole);
            let next = Tree::Iter(Box::new(Tree::on_two(2, i(), Tree::Whole(1))));
            let returned = maker.expression(results, must, scope);
            Some(Tree::choose(Tree::on_two(6, Tree::Whole(0), i()), next, returned))
        })?;
        let start = Tree::Whole(self.rng.below(4) as u32);
        Some(Tree::For(counter, 1, Box::new(start), Box::new(body)))
    }

    /// "let x = LOOP in if TEST then A else B"; the caller makes B, of the names that it must use and a scope without x. Nothing where no loop or test as
    /// wanted was found, or where x takes the place of a name that must be used.
    fn choice_with(
        &mut self,
        results: &[Sort],
        must: Names,
        scope: &Scope,
        arm_without: impl FnOnce(&mut Self, Names, &Scope) -> Option<Tree>,
    ) -> Option<Tree> {
        let (sorts, names, with) = self.bind(scope);
        if must.iter().any(|name| names.contains(name)) {
            return None;
        }
        let mut without = *scope;
        names.iter().for_each(|&name| without[name as usize] = None);
        let value = self.endless(&sorts, scope)?;
        let (test, mostly) = self.test(&without)?;
        let (for_a, for_b) = must.into_iter().partition(|_| self.rng.chance(50));
        let a = self.expression(results, [for_a, names.clone()].concat(), &with);
        let b = arm_without(self, for_b, &without)?;
        let choice = if mostly { Tree::choose(test, b, a) } else { Tree::choose(test, a, b) };
        Some(bound(&names, value, choice))
    }

    /// A loop that goes on for some sets only, now and then two beside each other.
    fn endless(&mut self, sorts: &[Sort], scope: &Scope) -> Option<Tree> {
        if sorts.len() > 1 && self.rng.chance(40) {
            let (left, right) = sorts.split_at(self.rng.between(1, sorts.len() - 1));
            return Some(Tree::pair(self.endless(left, scope)?, self.endless(right, scope)?));
        }
        (0..TRIES).find_map(|_| {
            let manner = self.manner(&[1, 3, 6, 15]);
            let tree = random_loop(sorts, scope, &manner, self.rng);
            let going_on = outcomes(&tree, scope, self.rng).iter().filter(|value| value.is_none()).count();
            GOING_ON.contains(&going_on).then_some(tree)
        })
    }

    /// A test of some name in scope, and the truth that it mostly gives.
    fn test(&mut self, scope: &Scope) -> Option<(Tree, bool)> {
        let names: Names = (0..32).filter(|&name| scope[name as usize].is_some()).collect();
        (0..TRIES).filter(|_| !names.is_empty()).find_map(|_| {
            let must = vec![self.rng.pick(&names)];
            let manner = self.manner(&[0, 1, 3, 6]);
            let tree = random_expression(&[Sort::Truth], must, scope, &manner, self.rng);
            let values = outcomes(&tree, scope, self.rng);
            let count = |truth| values.iter().filter(|&&value| value == Some(Value::Truth(truth))).count();
            let mostly = [false, true].into_iter().find(|&truth| count(truth) >= MOSTLY)?;
            Some((tree, mostly))
        })
    }

    fn expression(&mut self, sorts: &[Sort], must: Names, scope: &Scope) -> Tree {
        let manner = self.manner(&[0, 1, 1, 3, 6, 20]);
        random_expression(sorts, must, scope, &manner, self.rng)
    }

    /// Of one of these sizes.
    fn manner(&mut self, sizes: &[i32]) -> Manner {
        Manner { fuel: self.rng.pick(sizes), wrong: 0, palette: self.palette, loops: true }
    }

    /// The sorts of some values, names for them, and the scope with these.
    fn bind(&mut self, scope: &Scope) -> (Vec<Sort>, Names, Scope) {
        let count = self.rng.pick(&[1, 1, 1, 1, 1, 1, 2, 2, 3, 6]);
        let sorts = random_sorts(count, self.palette, self.rng);
        let first = self.rng.between(0, 32 - count);
        let mut inner = *scope;
        for (place, &sort) in inner[first..].iter_mut().zip(&sorts) {
            *place = Some(sort);
        }
        (sorts, (first as u32..(first + count) as u32).collect(), inner)
    }
}

/// A let of these names.
fn bound(names: &[u32], value: Tree, inside: Tree) -> Tree {
    Tree::Let(names[0], names.len() as u32, Box::new(value), Box::new(inside))
}

/// The first value of a formula for each of some sets, with the names in scope as its inputs; none where it goes on. No values where it is too long to
/// be read.
fn outcomes(tree: &Tree, scope: &Scope, rng: &mut Rng) -> Vec<Option<Value>> {
    let sorts = scope.map(|sort| sort.unwrap_or(Sort::Whole));
    let Made { bytes, kinds } = laid_out(tree, sorts, false, rng);
    let Ok(sheet) = sheet::read(&bytes, &kinds) else { return vec![] };
    let mut outcome = || evaluate(&sheet, &fitting_set(&sheet, rng), ROUNDS).ok().map(|done| done.set.values[0]);
    (0..SETS).map(|_| outcome()).collect()
}

#[cfg(test)]
mod tests {
    use super::*;
    use crate::graph;
    use crate::machine::Machine;
    use crate::value::ResultSet;

    const CAPACITY: usize = 8;
    const MANY_ROUNDS: u32 = 2_000;

    /// What the machine here gives for sets pushed all at once, as far as it comes.
    fn results(sheet: &sheet::Sheet, sets: &[Vec<Value>]) -> Vec<ResultSet> {
        let graph = graph::build(sheet);
        let mut machine = Machine::start(&graph, CAPACITY).expect("a capacity in range");
        sets.iter().for_each(|set| machine.push(set).expect("a set that fits"));
        machine.run_by_rounds(MANY_ROUNDS);
        std::iter::from_fn(|| machine.take().ok()).collect()
    }

    #[test]
    fn results_behind_sets_that_go_on_are_right() {
        let mut rng = Rng::new(3);
        let mut behind = 0;
        for _ in 0..200 {
            let sheet = endless_sheet(&mut rng).sheet();
            let sets: Vec<Vec<Value>> = (0..CAPACITY).map(|_| fitting_set(&sheet, &mut rng)).collect();
            let mut goes_on = false;
            for (set, result) in sets.iter().zip(results(&sheet, &sets)) {
                let Ok(done) = evaluate(&sheet, set, MANY_ROUNDS) else {
                    goes_on = true;
                    continue;
                };
                assert_eq!(done.set, result);
                behind += u32::from(goes_on);
            }
        }
        assert!(behind > 300, "{behind}");
    }
}
