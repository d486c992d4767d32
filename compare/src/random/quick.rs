// Random sheets without for, with a slow value that quick sets need not wait for (document 02, Job 12): "let x = SLOW in if TEST then A else B", where B does not
// use x. A set that chooses B has its result before its slow value is through; this is left on its way to a gate that has to absorb it.

use super::formulas::{random_expression, random_sorts, Manner, Palette, Scope};
use super::sheets::{made, random_palette, random_scope, Made};
use super::tree::Tree;
use super::Rng;
use crate::value::Sort;

/// How many operators a slow value has behind each other.
const CHAINS: [usize; 5] = [1, 3, 6, 12, 30];

/// A random accepted sheet of this sort.
pub fn quick_sheet(rng: &mut Rng) -> Made {
    loop {
        let palette = random_palette(rng);
        let sorts: [Sort; 32] = std::array::from_fn(|_| rng.pick(palette));
        let many = rng.pick(&[1, 2, 3, 4, 6]);
        let scope = random_scope(many, &sorts, rng);
        let width = rng.pick(&[1, 1, 1, 1, 2, 3, 5]);
        let results = random_sorts(width, palette, rng);
        let tree = Maker { rng, palette }.formula(&results, &scope);
        if let Some(made) = made(tree, sorts, rng) {
            return made;
        }
    }
}

struct Maker<'a> {
    rng: &'a mut Rng,
    palette: Palette,
}

impl Maker<'_> {
    /// The choice by itself, beside another formula, or one of two within each other.
    fn formula(&mut self, results: &[Sort], scope: &Scope) -> Tree {
        match (self.rng.below(10), results.len()) {
            (0 | 1, 2..) => {
                let (left, right) = results.split_at(self.rng.between(1, results.len() - 1));
                Tree::pair(self.formula(left, scope), self.expression(right, vec![], scope))
            }
            (2 | 3, _) => {
                let other = self.choice(results, scope, |maker, scope| maker.expression(results, vec![], scope));
                self.choice(results, scope, |_, _| other)
            }
            _ => self.choice(results, scope, |maker, scope| maker.expression(results, vec![], scope)),
        }
    }

    /// "let x = SLOW in if TEST then A else B", or with the arms the other way round; the caller makes B.
    fn choice(&mut self, results: &[Sort], scope: &Scope, quick: impl FnOnce(&mut Self, &Scope) -> Tree) -> Tree {
        let sort = self.rng.pick(self.palette);
        // A name of its own, since B is made for the scope without it.
        let name = (0..32).find(|&name| scope[name as usize].is_none()).unwrap_or(0);
        let mut inner = *scope;
        inner[name as usize] = Some(sort);
        let test = self.test(scope);
        let slow = self.slow(sort, scope);
        let a = self.expression(results, vec![name], &inner);
        let b = quick(self, scope);
        let choice = if self.rng.chance(50) { Tree::choose(test, a, b) } else { Tree::choose(test, b, a) };
        Tree::Let(name, 1, Box::new(slow), Box::new(choice))
    }

    /// A name that is a truth, where there is one, or a small test.
    fn test(&mut self, scope: &Scope) -> Tree {
        let truths: Vec<u32> = (0..32).filter(|&name| scope[name as usize] == Some(Sort::Truth)).collect();
        if !truths.is_empty() && self.rng.chance(70) {
            return Tree::Identifier(self.rng.pick(&truths), Sort::Truth);
        }
        let manner = self.manner(&[1, 2, 4]);
        random_expression(&[Sort::Truth], vec![], scope, &manner, self.rng)
    }

    /// Negations, or nots, of a small expression.
    fn slow(&mut self, sort: Sort, scope: &Scope) -> Tree {
        let code = if sort == Sort::Truth { 10 } else { 11 };
        let mut tree = self.expression(&[sort], vec![], scope);
        for _ in 0..self.rng.pick(&CHAINS) {
            tree = Tree::operator(code, tree);
        }
        tree
    }

    fn expression(&mut self, sorts: &[Sort], must: Vec<u32>, scope: &Scope) -> Tree {
        let manner = self.manner(&[0, 1, 1, 3, 6, 15]);
        random_expression(sorts, must, scope, &manner, self.rng)
    }

    /// Of one of these sizes.
    fn manner(&mut self, sizes: &[i32]) -> Manner {
        Manner { fuel: self.rng.pick(sizes), wrong: 0, palette: self.palette, loops: false }
    }
}
