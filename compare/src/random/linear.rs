// Random formulas of whole numbers that drift is told for (document 02, Job 13): they pass tests 1 to 9 by the way they are made. The identifiers that a let binds
// are handed down as names that must be used.

use super::tree::Tree;
use super::Rng;
use crate::value::{Sort, PLACES};

/// How many names they use, from 0 on.
pub const NAMES: usize = 30;

/// A random formula of any size. It may have too many rows.
pub fn random_formula(rng: &mut Rng) -> Tree {
    let fuel = rng.pick(&[1, 3, 6, 10, 25, 60, 100, 150]);
    let names = rng.pick(&[0, 1, 2, 3, 4, 8, NAMES]);
    let scope = (0..names).map(|_| rng.below(NAMES) as u32).collect::<Vec<_>>();
    let width = rng.pick(&[1, 1, 1, 1, 2, 3, 4, 8, 15, 16]);
    Maker { rng, fuel }.expression(width, Vec::new(), &scope)
}

struct Maker<'a> {
    rng: &'a mut Rng,
    fuel: i32,
}

impl Maker<'_> {
    /// An expression of this width that uses these names, and others in scope.
    fn expression(&mut self, width: usize, must: Vec<u32>, scope: &[u32]) -> Tree {
        self.fuel -= 1;
        if self.fuel <= 0 || self.rng.chance(5) {
            return self.least(width, &must, scope);
        }
        match (self.rng.below(100), width) {
            (0..=17, _) => self.binding(width, must, scope),
            (_, 2..) => {
                let (left, right) = self.deal(&must);
                let width_of_left = self.rng.between(1, width - 1);
                let left = self.half(|maker| maker.expression(width_of_left, left, scope));
                Tree::pair(left, self.expression(width - width_of_left, right, scope))
            }
            (18..=44, _) => Tree::operator(self.sum_code(), self.expression(2, must, scope)),
            (45..=54, _) => Tree::operator(11, self.expression(1, must, scope)),
            (55..=76, _) => {
                let (constant, other) = (Tree::Whole(self.constant()), self.expression(1, must, scope));
                let front = self.rng.chance(50);
                let (left, right) = if front { (constant, other) } else { (other, constant) };
                Tree::on_two(3, left, right)
            }
            _ => {
                let constant = Tree::Whole(self.constant().max(1));
                Tree::on_two(4, self.expression(1, must, scope), constant)
            }
        }
    }

    /// Makes a part with half the fuel.
    fn half(&mut self, make: impl FnOnce(&mut Self) -> Tree) -> Tree {
        let kept = self.fuel / 2;
        self.fuel -= kept;
        let part = make(self);
        self.fuel += kept;
        part
    }

    fn sum_code(&mut self) -> u32 {
        self.rng.pick(&[1, 2])
    }

    fn constant(&mut self) -> u32 {
        match self.rng.below(10) {
            0..=6 => self.rng.below(8) as u32,
            7 | 8 => self.rng.below(1_000) as u32,
            _ => self.rng.pick(&[999_999, 65_536, 32_768, 999_983]),
        }
    }

    /// A small one.
    fn least(&mut self, width: usize, must: &[u32], scope: &[u32]) -> Tree {
        if width > 1 {
            let (left, right) = must.split_at(self.rng.between(0, must.len()));
            let width_of_left = self.rng.between(1, width - 1);
            return Tree::pair(self.least(width_of_left, left, scope), self.least(width - width_of_left, right, scope));
        }
        match *must {
            [] if scope.is_empty() || self.rng.chance(20) => Tree::Whole(self.constant()),
            [] => Tree::Identifier(self.rng.pick(scope), Sort::Whole),
            [name] => Tree::Identifier(name, Sort::Whole),
            _ => {
                let (left, right) = must.split_at(self.rng.between(1, must.len() - 1));
                let code = self.sum_code();
                Tree::on_two(code, self.least(1, left, scope), self.least(1, right, scope))
            }
        }
    }

    /// Deals names out to two parts; now and then one goes to both.
    fn deal(&mut self, names: &[u32]) -> (Vec<u32>, Vec<u32>) {
        let (mut left, mut right) = (Vec::new(), Vec::new());
        for &name in names {
            let share = self.rng.below(10);
            if share < 6 {
                left.push(name);
            }
            if share >= 5 {
                right.push(name);
            }
        }
        (left, right)
    }

    /// A let. A name that is bound anew can be used in row c only.
    fn binding(&mut self, width: usize, must: Vec<u32>, scope: &[u32]) -> Tree {
        let count = if self.rng.chance(10) { self.rng.between(4, PLACES) } else { self.rng.between(1, 3) };
        let first = self.rng.between(0, NAMES - count) as u32;
        let bound: Vec<u32> = (first..first + count as u32).collect();
        let (for_value, mut for_inside): (Vec<u32>, Vec<u32>) =
            must.iter().partition(|name| bound.contains(name) || self.rng.chance(50));
        let value = self.half(|maker| maker.expression(count, for_value, scope));
        for_inside.extend(&bound);
        let inner = [scope, &bound].concat();
        let inside = self.expression(width, for_inside, &inner);
        Tree::Let(first, count as u32, Box::new(value), Box::new(inside))
    }
}
