// A formula as a tree, and its rows in any order in which a row comes after those it names.
// Assumes trees of at most a few hundred parts.

use super::Rng;
use crate::value::Sort;

#[derive(Clone, Debug)]
pub enum Tree {
    /// An identifier with the kind of its value.
    Identifier(u32, Sort),
    Whole(u32),
    Truth(bool),
    /// A float, by its thousandths.
    Real(u32),
    Pair(Box<Tree>, Box<Tree>),
    Operator(u32, Box<Tree>),
    /// Identifiers from the first on, so many, bound to a value, in a row.
    Let(u32, u32, Box<Tree>, Box<Tree>),
    If(Box<Tree>, Box<Tree>, Box<Tree>),
    For(u32, u32, Box<Tree>, Box<Tree>),
    Iter(Box<Tree>),
}

impl Tree {
    pub fn pair(left: Tree, right: Tree) -> Tree {
        Tree::Pair(Box::new(left), Box::new(right))
    }

    pub fn operator(code: u32, operand: Tree) -> Tree {
        Tree::Operator(code, Box::new(operand))
    }

    pub fn on_two(code: u32, left: Tree, right: Tree) -> Tree {
        Tree::operator(code, Tree::pair(left, right))
    }

    pub fn choose(test: Tree, yes: Tree, no: Tree) -> Tree {
        Tree::If(Box::new(test), Box::new(yes), Box::new(no))
    }

    fn children(&self) -> Vec<&Tree> {
        match self {
            Tree::Identifier(..) | Tree::Whole(_) | Tree::Truth(_) | Tree::Real(_) => vec![],
            Tree::Operator(_, one) | Tree::Iter(one) => vec![one],
            Tree::Pair(one, two) | Tree::Let(_, _, one, two) | Tree::For(_, _, one, two) => vec![one, two],
            Tree::If(one, two, three) => vec![one, two, three],
        }
    }

    /// The kind of a leaf.
    pub fn sort(&self) -> Option<Sort> {
        match *self {
            Tree::Identifier(_, sort) => Some(sort),
            Tree::Whole(_) => Some(Sort::Whole),
            Tree::Truth(_) => Some(Sort::Truth),
            Tree::Real(_) => Some(Sort::Real),
            _ => None,
        }
    }

    pub fn size(&self) -> usize {
        1 + self.children().into_iter().map(Tree::size).sum::<usize>()
    }

    /// The five fields, given the rows of the children.
    fn fields(&self, rows: &[u32]) -> [u32; 5] {
        match *self {
            Tree::Identifier(name, _) => [1, name, 0, 0, 0],
            Tree::Whole(number) => [2, number, 0, 0, 0],
            Tree::Truth(truth) => [3, truth.into(), 0, 0, 0],
            Tree::Real(thousandths) => [10, thousandths, 0, 0, 0],
            Tree::Pair(..) => [4, rows[0], rows[1], 0, 0],
            Tree::Operator(code, _) => [5, code, rows[0], 0, 0],
            Tree::Let(first, count, ..) => [6, first, count, rows[0], rows[1]],
            Tree::If(..) => [7, rows[0], rows[1], rows[2], 0],
            Tree::For(first, count, ..) => [8, first, count, rows[0], rows[1]],
            Tree::Iter(_) => [9, rows[0], 0, 0, 0],
        }
    }

    /// Calls on every leaf, from the left.
    pub fn each_leaf(&mut self, call: &mut impl FnMut(&mut Tree)) {
        match self {
            Tree::Identifier(..) | Tree::Whole(_) | Tree::Truth(_) | Tree::Real(_) => call(self),
            Tree::Operator(_, one) | Tree::Iter(one) => one.each_leaf(call),
            Tree::Pair(one, two) | Tree::Let(_, _, one, two) | Tree::For(_, _, one, two) => {
                one.each_leaf(call);
                two.each_leaf(call);
            }
            Tree::If(one, two, three) => {
                one.each_leaf(call);
                two.each_leaf(call);
                three.each_leaf(call);
            }
        }
    }
}

struct Node<'a> {
    tree: &'a Tree,
    parent: usize,
    children: Vec<usize>,
    /// Children that have no row yet.
    missing: usize,
    row: u32,
}

fn lay_out<'a>(tree: &'a Tree, parent: usize, nodes: &mut Vec<Node<'a>>) -> usize {
    let place = nodes.len();
    let children = tree.children();
    nodes.push(Node { tree, parent, children: Vec::new(), missing: children.len(), row: 0 });
    for child in children {
        let child = lay_out(child, place, nodes);
        nodes[place].children.push(child);
    }
    place
}

/// The rows of a tree. `shuffled` picks any part that may come next; else the parts come in an order near to reading.
pub fn rows(tree: &Tree, shuffled: bool, rng: &mut Rng) -> Vec<[u32; 5]> {
    let mut nodes = Vec::new();
    lay_out(tree, 0, &mut nodes);
    let mut ready: Vec<usize> = (0..nodes.len()).rev().filter(|&node| nodes[node].missing == 0).collect();
    let mut rows: Vec<[u32; 5]> = Vec::new();
    while !ready.is_empty() {
        let chosen = if shuffled { rng.below(ready.len()) } else { ready.len() - 1 };
        let place = ready.swap_remove(chosen);
        let numbers: Vec<u32> = nodes[place].children.iter().map(|&child| nodes[child].row).collect();
        rows.push(nodes[place].tree.fields(&numbers));
        nodes[place].row = rows.len() as u32;
        let parent = nodes[place].parent;
        if place != parent {
            nodes[parent].missing -= 1;
            if nodes[parent].missing == 0 {
                ready.push(parent);
            }
        }
    }
    rows
}
