// The program bench of document 01 by the implementation here: reads formula.txt, kinds.txt and sets.txt in the folder it
// is run in and prints the results. For holding the product's program to it.

use std::io::Write;
use std::{fs, io};

fn main() -> io::Result<()> {
    // "A missing file counts as empty."
    let formula = fs::read("formula.txt").unwrap_or_default();
    let kinds = fs::read("kinds.txt").unwrap_or_default();
    let sets = fs::read("sets.txt").unwrap_or_default();
    io::stdout().write_all(&compare::bench::bench(&formula, &kinds, &sets))
}
