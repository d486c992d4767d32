// Writes the list of sheets in src/tidy_cases.rs as test data: FOLDER/NNN/formula.txt, and FOLDER/expected with what tidying each answers: refusal, row and rows in
// six-character fields and a line feed, then the new sheet. The product's crate tidy_runs holds them.

use compare::tidy_cases;
use std::path::Path;
use std::{env, fs, io, process};

fn main() -> io::Result<()> {
    let Some(folder) = env::args().nth(1) else {
        eprintln!("usage: tidy_cases FOLDER");
        process::exit(2);
    };
    let folder = Path::new(&folder);
    let mut expected = Vec::new();
    for (number, case) in (1..).zip(tidy_cases::list()) {
        let place = folder.join(format!("{number:03}"));
        fs::create_dir_all(&place)?;
        fs::write(place.join("formula.txt"), &case.sheet)?;
        let (answer, text) = tidy_cases::expected(&case.sheet);
        println!("{number:03} {:6}{:6}{:6} {}", answer.refusal, answer.row, answer.rows, case.name);
        expected.extend(text);
    }
    fs::write(folder.join("expected"), expected)
}
