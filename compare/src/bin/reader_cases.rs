// Writes the list of sheets in src/cases.rs as test data: FOLDER/NNN/formula.txt and FOLDER/NNN/kinds.txt, and FOLDER/expected
// with a line each: refusal, row, rows, operators, inputs and results, in six-character fields. The product's crate sheet_runs
// holds them.

use compare::cases;
use std::path::Path;
use std::{env, fs, io, process};

fn main() -> io::Result<()> {
    let Some(folder) = env::args().nth(1) else {
        eprintln!("usage: reader_cases FOLDER");
        process::exit(2);
    };
    let folder = Path::new(&folder);
    let mut expected = String::new();
    for (number, case) in (1..).zip(cases::list()) {
        let place = folder.join(format!("{number:03}"));
        fs::create_dir_all(&place)?;
        fs::write(place.join("formula.txt"), &case.made.bytes)?;
        fs::write(place.join("kinds.txt"), &case.made.kinds)?;
        let line = cases::answer_line(&case.made);
        println!("{number:03} {line} {}", case.name);
        expected.push_str(&line);
        expected.push('\n');
    }
    fs::write(folder.join("expected"), expected)
}
