// Writes the list in src/drift_cases.rs as test data: FOLDER/NNN with formula.txt, kinds.txt, tolerances, their bytes, and room.txt, the bytes lent for the numbers
// in a six-character field; and FOLDER/expected with what the call answers for each: refusal, row and results in six-character fields and, where it is accepted,
// the numbers in a line of eleven-character fields. The product's crate drift_runs holds them.

use compare::drift_cases;
use std::path::Path;
use std::{env, fs, io, process};

fn main() -> io::Result<()> {
    let Some(folder) = env::args().nth(1) else {
        eprintln!("usage: drift_cases FOLDER");
        process::exit(2);
    };
    let folder = Path::new(&folder);
    let mut expected = String::new();
    for (number, case) in (1..).zip(drift_cases::list()) {
        let place = folder.join(format!("{number:03}"));
        fs::create_dir_all(&place)?;
        fs::write(place.join("formula.txt"), &case.made.bytes)?;
        fs::write(place.join("kinds.txt"), &case.made.kinds)?;
        fs::write(place.join("tolerances"), &case.tolerances)?;
        fs::write(place.join("room.txt"), case.room_line())?;
        let (answer, text) = case.expected();
        println!("{number:03} {:6}{:6}{:6} {}", answer.refusal, answer.row, answer.results, case.name);
        expected.push_str(&text);
    }
    fs::write(folder.join("expected"), expected)
}
