// Writes the list of logs in src/log_cases.rs as test data: FOLDER/NNN with formula.txt, kinds.txt, sets.txt, log.txt and asked.txt, the capacity and the number
// of sets in six-character fields; and FOLDER/expected with what a check of each answers: refusal, row, results and their width, in six-character fields, and a
// line for each result. The product's crate log_runs holds them.

use compare::{log_cases, product};
use std::path::Path;
use std::{env, fs, io, process};

fn main() -> io::Result<()> {
    let Some(folder) = env::args().nth(1) else {
        eprintln!("usage: log_cases FOLDER");
        process::exit(2);
    };
    let folder = Path::new(&folder);
    let mut expected = String::new();
    for (number, case) in (1..).zip(log_cases::list(product::start)) {
        let place = folder.join(format!("{number:03}"));
        fs::create_dir_all(&place)?;
        fs::write(place.join("formula.txt"), &case.made.bytes)?;
        fs::write(place.join("kinds.txt"), &case.made.kinds)?;
        fs::write(place.join("sets.txt"), &case.sets)?;
        fs::write(place.join("log.txt"), &case.log)?;
        fs::write(place.join("asked.txt"), case.asked())?;
        let (answer, text) = case.expected(product::start);
        println!("{number:03} {:6}{:6}{:6} {}", answer.refusal, answer.row, answer.count, case.name);
        expected.push_str(&text);
    }
    fs::write(folder.join("expected"), expected)
}
