// Writes the lists of calls in src/tag_cases.rs as test data: FOLDER/NNN with formula.txt, kinds.txt, sets.txt and calls.txt, a line of three six-character fields
// a call; and FOLDER/expected with what start and each call answer. The product's crate tag_runs holds them.

use compare::{product, tag_cases};
use std::path::Path;
use std::{env, fs, io, process};

fn main() -> io::Result<()> {
    let Some(folder) = env::args().nth(1) else {
        eprintln!("usage: tag_cases FOLDER");
        process::exit(2);
    };
    let folder = Path::new(&folder);
    let mut expected = String::new();
    for (number, case) in (1..).zip(tag_cases::list(product::tagged_start)) {
        let place = folder.join(format!("{number:03}"));
        fs::create_dir_all(&place)?;
        fs::write(place.join("formula.txt"), &case.made.bytes)?;
        fs::write(place.join("kinds.txt"), &case.made.kinds)?;
        fs::write(place.join("sets.txt"), case.sets_text())?;
        fs::write(place.join("calls.txt"), case.calls_text())?;
        println!("{number:03} {:4} calls  {}", case.lines.len(), case.name);
        expected.push_str(&case.expected(product::tagged_start));
    }
    fs::write(folder.join("expected"), expected)
}
