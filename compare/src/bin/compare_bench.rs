// Runs the product's program bench on random folders and holds what it prints to what the program here prints, and stops at the first difference.
// Usage: compare_bench PROGRAM CASES SEED [FIRST]. `compare_bench PROGRAM 1 SEED NUMBER` makes a case again.
// Results before a 36 depend on the numbering of operators: there the loop here is run on the graph that the product made, and each line printed must
// besides be its set's own result.

use compare::arguments::{Cases, Counts};
use compare::bench::{bench, read_sets, write_set, CAPACITY, FIRINGS};
use compare::bytes::{decode_set, encode_set};
use compare::calls::{self, PLAIN};
use compare::random::folders::{field_folders, random_folder, Folder};
use compare::sheet::Refusal;
use compare::tally::Tally;
use compare::value::Value;
use compare::{eval, memory, sheet};
use std::path::{Path, PathBuf};
use std::process::{Command, Stdio};
use std::sync::atomic::{AtomicU64, Ordering};
use std::{env, fs, process, thread};

fn main() {
    let words: Vec<String> = env::args().skip(1).collect();
    let cases = Cases::from(words.get(1..).unwrap_or_default(), "compare_bench PROGRAM");
    let program = fs::canonicalize(&words[0]).expect("the product's program");
    let fields = compare_fields(&program, &cases);
    let next = AtomicU64::new(cases.first);
    let workers = thread::available_parallelism().map_or(1, usize::from);
    let mut counts = Counts::new();
    thread::scope(|scope| {
        let work = |worker| {
            let (program, cases, next) = (&program, &cases, &next);
            scope.spawn(move || compare_some(program, worker, cases, next))
        };
        let working: Vec<_> = (0..workers).map(work).collect();
        for worker in working {
            let part = worker.join().expect("no panic");
            part.into_iter().for_each(|(kind, count)| *counts.entry(kind).or_default() += count);
        }
    });
    println!("no difference in {} cases and {fields} single fields", cases.count);
    for group in ["formula", "kinds", "sets", "ended with"] {
        let names = counts.iter().filter_map(|(kind, count)| Some((kind.strip_prefix(group)?, count)));
        println!("{group}:{}", names.map(|(kind, count)| format!("{kind} {count}")).collect::<Vec<_>>().join(","));
    }
}

/// Fields one by one; how many there were.
fn compare_fields(program: &Path, cases: &Cases) -> usize {
    let folder = env::temp_dir().join(format!("compare_bench.{}.fields", process::id()));
    fs::create_dir_all(&folder).expect("a folder of one's own");
    let folders = field_folders(&mut cases.rng(cases.first));
    for made in &folders {
        if let Err(difference) = compare_run(program, &folder, made) {
            println!("a field of seed {}, in {}\n{difference}", cases.seed, folder.display());
            process::exit(1);
        }
    }
    fs::remove_dir_all(&folder).expect("the folder is there");
    folders.len()
}

/// One worker's share, in a folder of its own, which stays where a difference was found.
fn compare_some(program: &Path, worker: usize, cases: &Cases, next: &AtomicU64) -> Counts {
    let folder = env::temp_dir().join(format!("compare_bench.{}.{worker}", process::id()));
    fs::create_dir_all(&folder).expect("a folder of one's own");
    let mut counts = Counts::new();
    loop {
        let number = next.fetch_add(1, Ordering::Relaxed);
        if !cases.numbers().contains(&number) {
            break;
        }
        let made = random_folder(&mut cases.rng(number));
        match compare_run(program, &folder, &made) {
            Ok(ending) => {
                let groups =
                    ["formula", "kinds", "sets"].iter().zip(made.made).map(|(file, how)| format!("{file} {how}"));
                groups.chain([ending]).for_each(|kind| *counts.entry(kind).or_default() += 1);
            }
            Err(difference) => {
                println!("case {number} of seed {}, in {}\n{difference}", cases.seed, folder.display());
                process::exit(1);
            }
        }
    }
    fs::remove_dir_all(&folder).expect("the folder is there");
    counts
}

fn put(path: PathBuf, bytes: &Option<Vec<u8>>) {
    match bytes {
        Some(bytes) => fs::write(path, bytes).expect("a file is written"),
        None => drop(fs::remove_file(path)),
    }
}

/// How both end, if the program prints what it must.
fn compare_run(program: &Path, folder: &Path, made: &Folder) -> Result<String, String> {
    put(folder.join("formula.txt"), &made.formula);
    put(folder.join("kinds.txt"), &made.kinds);
    put(folder.join("sets.txt"), &made.sets);
    let run =
        Command::new(program).current_dir(folder).stdin(Stdio::null()).output().map_err(|error| error.to_string())?;
    let [formula, kinds, sets] =
        [&made.formula, &made.kinds, &made.sets].map(|file| file.as_deref().unwrap_or_default());
    let ours = bench(formula, kinds, sets);
    if !run.stderr.is_empty() || !run.status.success() {
        return Err(format!("the product ends with {}: {}", run.status, String::from_utf8_lossy(&run.stderr)));
    }
    let last = ours.strip_suffix(b"\n").and_then(|text| text.rsplit(|&byte| byte == b'\n').next()).unwrap_or_default();
    let refusal = if last.len() == 12 { String::from_utf8_lossy(&last[..6]).trim().to_string() } else { "0".into() };
    if refusal != "36" {
        return if run.stdout == ours { Ok(format!("ended with {refusal:>2}")) } else { Err(show(&ours, &run.stdout)) };
    }
    let first = ours.iter().position(|&byte| byte == b'\n').map_or(0, |end| end + 1);
    let numbered = [&ours[..first], &before_36(formula, kinds, sets)?, b"    36     0\n"].concat();
    match (run.stdout == numbered, first + 13 < numbered.len()) {
        (false, _) => Err(show(&numbered, &run.stdout)),
        (true, true) => Ok("ended with 36 behind results".into()),
        (true, false) => Ok("ended with 36 alone".into()),
    }
}

fn show(ours: &[u8], product: &[u8]) -> String {
    let text = |bytes: &[u8]| String::from_utf8_lossy(&bytes[..bytes.len().min(2000)]).into_owned();
    format!("here\n{}\nthe product\n{}", text(ours), text(product))
}

/// The lines before a 36, by the calls here on the machine that the product starts; each is what evaluation gives for its set, where that ends.
fn before_36(formula: &[u8], kinds: &[u8], sets: &[u8]) -> Result<Vec<u8>, String> {
    let sheet = sheet::read(formula, kinds).map_err(|_| "a refused sheet")?;
    let sets = read_sets(sets, &sheet.sorts).map_err(|_| "a refused set")?;
    let mut mem = vec![0; memory::need(CAPACITY)];
    let product = calls::product().expect("the product is linked");
    (product.start)(formula, kinds, CAPACITY as u32, &mut mem, &mut Tally::default());
    let encoded: Vec<Vec<u8>> = sets.iter().map(|set| encode_set(set)).collect();
    let mut results: Vec<Vec<Value>> = Vec::new();
    let ran = PLAIN
        .session(&mut mem, &encoded, FIRINGS, &mut |result| results.push(decode_set(result).expect("good values")));
    if ran.refusal != 36 {
        return Err(format!("{} firings of the product's graph are enough", ran.count));
    }
    for (set, result) in sets.iter().zip(&results) {
        // A result may come while a loop that it does not hang on goes on without end: then evaluation gives none to hold it to.
        match eval::evaluate(&sheet, set, FIRINGS) {
            Ok(done) if done.set.used() == *result => {}
            Err(Refusal { number: 36, .. }) => {}
            other => return Err(format!("evaluation gives {other:?} for {set:?}, the machine {result:?}")),
        }
    }
    Ok(results.iter().flat_map(|result| write_set(result).into_bytes()).collect())
}
