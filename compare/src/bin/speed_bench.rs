// Times the whole way of sets, push, run and take, and the program, on the examples: the product's beside the plain machines here and beside direct
// evaluation. Prints the tables of docs/BENCHMARKS.md. Usage: speed_bench PROGRAM EXAMPLES, the product's program and the folder of the examples.
// A speed is the product's over the plain one's: 1.00 is as fast, 0.50 takes twice as long.

use compare::bench::{read_sets, write_set};
use compare::bytes::{self, encode_set, OUT_BYTES};
use compare::calls::{self, Calls, PLAIN};
use compare::graph::{self, Graph};
use compare::machine::Machine;
use compare::table::{grouped, head, row, speed};
use compare::tally::Tally;
use compare::timing::{in_turns, Call};
use compare::value::Value;
use compare::{memory, product, sheet};
use std::fs::File;
use std::hint::black_box;
use std::path::Path;
use std::process::{self, Command, Stdio};
use std::time::Duration;
use std::{env, fs};

const EXAMPLES: [&str; 3] = ["lesser-of-two", "factorial", "verdict"];
const SETS: usize = 4_000;
const ROUNDS: u32 = 1_000;

fn main() {
    let words: Vec<String> = env::args().skip(1).collect();
    let [program, folder] = &words[..] else {
        eprintln!("usage: speed_bench PROGRAM EXAMPLES");
        process::exit(2)
    };
    let program = fs::canonicalize(program).expect("the product's program");
    let examples = EXAMPLES.map(|name| Example::load(name, &Path::new(folder).join(name)));
    whole_way(&examples);
    evaluation(&examples);
    capacities(&examples);
    growth(&examples);
    programs(&examples, &program);
}

struct Example {
    name: &'static str,
    formula: Vec<u8>,
    kinds: Vec<u8>,
    graph: Graph,
    sets: Vec<Vec<Value>>,
}

impl Example {
    fn load(name: &'static str, folder: &Path) -> Example {
        let formula = fs::read(folder.join("formula.txt")).expect("an example's formula");
        let kinds = fs::read(folder.join("kinds.txt")).expect("an example's kinds");
        let sheet = sheet::read(&formula, &kinds).expect("an accepted sheet");
        let text = fs::read(folder.join("sets.txt")).expect("an example's sets");
        let sets = read_sets(&text, &sheet.sorts).expect("good sets");
        Example { name, formula, kinds, graph: graph::build(&sheet), sets }
    }

    /// Its sets again and again, so many in all.
    fn sets(&self, count: usize) -> Vec<Vec<Value>> {
        self.sets.iter().cloned().cycle().take(count).collect()
    }

    fn encoded(&self, count: usize) -> Vec<Vec<u8>> {
        self.sets(count).iter().map(|set| encode_set(set)).collect()
    }
}

/// Nanoseconds of a call of each, the least over two seconds.
fn least_times(calls: &mut [&mut dyn FnMut() -> u32]) -> Vec<f64> {
    in_turns(calls, 20, Duration::from_secs(2))
}

fn product_calls() -> Calls {
    calls::product().expect("the product is linked")
}

/// Keeps the compiler from leaving a result out.
fn look(result: &[u8]) {
    black_box(result);
}

/// The loop over a machine that was started before.
fn session<'a>(calls: Calls, example: &Example, capacity: u32, sets: &'a [Vec<u8>]) -> Call<'a> {
    let mut mem = vec![0; memory::need(capacity as usize)];
    (calls.start)(&example.formula, &example.kinds, capacity, &mut mem, &mut Tally::default());
    Box::new(move || calls.session(&mut mem, sets, u32::MAX, &mut look).count)
}

/// The loop with the start.
fn started_session<'a>(calls: Calls, example: &'a Example, sets: &'a [Vec<u8>]) -> Call<'a> {
    let mut mem = vec![0; memory::need(2)];
    Box::new(move || {
        (calls.start)(&example.formula, &example.kinds, 2, &mut mem, &mut Tally::default());
        calls.session(&mut mem, sets, u32::MAX, &mut look).count
    })
}

/// The loop over the plain machine that knows no bytes.
fn machine_session<'a>(example: &'a Example, sets: &'a [Vec<Value>]) -> Call<'a> {
    let mut machine = Machine::start(&example.graph, 2).expect("a capacity in its range");
    Box::new(move || {
        let (mut pushed, mut taken) = (0, 0);
        while taken < sets.len() {
            while pushed < sets.len() && machine.push(&sets[pushed]).is_ok() {
                pushed += 1;
            }
            machine.run(u32::MAX);
            while let Ok(set) = machine.take() {
                black_box(set.width);
                taken += 1;
            }
        }
        taken as u32
    })
}

fn whole_way(examples: &[Example]) {
    head(&[
        "4,000 sets at capacity 2, sets a second",
        "plain machine",
        "plain, on bytes",
        "product",
        "speed to the first",
        "to the second",
    ]);
    for example in examples {
        let (values, sets) = (example.sets(SETS), example.encoded(SETS));
        let mut machine = machine_session(example, &values);
        let (mut plain, mut product) = (session(PLAIN, example, 2, &sets), session(product_calls(), example, 2, &sets));
        assert_eq!(plain(), product(), "the firings of {}", example.name);
        let times = least_times(&mut [&mut *machine, &mut *plain, &mut *product]);
        let [machine, plain, product] = [0, 1, 2].map(|place| times[place] / SETS as f64);
        row(&[
            example.name.into(),
            rate(machine),
            rate(plain),
            rate(product),
            speed(machine, product),
            speed(plain, product),
        ]);
    }
}

/// Direct evaluation of each set; every call reads the sheet anew, on both sides.
fn evaluation(examples: &[Example]) {
    head(&["direct evaluation, sets a second", "plain", "product", "speed"]);
    for example in examples {
        let sets = example.encoded(example.sets.len());
        let (mut plain_out, mut product_out) = ([0; OUT_BYTES], [0; OUT_BYTES]);
        let Example { formula, kinds, .. } = example;
        let mut plain =
            || sets.iter().map(|set| bytes::evaluate(formula, kinds, set, ROUNDS, &mut plain_out).rounds).sum();
        let mut product =
            || sets.iter().map(|set| product::evaluate(formula, kinds, set, ROUNDS, &mut product_out).rounds).sum();
        let times = least_times(&mut [&mut plain, &mut product]);
        let [plain, product] = [0, 1].map(|place| times[place] / sets.len() as f64);
        row(&[example.name.into(), rate(plain), rate(product), speed(plain, product)]);
    }
}

fn capacities(examples: &[Example]) {
    head(&["1,000 sets, sets a second", "capacity", "plain, on bytes", "product", "speed"]);
    for example in examples {
        let sets = example.encoded(1_000);
        for capacity in [1, 2, 4, 8, 16] {
            let mut plain = session(PLAIN, example, capacity, &sets);
            let mut product = session(product_calls(), example, capacity, &sets);
            let times = least_times(&mut [&mut *plain, &mut *product]);
            let [plain, product] = [0, 1].map(|place| times[place] / sets.len() as f64);
            row(&[example.name.into(), capacity.to_string(), rate(plain), rate(product), speed(plain, product)]);
        }
    }
}

fn growth(examples: &[Example]) {
    head(&["a start and the whole way, ns a set", "sets", "plain, on bytes", "product", "speed"]);
    for example in examples {
        for count in [1, 10, 100, 1_000, SETS] {
            let sets = example.encoded(count);
            let mut plain = started_session(PLAIN, example, &sets);
            let mut product = started_session(product_calls(), example, &sets);
            let times = least_times(&mut [&mut *plain, &mut *product]);
            let [plain, product] = [0, 1].map(|place| times[place] / count as f64);
            let count = grouped(count as f64);
            row(&[example.name.into(), count, grouped(plain), grouped(product), speed(plain, product)]);
        }
    }
}

/// The whole program, with the start of its process, the reading of its files and the writing of its output to a file.
fn programs(examples: &[Example], product: &Path) {
    let plain = env::current_exe().expect("this program").with_file_name("bench");
    let folder = env::temp_dir().join(format!("speed_bench.{}", process::id()));
    fs::create_dir_all(&folder).expect("a folder of one's own");
    head(&["the program, µs", "sets", "plain", "product", "speed"]);
    for example in examples {
        for count in [1, 100, 2_800] {
            let text: String = example.sets(count).iter().map(|set| write_set(set)).collect();
            fs::write(folder.join("formula.txt"), &example.formula).expect("a file is written");
            fs::write(folder.join("kinds.txt"), &example.kinds).expect("a file is written");
            fs::write(folder.join("sets.txt"), text).expect("a file is written");
            let times = least_times(&mut [&mut || run(&plain, &folder), &mut || run(product, &folder)]);
            let count = grouped(count as f64);
            let [plain, product] = [times[0], times[1]];
            row(&[example.name.into(), count, grouped(plain / 1e3), grouped(product / 1e3), speed(plain, product)]);
        }
    }
    fs::remove_dir_all(&folder).expect("the folder is there");
}

fn run(program: &Path, folder: &Path) -> u32 {
    let printed = File::create(folder.join("printed")).expect("a file is written");
    let ended = Command::new(program).current_dir(folder).stdin(Stdio::null()).stdout(printed).status();
    ended.expect("a program that runs").code().unwrap_or(1) as u32
}

/// Sets a second, from nanoseconds a set.
fn rate(time: f64) -> String {
    grouped(1e9 / time)
}
