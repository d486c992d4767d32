// How much stack each of the product's calls takes, for sheets that lead deep: the stack below the call is filled with a pattern, and afterwards the
// lowest byte that changed is looked for.

use compare::bytes::{self, OUT_BYTES};
use compare::log::{self, Handed};
use compare::random::{Made, Rng};
use compare::sheet::write;
use compare::small::{self, SmallSheets};
use compare::tally::Tally;
use compare::value::Value;
use compare::{drift, examples, memory, product, tag_memory, tidy};
use std::hint::black_box;
use std::thread;

const PAINTED: usize = 1 << 20;
const PATTERN: u8 = 0xa5;
const ROUNDS: u32 = 1000;
const FIRINGS: u32 = 10_000;
const MOST_ROWS: usize = 200;

/// A row that drift is not told for.
const SORT: u32 = 20;

/// The row kind that the machine with tags has not got.
const FOR: u32 = 8;

const CALLS: [&str; 12] =
    ["read", "tidy", "drift", "evaluate", "start", "push", "tray", "fire", "run", "rounds", "take", "log"];

type Row = [u32; 5];

fn main() {
    // a stack that is larger than what is painted
    let run = thread::Builder::new().stack_size(4 * PAINTED).spawn(measure_all);
    run.expect("a thread").join().expect("no panic");
}

fn measure_all() {
    println!("{:36}{}", "bytes of stack", CALLS.map(|name| format!("{name:>9}")).concat());
    let mut most = [0; CALLS.len()];
    for (name, made, value) in sheets() {
        assert_eq!(made.refusal(), 0, "{name}");
        let taken = measure(&made, value);
        print_line(name, taken);
        most = std::array::from_fn(|call| most[call].max(taken[call]));
    }
    print_line("the most", most);
    println!("{:36}{:9}", "next, the most", deepest_next());
    measure_tags();
}

const TAG_CALLS: [&str; 5] = ["start", "push", "fire", "run", "take"];

/// The calls on a machine with tags, for the sheets without for.
fn measure_tags() {
    println!("{:36}{}", "with tags", TAG_CALLS.map(|name| format!("{name:>9}")).concat());
    let mut most = [0; TAG_CALLS.len()];
    for (name, made, value) in sheets() {
        if made.sheet().lines.iter().all(|line| line.row.kind != FOR) {
            let taken = measure_with_tags(&made, value);
            print_line(name, taken);
            most = std::array::from_fn(|call| most[call].max(taken[call]));
        }
    }
    print_line("the most", most);
}

fn measure_with_tags(made: &Made, value: Value) -> [usize; TAG_CALLS.len()] {
    let inputs = made.sheet().sorts.len();
    let set = bytes::encode_set(&vec![value; inputs]);
    let mut mem = vec![0; tag_memory::NEED];
    let start = below(|| product::tagged_start(&made.bytes, &made.kinds, &mut mem).refusal);
    let push = below(|| product::tagged_push(&mut mem, &set).refusal);
    let operators = made.sheet().figures.operators;
    let fire = deepest(operators, &mem, |copy, operator| {
        product::tagged_fire(copy, operator, 0);
    });
    let run = below(|| product::tagged_run(&mut mem, FIRINGS).refusal);
    let take = below(|| product::tagged_take(&mut mem, 0, &mut [0; OUT_BYTES]).refusal);
    [start, push, fire, run, take]
}

/// The most that a call for the next small sheet takes, from every so-manieth sheet on.
fn deepest_next() -> usize {
    const STEP: usize = 100;
    let next = |sheet: &Vec<u8>| below(|| product::next(sheet, &mut [0; small::ROOM]).refusal);
    SmallSheets::all().list().iter().step_by(STEP).map(next).max().unwrap_or(0)
}

fn print_line<const CALLS: usize>(name: &str, taken: [usize; CALLS]) {
    println!("{name:36}{}", taken.map(|bytes| format!("{bytes:9}")).concat());
}

/// What each call takes for one sheet, with `value` for each input. Every call must be accepted, and the pushed set be taken; but drift is not told for each sheet.
fn measure(made: &Made, value: Value) -> [usize; CALLS.len()] {
    let (sheet, kinds) = (&made.bytes[..], &made.kinds[..]);
    let inputs = bytes::read(sheet, kinds).inputs as usize;
    let set = bytes::encode_set(&vec![value; inputs]);
    let mut out = [0; OUT_BYTES];
    let (mut mem, mut tally) = (vec![0; memory::need(1)], Tally::default());
    let read = below(|| product::read(sheet, kinds).refusal);
    let mut tidied = vec![0; tidy::room_for(sheet.len())];
    let tidy = below(|| product::tidy(sheet, &mut tidied).refusal);
    let tolerances = vec![0; drift::NUMBER_BYTES * inputs];
    let mut numbers = [0; drift::ROOM];
    let drift = below(|| match product::drift(sheet, kinds, &tolerances, &mut numbers).refusal {
        // given once all rows were looked at
        SORT => 0,
        refusal => refusal,
    });
    let evaluate = below(|| product::evaluate(sheet, kinds, &set, ROUNDS, &mut out).refusal);
    let start = below(|| product::start(sheet, kinds, 1, &mut mem, &mut tally).refusal);
    let mut copy = mem.clone();
    let tray = below(|| product::push_tray(&mut copy, &set, 1, &mut tally).refusal);
    let push = below(|| product::push(&mut mem, &set, &mut tally).refusal);
    let fire = deepest_fire(&mem, bytes::read(sheet, kinds).operators);
    let mut copy = mem.clone();
    let rounds = below(|| product::run_rounds(&mut copy, FIRINGS, &mut tally).refusal);
    let run = below(|| product::run(&mut mem, FIRINGS, &mut tally).refusal);
    let take = below(|| product::take(&mut mem, &mut out, &mut tally).refusal);
    let lines = log_of(made, &set);
    let handed = Handed { sheet, kinds, capacity: 1, sets: &set, number: 1, log: &lines };
    let mut room = vec![0; log::room_for(lines.len())];
    let log = below(|| product::check_log(&handed, &mut mem, &mut room).refusal);
    [read, tidy, drift, evaluate, start, push, tray, fire, run, rounds, take, log]
}

/// The log of one set's way through the product's machine.
fn log_of(made: &Made, set: &[u8]) -> Vec<u8> {
    let (mut mem, mut tally) = (vec![0; memory::need(1)], Tally::default());
    product::start(&made.bytes, &made.kinds, 1, &mut mem, &mut tally);
    product::push(&mut mem, set, &mut tally);
    let mut lines = vec![[1, 1]];
    memory::run_telling(&mut mem, FIRINGS, &mut tally, |operator| lines.push([2, operator as u32]));
    lines.push([3, 0]);
    log::write(&lines)
}

/// The most that firing any one operator takes, able or not.
fn deepest_fire(mem: &[u8], operators: u32) -> usize {
    deepest(operators, mem, |copy, operator| {
        product::fire(copy, operator, &mut Tally::default());
    })
}

fn deepest(operators: u32, mem: &[u8], fire: impl Fn(&mut [u8], u32)) -> usize {
    let taken = |operator| {
        let mut copy = mem.to_vec();
        below(|| {
            fire(&mut copy, operator);
            0
        })
    };
    (0..=operators).map(taken).max().unwrap_or(0)
}

/// How far below this frame a call wrote; the call must not be refused.
#[inline(never)]
fn below(call: impl FnOnce() -> u32) -> usize {
    let here = [0u8; 16];
    paint();
    let here = black_box(&here).as_ptr() as usize;
    let refusal = call();
    let lowest = lowest_changed(here);
    assert_eq!(refusal, 0);
    here - lowest
}

#[inline(never)]
fn paint() {
    black_box(&mut [PATTERN; PAINTED]);
}

#[inline(never)]
fn lowest_changed(here: usize) -> usize {
    // `paint` wrote all of this, and the thread's stack is larger.
    let start = here - PAINTED + 8192;
    (start..here).find(|&at| unsafe { (at as *const u8).read_volatile() } != PATTERN).unwrap_or(here)
}

const NAME: Row = [1, 0, 0, 0, 0];

/// A sheet of 200 rows, or nearly, and the value that leads into its depth and out of it.
fn sheets() -> Vec<(&'static str, Made, Value)> {
    let (whole, yes, no) = (Value::Whole(7), Value::Truth(true), Value::Truth(false));
    let sum = |last| vec![NAME, [4, last + 1, last, 0, 0], [5, 1, last + 2, 0, 0]];
    let quotient = |last| vec![NAME, [4, last + 1, last, 0, 0], [5, 4, last + 2, 0, 0]];
    let inner_let = |last| vec![NAME, [6, 0, 1, last + 1, last]];
    let many = examples::many_operators(&mut Rng::new(1));
    vec![
        ("the lesser of two", examples::lesser(), whole),
        ("negations", chain(NEGATE, |last| vec![[5, NEGATE, last, 0, 0]]), whole),
        ("sums in sums", chain(NEGATE, sum), Value::Whole(0)),
        ("quotients of floats in quotients", of_floats(chain(NEGATE, quotient)), Value::real(1.0)),
        ("range from strength", examples::range(), Value::real(1.5)),
        ("lets in lets", chain(NEGATE, inner_let), whole),
        ("products in lets in lets", examples::scaled(), whole),
        ("ifs in ifs", chain(NOT, |last| vec![NAME, NAME, [7, last + 1, last, last + 2, 0]]), yes),
        ("ifs in the tests of ifs", chain(NOT, |last| vec![NAME, NAME, [7, last, last + 1, last + 2, 0]]), yes),
        ("loops in loops", chain(NOT, loop_around), no),
        // One not is left over in this one.
        ("loops in the starts of loops", chain(NOT, loop_from), yes),
        ("ifs in a loop's body", body(if_around), no),
        ("lets in a loop's body", body(inner_let), no),
        ("over 1,000 operators", many, whole),
    ]
}

/// The codes of one operand: not wants a truth, negate a whole number.
const NOT: u32 = 10;
const NEGATE: u32 = 11;

/// Parts around an identifier, as many as fit; where rows are left this code is worked on the identifier, whose kind it wants. A part is given the row it
/// goes around.
fn chain(code: u32, part: impl Fn(u32) -> Vec<Row>) -> Made {
    let left = (MOST_ROWS - 1) % part(1).len();
    let mut rows = vec![NAME];
    rows.extend((1..=left as u32).map(|last| [5, code, last, 0, 0]));
    while rows.len() < MOST_ROWS {
        rows.extend(part(rows.len() as u32));
    }
    let kinds = if code == NOT { b"T\n" } else { b"W\n" };
    Made { bytes: write(&rows), kinds: kinds.to_vec() }
}

/// The same rows over an input of kind R.
fn of_floats(made: Made) -> Made {
    Made { kinds: b"R\n".to_vec(), ..made }
}

/// for x = x do if x then iter x else (row `last`)
fn loop_around(last: u32) -> Vec<Row> {
    let body = [7, last + 2, last + 4, last, 0];
    vec![NAME, NAME, NAME, [9, last + 3, 0, 0, 0], body, [8, 0, 1, last + 1, last + 5]]
}

/// for x = (row `last`) do if x then iter x else x
fn loop_from(last: u32) -> Vec<Row> {
    let body = [7, last + 1, last + 3, last + 4, 0];
    vec![NAME, NAME, [9, last + 2, 0, 0, 0], NAME, body, [8, 0, 1, last, last + 5]]
}

/// if x then iter x else (row `last`)
fn if_around(last: u32) -> Vec<Row> {
    vec![NAME, NAME, [9, last + 2, 0, 0, 0], [7, last + 1, last + 3, last, 0]]
}

/// A loop around a body that iterates or returns, with parts around that body, as many as fit.
fn body(part: impl Fn(u32) -> Vec<Row>) -> Made {
    let mut rows = [vec![NAME], if_around(1)].concat();
    while rows.len() + part(1).len() + 2 <= MOST_ROWS {
        rows.extend(part(rows.len() as u32));
    }
    let last = rows.len() as u32;
    rows.extend([NAME, [8, 0, 1, last + 1, last]]);
    Made { bytes: write(&rows), kinds: b"T\n".to_vec() }
}
