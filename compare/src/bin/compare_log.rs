// Checks random logs by the product and by the checker here, on the same bytes, and stops at the first difference, which it prints. Answers, every byte
// of the memory and of the results must agree; bytes past the lent ones must be as they were. A log that a scheduler here wrote must be accepted; then
// faults are planted in it and in what is lent beside it. Where lines are followed, the product's pushes, firings and takes one by one must be accepted up to
// the line that the answer names, and leave the same machine and results; and each result must be what direct evaluation gives for its own set (document
// 02, Job 3; demand 3).
// Usage: compare_log CASES SEED [FIRST]. `compare_log 1 SEED NUMBER` makes a case again.

use compare::arguments::{Cases, Counts};
use compare::bytes::{self, OUT_BYTES, VALUE_BYTES};
use compare::examples::endless;
use compare::log::{self, LogAnswer, LINE_BYTES, MOST_LINES};
use compare::random::logs::{accepted_log, Lent, FAULTS};
use compare::random::{accepted_sheet, heavy_sheet, Made, Rng};
use compare::sheet::Sheet;
use compare::tally::Tally;
use compare::{eval, product};
use std::collections::BTreeMap;

/// How many times faults are planted in one log.
const BROKEN: usize = 8;

/// How many times in a hundred a second fault is planted beside the first.
const TWO_FAULTS: usize = 50;

/// The rounds within which an evaluation is looked for.
const ROUNDS: u32 = 2_000;

/// Bytes around the lent ones.
const MARGIN: usize = 32;

fn main() {
    Cases::asked("compare_log").compare(compare_case);
}

fn compare_case(number: u64, counts: &mut Counts, rng: &mut Rng) -> Result<(), String> {
    let made = random_sheet(number, rng);
    let most = if rng.chance(2) { MOST_LINES } else { rng.pick(&[0, 1, 2, 5, 30, 100, 300]) };
    let lent = accepted_log(product::start, made, most, rng);
    let answer = compare_check("written here", &lent, counts, rng)?;
    if answer.refusal != 0 {
        return Err(told(&lent, &format!("a log whose every line was accepted gets {answer:?}")));
    }
    for _ in 0..BROKEN {
        let mut broken = lent.clone();
        let (name, plant) = rng.pick(&FAULTS);
        plant(&mut broken, rng);
        if rng.chance(TWO_FAULTS) {
            rng.pick(&FAULTS).1(&mut broken, rng);
        }
        compare_check(name, &broken, counts, rng)?;
    }
    Ok(())
}

fn random_sheet(number: u64, rng: &mut Rng) -> Made {
    match number % 20 {
        0 => heavy_sheet(rng),
        1 => endless(),
        _ => accepted_sheet(rng),
    }
}

/// A call's answer, and all that was lent to it to be written, with what lies behind.
#[derive(PartialEq)]
struct Side {
    answer: LogAnswer,
    mem: Vec<u8>,
    out: Vec<u8>,
}

fn compare_check(name: &str, lent: &Lent, counts: &mut Counts, rng: &mut Rng) -> Result<LogAnswer, String> {
    let fill = rng.number() as u8;
    let (memory, room) = (lent.memory_bytes(), lent.room_bytes());
    let held = Side {
        answer: LogAnswer::default(),
        mem: (0..memory + MARGIN).map(|at| (at as u8).wrapping_mul(31).wrapping_add(fill)).collect(),
        out: vec![fill ^ 0x5a; room + MARGIN],
    };
    let (mut mem, mut out) = (held.mem.clone(), held.out.clone());
    let answer = log::check_started_by(product::start, &lent.handed(), &mut mem[..memory], &mut out[..room]);
    let ours = Side { answer, mem, out };
    let (mut mem, mut out) = (held.mem.clone(), held.out.clone());
    let answer = surrounded(lent, fill, |lent| product::check_log(lent, &mut mem[..memory], &mut out[..room]));
    let theirs = Side { answer, mem, out };
    *counts.entry(format!("log with {:2}", ours.answer.refusal)).or_default() += 1;
    if ours != theirs {
        return Err(told(lent, &format!("{name}: {}", difference(&ours, &theirs))));
    }
    match answer.refusal {
        0 | 16 => compare_lines(lent, &held, &theirs, counts)?,
        _ if theirs.mem != held.mem || theirs.out != held.out || (answer.count, answer.width) != (0, 0) => {
            return Err(told(lent, &format!("{name}: refused with {answer:?}, and not all left")));
        }
        _ => {}
    }
    count(lent, answer, counts);
    Ok(answer)
}

/// The call on copies with other bytes on both sides.
fn surrounded(lent: &Lent, fill: u8, call: impl FnOnce(&log::Handed<'_>) -> LogAnswer) -> LogAnswer {
    let handed = lent.handed();
    let around = |bytes: &[u8]| [&[fill; MARGIN][..], bytes, &[fill; MARGIN][..]].concat();
    let [sheet, kinds, sets, log] = [handed.sheet, handed.kinds, handed.sets, handed.log].map(around);
    let [sheet, kinds, sets, log] = [&sheet, &kinds, &sets, &log].map(|bytes| &bytes[MARGIN..bytes.len() - MARGIN]);
    call(&log::Handed { sheet, kinds, sets, log, ..handed })
}

fn difference(ours: &Side, theirs: &Side) -> String {
    let places = |one: &[u8], other: &[u8]| -> Vec<usize> {
        (0..one.len()).filter(|&at| one[at] != other[at]).take(8).collect()
    };
    format!(
        "here {:?}, the product answers {:?}; bytes differ in the memory at {:?}, in the results at {:?}",
        ours.answer,
        theirs.answer,
        places(&ours.mem, &theirs.mem),
        places(&ours.out, &theirs.out)
    )
}

/// A case in full.
fn told(lent: &Lent, what: &str) -> String {
    let text = |bytes: &[u8]| bytes.escape_ascii().to_string().replace("\\n", "\\n\n");
    let Lent { made, capacity, sets, number, log, .. } = lent;
    format!(
        "{}kinds line {}\ncapacity {capacity}, {number} sets {sets:02x?}, {} bytes of memory, {} of room, log of {} bytes\n{}\n{what}",
        text(&made.bytes),
        made.kinds.escape_ascii(),
        lent.memory_bytes(),
        lent.room_bytes(),
        log.len(),
        text(log)
    )
}

/// The product's own calls, one by one, do what the checker says of the lines, and each result is its set's own.
fn compare_lines(lent: &Lent, held: &Side, checked: &Side, counts: &mut Counts) -> Result<(), String> {
    let (made, LogAnswer { refusal, row, count, width }) = (&lent.made, checked.answer);
    let (sheet, mut tally) = (made.sheet(), Tally::default());
    let mut left = Side { answer: checked.answer, mem: held.mem.clone(), out: held.out.clone() };
    let mem = &mut left.mem[..lent.memory_bytes()];
    product::start(&made.bytes, &made.kinds, lent.capacity, mem, &mut tally);
    let followed = if refusal == 16 { row as usize - 1 } else { lent.log.len() / LINE_BYTES };
    let mut pushed = vec![];
    let mut taken = 0;
    for (line, text) in lent.log.chunks_exact(LINE_BYTES).enumerate() {
        let (kind, number) = (field(&text[..6]), field(&text[6..12]));
        let mut result = [0; OUT_BYTES];
        let answer = match kind {
            1 => product::push(mem, set(lent, &sheet, number), &mut tally),
            2 => product::fire(mem, number as u32, &mut tally),
            _ => product::take(mem, &mut result, &mut tally),
        };
        if (answer.refusal == 0) != (line < followed) {
            return Err(told(lent, &format!("{:?}, and line {} by its own call {answer:?}", checked.answer, line + 1)));
        }
        if line == followed {
            *counts.entry(format!("16 for a line with {}", answer.refusal)).or_default() += 1;
            break;
        }
        match kind {
            1 => pushed.push(number),
            3 => {
                left.out[OUT_BYTES * taken..][..OUT_BYTES].copy_from_slice(&result);
                taken += 1;
            }
            _ => {}
        }
    }
    *counts.entry("lines followed".into()).or_default() += followed as u64;
    let results_width = if taken > 0 { sheet.figures.results } else { 0 };
    if left != *checked || (taken as u32, results_width) != (count, width) {
        return Err(told(lent, &format!("the lines' own calls: {}", difference(&left, checked))));
    }
    own_results(lent, &sheet, &pushed[..taken], &checked.out, counts)
}

fn field(text: &[u8]) -> usize {
    let text = String::from_utf8_lossy(text);
    text.trim_start().parse().expect("a field that passed 15")
}

fn set<'a>(lent: &'a Lent, sheet: &Sheet, number: usize) -> &'a [u8] {
    let set_bytes = VALUE_BYTES * sheet.sorts.len();
    &lent.sets[set_bytes * (number - 1)..][..set_bytes]
}

/// The k-th result is that of the k-th set pushed, where its evaluation ends.
fn own_results(lent: &Lent, sheet: &Sheet, pushed: &[usize], out: &[u8], counts: &mut Counts) -> Result<(), String> {
    let mut known: BTreeMap<usize, Option<[u8; OUT_BYTES]>> = BTreeMap::new();
    for (&number, result) in pushed.iter().zip(out.chunks_exact(OUT_BYTES)) {
        let own = known.entry(number).or_insert_with(|| {
            let values = bytes::decode_set(set(lent, sheet, number)).expect("a set that passed 12");
            eval::evaluate(sheet, &values, ROUNDS).ok().map(|done| bytes::encode_result(&done.set))
        });
        if let Some(own) = own {
            *counts.entry("results held to evaluation".into()).or_default() += 1;
            if own != result {
                return Err(told(
                    lent,
                    &format!("a result of set {number} is {result:02x?}, evaluation gives {own:02x?}"),
                ));
            }
        }
    }
    Ok(())
}

/// Where the lines at fault stand, and logs of the greatest length.
fn count(lent: &Lent, answer: LogAnswer, counts: &mut Counts) {
    let lines = lent.log.len().div_ceil(LINE_BYTES) as u32;
    let mut add = |what: String| *counts.entry(what).or_default() += 1;
    if let 15 | 16 = answer.refusal {
        let place = match answer.row {
            row if row as usize > MOST_LINES => "behind 4,096 lines",
            1 => "at the first line",
            row if row == lines => "at the last line",
            _ => "in the middle",
        };
        add(format!("{} {place}", answer.refusal));
    }
    if lines as usize == MOST_LINES && answer.refusal == 0 {
        add("4,096 lines accepted".into());
    }
}
