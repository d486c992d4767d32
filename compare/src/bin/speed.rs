// Times the reader, the calls for sheets, the evaluator and the machine's calls here and, with the feature `product`, the product's beside them in the same run.
// Prints the first four tables of docs/BENCHMARKS.md. The last column of the first is the product's speed over ours: 1.00 is as fast, 0.50 takes twice as long;
// of the second, that of a tray over as many pushes; of the third, that of a log's check over the calls that its lines name; of the fourth, that of the machine
// with tags over the first machine.

use compare::bytes::{self, OUT_BYTES, VALUE_BYTES};
use compare::calls::{self, Calls, PLAIN, PLAIN_TAGS};
use compare::drift::{self, NUMBER_BYTES};
use compare::examples::{
    factorial, half_dead, lesser, many_loopless_operators, many_operators, mean, negations, range, scaled,
};
use compare::log::{self, Handed};
use compare::memory::{self, Machine};
use compare::odometer::Odometer;
use compare::random::{fitting_set, Made, Rng};
use compare::sheet::{read_number, ROW_BYTES};
use compare::small::{NextAnswer, ROOM};
use compare::table::{grouped, head, row, speed};
use compare::tally::Tally;
use compare::timing::{in_turns, side_by_side, Call, BATCHES};
use compare::value::Value;
use compare::{tag_memory, tidy};
use std::hint::black_box;
use std::time::{Duration, Instant};

fn main() {
    head(&["call", "plain, ns", "product, ns", "speed"]);
    for (name, made) in sheets() {
        let text = format!("read: {name}, {} bytes", grouped(made.bytes.len() as f64));
        let mut ours = || bytes::read(black_box(&made.bytes), &made.kinds).refusal;
        report(&text, 1, &mut ours, &mut product_read(&made));
    }
    for (name, made) in [("200 rows, all kept", negations(200)), ("200 rows, half of them dead", half_dead(200))] {
        let mut out = vec![0; tidy::room_for(made.bytes.len())];
        let mut ours = || tidy::tidy(black_box(&made.bytes), &mut out).rows;
        report(&format!("tidy: {name}"), 1, &mut ours, &mut product_tidy(&made));
    }
    for (name, made) in [("a mean, 17 rows", mean()), ("200 rows, 24 lets within each other", scaled())] {
        let tolerances = vec![1; NUMBER_BYTES * made.sheet().sorts.len()];
        let mut out = [0; drift::ROOM];
        let mut ours = || drift::drift(black_box(&made.bytes), &made.kinds, &tolerances, &mut out).results;
        report(&format!("drift: {name}"), 1, &mut ours, &mut product_drift(&made, &tolerances));
    }
    small_sheets();
    for (name, made, set, rounds) in evaluations() {
        let mut out = [0; OUT_BYTES];
        let mut ours = || bytes::evaluate(black_box(&made.bytes), &made.kinds, &set, rounds, &mut out).refusal;
        report(&format!("evaluate: {name}"), 1, &mut ours, &mut product_evaluate(&made, &set, rounds));
    }
    for (name, made, set, _) in evaluations() {
        machine(&name, &made, &set);
    }
    head(&[
        "sixteen sets at capacity 16",
        "plain tray, ns",
        "pushes, ns",
        "tray, ns",
        "to the plain tray",
        "to the pushes",
    ]);
    for (name, made, set, _) in evaluations() {
        tray(&name, &made, &set);
    }
    head(&[
        "a log of 4,096 lines at capacity 2",
        "plain check, ns",
        "its calls, ns",
        "check, ns",
        "to the plain check",
        "to the calls",
    ]);
    for (name, made, set, _) in evaluations().into_iter().filter(|(.., rounds)| *rounds < MANY_ROUNDS) {
        check_log(&name, &made, &set);
    }
    head(&["push, run and take", "first machine, ns", "with tags, ns", "speed"]);
    for (name, made, set) in loopless() {
        with_tags(&name, &made, &set, 1);
        with_tags(&name, &made, &set, SETS);
    }
}

/// A set of so many rounds would not be through when its log ends.
const MANY_ROUNDS: u32 = 10_000;

/// Prints one row, the times divided by a number of like steps.
fn report(name: &str, steps: u32, ours: &mut dyn FnMut() -> u32, product: &mut Option<Call<'_>>) {
    let (least, other) = side_by_side(ours, product);
    let (least, other) = (least / f64::from(steps), other.map(|time| time / f64::from(steps)));
    let none = || String::from("-");
    row(&[
        name.into(),
        grouped(least),
        other.map_or_else(none, grouped),
        other.map_or_else(none, |time| speed(least, time)),
    ]);
}

/// A call for the next small sheet.
type Next<'a> = &'a dyn Fn(&[u8], &mut [u8]) -> NextAnswer;

/// All small sheets one after another: the mean call, and the longest.
fn small_sheets() {
    let odometer = Odometer::new();
    let plain = walk(&|sheet, out| odometer.next(sheet, out));
    let product = product_next().map(walk);
    let figures: [(&str, fn(&[f64]) -> f64); 2] = [
        ("the mean", |times| times.iter().sum::<f64>() / times.len() as f64),
        ("the longest", |times| times.iter().copied().fold(0.0, f64::max)),
    ];
    for (name, figure) in figures {
        let (plain, product) = (figure(&plain), product.as_deref().map(figure));
        let none = || String::from("-");
        row(&[
            format!("next: {name} of all small sheets"),
            grouped(plain),
            product.map_or_else(none, grouped),
            product.map_or_else(none, |time| speed(plain, time)),
        ]);
    }
}

/// Nanoseconds of each call, from the empty sheet to the refusal behind the last: the least over some walks.
fn walk(next: Next<'_>) -> Vec<f64> {
    let mut least: Vec<f64> = Vec::new();
    for _ in 0..WALKS {
        let (mut sheet, mut out, mut rows) = ([0; ROOM], [0; ROOM], 0);
        for place in 0.. {
            let start = Instant::now();
            let answer = next(black_box(&sheet[..ROW_BYTES * rows]), &mut out);
            let time = start.elapsed().as_nanos() as f64;
            match least.get_mut(place) {
                Some(known) => *known = known.min(time),
                None => least.push(time),
            }
            if answer.refusal != 0 {
                break;
            }
            (sheet, rows) = (out, answer.rows as usize);
        }
    }
    least
}

const WALKS: usize = 5;

/// The calls on a machine at capacity 2: a start; a run of as many sets as fit, by the firing; the same by rounds, by the round; a take with the push of
/// another set; the whole way of one set.
fn machine(name: &str, made: &Made, set: &[u8]) {
    let start = calls::product().unwrap_or(PLAIN).start;
    let (mut fresh, mut tally) = (vec![0; memory::need(2)], Tally::default());
    if start(&made.bytes, &made.kinds, 2, &mut fresh, &mut tally).refusal != 0 {
        return;
    }
    report(
        &format!("start: {name}"),
        1,
        &mut starting(PLAIN, made),
        &mut calls::product().map(|calls| starting(calls, made)),
    );

    let mut loaded = fresh.clone();
    while memory::push(&mut loaded, set, &mut tally).refusal == 0 {}
    let firings = memory::run(&mut loaded.clone(), FIRINGS, &mut tally).count;
    let mut product = calls::product().map(|calls| running(calls, &loaded));
    report(
        &format!("run, a firing: {name} ({} firings)", grouped(firings.into())),
        firings,
        &mut running(PLAIN, &loaded),
        &mut product,
    );

    let ran = memory::run_rounds(&mut loaded.clone(), ROUNDS, &mut tally);
    let mut product = calls::product().map(|calls| running_by_rounds(calls, &loaded));
    let made = format!("{} rounds, {} firings", grouped(ran.rounds.into()), grouped(ran.firings as f64));
    report(&format!("run, a round: {name} ({made})"), ran.rounds, &mut running_by_rounds(PLAIN, &loaded), &mut product);

    let mut done = fresh.clone();
    memory::push(&mut done, set, &mut tally);
    memory::run(&mut done, FIRINGS, &mut tally);
    let mut product = calls::product().map(|calls| taking(calls, &done, set));
    report(&format!("take and push: {name}"), 1, &mut taking(PLAIN, &done, set), &mut product);

    let mut product = calls::product().map(|calls| whole_way(calls, &fresh, set));
    report(&format!("push, run and take: {name}"), 1, &mut whole_way(PLAIN, &fresh, set), &mut product);
}

const FIRINGS: u32 = 1_000_000;

/// The lent rounds, enough for every set that is timed.
const ROUNDS: u32 = 1_000_000;

/// A tray of as many sets as an empty machine of capacity 16 takes, here and the product's, beside the product's pushes one by one.
fn tray(name: &str, made: &Made, set: &[u8]) {
    let calls = calls::product().unwrap_or(PLAIN);
    let mut fresh = vec![0; memory::need(16)];
    if (calls.start)(&made.bytes, &made.kinds, 16, &mut fresh, &mut Tally::default()).refusal != 0 {
        return;
    }
    let sets = set.repeat(SETS as usize);
    let (mut plain, mut pushes, mut tray) = (fresh.clone(), fresh.clone(), fresh);
    let [mut plain_tally, mut pushes_tally, mut tray_tally] = [Tally::default(); 3];
    let times = in_turns(
        &mut [
            &mut || emptied(&mut plain, |mem| memory::push_tray(mem, &sets, SETS, &mut plain_tally).count),
            &mut || {
                emptied(&mut pushes, |mem| (0..SETS).map(|_| (calls.push)(mem, set, &mut pushes_tally).refusal).sum())
            },
            &mut || emptied(&mut tray, |mem| (calls.push_tray)(mem, &sets, SETS, &mut tray_tally).count),
        ],
        BATCHES,
        Duration::ZERO,
    );
    let [plain, pushes, tray] = [times[0], times[1], times[2]];
    row(&[name.into(), grouped(plain), grouped(pushes), grouped(tray), speed(plain, tray), speed(pushes, tray)]);
}

const SETS: u32 = 16;

/// A call on a machine whose input links and trigger's link are made empty first, as they are after start.
fn emptied(mem: &mut [u8], call: impl FnOnce(&mut [u8]) -> u32) -> u32 {
    mem[7] = 0;
    for place in 0..=usize::from(mem[5]) {
        let link = usize::from(u16::from_le_bytes([mem[8 + 2 * place], mem[9 + 2 * place]]));
        if link != memory::NO_LINK {
            mem[21_760 + link * (1 + VALUE_BYTES * usize::from(mem[0]))] = 0;
        }
    }
    call(mem)
}

/// A log of as many lines as are allowed, which pushes, fires and takes one set after another: by the check here and by the product's, beside the product's
/// calls of the same lines from a start on. Each side numbers operators in its own way, and has a log of its own.
fn check_log(name: &str, made: &Made, set: &[u8]) {
    let calls = calls::product().unwrap_or(PLAIN);
    let (Some(plain_log), Some(log)) = (set_by_set(PLAIN, made, set), set_by_set(calls, made, set)) else {
        return;
    };
    let handed = Handed { sheet: &made.bytes, kinds: &made.kinds, capacity: 2, sets: set, number: 1, log: &log };
    let mem = vec![0; memory::need(2)];
    let (mut plain_mem, mut calls_mem, mut mem) = (mem.clone(), mem.clone(), mem);
    let [mut plain_out, mut calls_out, mut out] = [(); 3].map(|_| vec![0; log::room_for(log.len())]);
    let times = in_turns(
        &mut [
            &mut || log::check(&Handed { log: &plain_log, ..handed }, &mut plain_mem, &mut plain_out).count,
            &mut || line_by_line(calls, &handed, &mut calls_mem, &mut calls_out),
            &mut || (calls.check_log)(&handed, &mut mem, &mut out).count,
        ],
        LOG_BATCHES,
        Duration::ZERO,
    );
    assert!(mem == calls_mem && out == calls_out, "a check and its calls differ");
    let [plain, single, check] = [times[0], times[1], times[2]];
    row(&[name.into(), grouped(plain), grouped(single), grouped(check), speed(plain, check), speed(single, check)]);
}

/// A log's check takes milliseconds, so that fewer batches are as many calls.
const LOG_BATCHES: usize = 40;

/// The log of a scheduler that runs each set by the least-numbered able operator; none where the sheet is not started.
fn set_by_set(calls: Calls, made: &Made, set: &[u8]) -> Option<Vec<u8>> {
    let mut mem = vec![0; memory::need(2)];
    let started = (calls.start)(&made.bytes, &made.kinds, 2, &mut mem, &mut Tally::default());
    let (mut machine, mut log) = (Machine::standing(&mut mem), vec![]);
    while started.refusal == 0 && log.len() < log::MOST_LINES {
        machine.push(set);
        log.push([1, 1]);
        while let Some(operator) = (0..started.operators).find(|&i| machine.fire(i as usize).refusal == 0) {
            log.push([2, operator]);
        }
        machine.take(&mut [0; OUT_BYTES]);
        log.push([3, 0]);
    }
    log.truncate(log::MOST_LINES);
    (started.refusal == 0).then(|| log::write(&log))
}

/// The calls that a log's lines name, from a start on; the lines are read as plainly as they were written.
fn line_by_line(calls: Calls, handed: &Handed<'_>, mem: &mut [u8], out: &mut [u8]) -> u32 {
    let (mut count, mut tally) = (0, Tally::default());
    (calls.start)(handed.sheet, handed.kinds, handed.capacity, mem, &mut tally);
    for line in handed.log.chunks_exact(log::LINE_BYTES) {
        match line[5] {
            b'1' => drop((calls.push)(mem, handed.sets, &mut tally)),
            b'2' => drop((calls.fire)(mem, read_number(&line[6..12]).unwrap_or(0), &mut tally)),
            _ => count += usize::from((calls.take)(mem, &mut out[OUT_BYTES * count..], &mut tally).refusal == 0),
        }
    }
    count as u32
}

/// The whole way of so many sets that are under way at once, on a first machine with a place for each on every link and on one with tags.
fn with_tags(name: &str, made: &Made, set: &[u8], sets: u32) {
    let (first, tags) = (calls::product().unwrap_or(PLAIN), calls::product_tags().unwrap_or(PLAIN_TAGS));
    let (mut mem, mut tally) = (vec![0; memory::need(sets as usize)], Tally::default());
    let mut tagged = vec![0; tag_memory::NEED];
    let started = (first.start)(&made.bytes, &made.kinds, sets, &mut mem, &mut tally).refusal;
    assert_eq!((started, (tags.start)(&made.bytes, &made.kinds, &mut tagged).refusal), (0, 0), "{name}");
    let [mut out, mut tagged_out] = [[0; OUT_BYTES]; 2];
    let times = in_turns(
        &mut [
            &mut || {
                let pushed: u32 = (0..sets).map(|_| (first.push)(&mut mem, set, &mut tally).refusal).sum();
                let ran = (first.run)(&mut mem, FIRINGS, &mut tally).refusal;
                let taken: u32 = (0..sets).map(|_| (first.take)(&mut mem, &mut out, &mut tally).refusal).sum();
                all_accepted(pushed + ran + taken)
            },
            &mut || {
                let pushed: u32 = (0..sets).map(|_| (tags.push)(&mut tagged, set).refusal).sum();
                let ran = (tags.run)(&mut tagged, FIRINGS).refusal;
                let taken: u32 = (0..sets).map(|tag| (tags.take)(&mut tagged, tag, &mut tagged_out).refusal).sum();
                all_accepted(pushed + ran + taken)
            },
        ],
        BATCHES,
        Duration::ZERO,
    );
    let many = if sets == 1 { "one set".into() } else { format!("{sets} sets") };
    row(&[format!("{name}, {many}"), grouped(times[0]), grouped(times[1]), speed(times[0], times[1])]);
}

fn all_accepted(refusals: u32) -> u32 {
    assert_eq!(refusals, 0, "a refused call is not timed");
    refusals
}

fn starting(calls: Calls, made: &Made) -> Call<'_> {
    let (mut mem, mut tally) = (vec![0; memory::need(2)], Tally::default());
    Box::new(move || (calls.start)(black_box(&made.bytes), &made.kinds, 2, &mut mem, &mut tally).refusal)
}

fn running(calls: Calls, loaded: &[u8]) -> Call<'_> {
    let (mut mem, mut tally) = (loaded.to_vec(), Tally::default());
    Box::new(move || {
        restore(&mut mem, loaded);
        (calls.run)(&mut mem, FIRINGS, &mut tally).count
    })
}

fn running_by_rounds(calls: Calls, loaded: &[u8]) -> Call<'_> {
    let (mut mem, mut tally) = (loaded.to_vec(), Tally::default());
    Box::new(move || {
        restore(&mut mem, loaded);
        (calls.run_rounds)(&mut mem, ROUNDS, &mut tally).rounds
    })
}

fn taking<'a>(calls: Calls, done: &'a [u8], set: &'a [u8]) -> Call<'a> {
    let (mut mem, mut tally) = (done.to_vec(), Tally::default());
    let mut out = [0; OUT_BYTES];
    Box::new(move || {
        restore(&mut mem, done);
        (calls.take)(&mut mem, &mut out, &mut tally).count + (calls.push)(&mut mem, set, &mut tally).refusal
    })
}

/// A machine from which the one set is taken is ready for the next.
fn whole_way<'a>(calls: Calls, fresh: &[u8], set: &'a [u8]) -> Call<'a> {
    let (mut mem, mut tally) = (fresh.to_vec(), Tally::default());
    let mut out = [0; OUT_BYTES];
    Box::new(move || {
        let pushed = (calls.push)(&mut mem, set, &mut tally).refusal;
        let ran = (calls.run)(&mut mem, FIRINGS, &mut tally).refusal;
        pushed + ran + (calls.take)(&mut mem, &mut out, &mut tally).refusal
    })
}

/// The part of a machine that its calls change, as it was: registers and links.
fn restore(mem: &mut [u8], from: &[u8]) {
    let figure = |at: usize| usize::from(u16::from_le_bytes([from[at], from[at + 1]]));
    mem[7] = from[7];
    let registers = 16_640..16_640 + 5 * figure(1);
    mem[registers.clone()].copy_from_slice(&from[registers]);
    let links = 21_760..21_760 + 11 * figure(3);
    mem[links.clone()].copy_from_slice(&from[links]);
}

#[cfg(feature = "product")]
fn product_read(made: &Made) -> Option<Call<'_>> {
    Some(Box::new(move || compare::product::read(black_box(&made.bytes), &made.kinds).refusal))
}

#[cfg(not(feature = "product"))]
fn product_read(_: &Made) -> Option<Call<'_>> {
    None
}

#[cfg(feature = "product")]
fn product_tidy(made: &Made) -> Option<Call<'_>> {
    let mut out = vec![0; tidy::room_for(made.bytes.len())];
    Some(Box::new(move || compare::product::tidy(black_box(&made.bytes), &mut out).rows))
}

#[cfg(not(feature = "product"))]
fn product_tidy(_: &Made) -> Option<Call<'_>> {
    None
}

#[cfg(feature = "product")]
fn product_drift<'a>(made: &'a Made, tolerances: &'a [u8]) -> Option<Call<'a>> {
    let mut out = [0; drift::ROOM];
    Some(Box::new(move || compare::product::drift(black_box(&made.bytes), &made.kinds, tolerances, &mut out).results))
}

#[cfg(not(feature = "product"))]
fn product_drift<'a>(_: &'a Made, _: &'a [u8]) -> Option<Call<'a>> {
    None
}

#[cfg(feature = "product")]
fn product_next() -> Option<Next<'static>> {
    Some(&compare::product::next)
}

#[cfg(not(feature = "product"))]
fn product_next() -> Option<Next<'static>> {
    None
}

#[cfg(feature = "product")]
fn product_evaluate<'a>(made: &'a Made, set: &'a [u8], rounds: u32) -> Option<Call<'a>> {
    let mut out = [0; OUT_BYTES];
    Some(Box::new(move || {
        compare::product::evaluate(black_box(&made.bytes), &made.kinds, set, rounds, &mut out).refusal
    }))
}

#[cfg(not(feature = "product"))]
fn product_evaluate<'a>(_: &'a Made, _: &'a [u8], _: u32) -> Option<Call<'a>> {
    None
}

fn sheets() -> Vec<(String, Made)> {
    let mut malformed = negations(200);
    malformed.bytes[6000] = b'x';
    let many = many_operators(&mut Rng::new(1));
    let operators = many.sheet().figures.operators;
    vec![
        ("the lesser of two".into(), lesser()),
        ("factorial".into(), factorial()),
        ("range from strength".into(), range()),
        ("50 rows of negations".into(), negations(50)),
        ("100 rows of negations".into(), negations(100)),
        ("200 rows of negations".into(), negations(200)),
        (format!("{} operators", grouped(operators.into())), many),
        ("malformed near its end".into(), malformed),
        ("no rows".into(), Made { bytes: vec![b' '; 6199], kinds: b"W\n".to_vec() }),
    ]
}

/// A sheet, a set in bytes and the rounds lent.
fn evaluations() -> Vec<(String, Made, Vec<u8>, u32)> {
    let number = |value| bytes::encode_set(&[Value::Whole(value)]);
    let pair = bytes::encode_set(&[Value::Whole(3), Value::Whole(5)]);
    let mut rng = Rng::new(1);
    let many = many_operators(&mut rng);
    let sheet = many.sheet();
    let set = bytes::encode_set(&fitting_set(&sheet, &mut rng));
    vec![
        ("the lesser of two".into(), lesser(), pair, 0),
        ("range from strength, in floats".into(), range(), bytes::encode_set(&[1.37, 0.02].map(Value::real)), 0),
        ("factorial of 12".into(), factorial(), number(12), 100),
        ("10,000 rounds of factorial".into(), factorial(), number(10_000), 10_000),
        ("200 rows of negations".into(), negations(200), number(7), 0),
        (format!("{} operators", grouped(sheet.figures.operators.into())), many, set, 1000),
    ]
}

/// Sheets without for, each with a set in bytes.
fn loopless() -> Vec<(String, Made, Vec<u8>)> {
    let mut rng = Rng::new(1);
    let many = many_loopless_operators(&mut rng);
    let sheet = many.sheet();
    let set = bytes::encode_set(&fitting_set(&sheet, &mut rng));
    vec![
        ("the lesser of two".into(), lesser(), bytes::encode_set(&[Value::Whole(3), Value::Whole(5)])),
        ("200 rows of negations".into(), negations(200), bytes::encode_set(&[Value::Whole(7)])),
        (format!("{} operators", grouped(sheet.figures.operators.into())), many, set),
    ]
}
