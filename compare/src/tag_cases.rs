// Lists of calls on machines with tags with what each call answers, as fixed test data (document 02, Job 12). What a list shows is written here by hand and held to the
// machine here while the list is made, but for random ones. Operator numbers are those of docs/NUMBERING.md, so the machine is started by the product.

use crate::bench::write_set;
use crate::bytes::{encode_set, OUT_BYTES, VALUE_BYTES};
use crate::examples::{factorial, lesser, negations, range, slow_sum};
use crate::graph::Kind;
use crate::memory::{Answer, StartAnswer};
use crate::random::faults::{plant, PLANTABLE};
use crate::random::{fitting_set, loopless_sheet, quick_sheet, Made, Rng};
use crate::sheet;
use crate::tag_memory::{self, NEED};
use crate::tags::{Machine, Tag, TAGS};
use crate::value::Value::{self, Truth, Whole};

/// Starts a machine with tags.
pub type Start = fn(&[u8], &[u8], &mut [u8]) -> StartAnswer;

const PUSH: u32 = 1;
const FIRE: u32 = 2;
const RUN: u32 = 3;
const TAKE: u32 = 4;

/// A number of firings that is enough for all.
const MANY: u32 = 999_999;

/// The first field of a call's line, and the two behind it.
type Line = [u32; 3];

/// A sheet, the sets that pushes name from 1 on, and the lines of the calls.
pub struct Case {
    pub name: String,
    pub made: Made,
    pub sets: Vec<Vec<Value>>,
    pub lines: Vec<Line>,
}

impl Case {
    /// The sets as set lines.
    pub fn sets_text(&self) -> String {
        self.sets.iter().map(|set| write_set(set)).collect()
    }

    /// The calls, in three six-character fields a line.
    pub fn calls_text(&self) -> String {
        self.lines.iter().map(|[call, a, b]| format!("{call:6}{a:6}{b:6}\n")).collect()
    }

    /// What the program writes of it: 0, start's refusal and row; for each call its first field, refusal and count; behind an accepted take the result.
    pub fn expected(&self, start: Start) -> String {
        let mut mem = vec![0; NEED];
        let started = start(&self.made.bytes, &self.made.kinds, &mut mem);
        let ours = tag_memory::start(&self.made.bytes, &self.made.kinds, &mut vec![0; NEED]);
        assert_eq!(started, ours, "{}", self.name);
        let mut text = answer_line(0, started.refusal, started.row);
        for line in self.lines.iter().filter(|_| started.refusal == 0) {
            let (answer, result) = make(&mut mem, &self.sets, *line);
            text.push_str(&answer_line(line[0], answer.refusal, answer.count));
            text.extend(result.map(|values| write_set(&values)));
        }
        text
    }
}

fn answer_line(call: u32, refusal: u32, count: u32) -> String {
    format!("{call:6}{refusal:6}{count:6}\n")
}

/// The call of a line, and the result of an accepted take. A set that there is not has no bytes.
fn make(mem: &mut [u8], sets: &[Vec<Value>], [call, a, b]: Line) -> (Answer, Option<Vec<Value>>) {
    let answer = match call {
        PUSH => tag_memory::push(
            mem,
            &encode_set((a as usize).checked_sub(1).and_then(|place| sets.get(place)).map_or(&[][..], Vec::as_slice)),
        ),
        FIRE => tag_memory::fire(mem, a, b),
        RUN => tag_memory::run(mem, a),
        _ => {
            let mut out = [0; OUT_BYTES];
            let answer = tag_memory::take(mem, a, &mut out);
            let values = crate::bytes::decode_set(&out[..VALUE_BYTES * answer.count as usize]);
            return (answer, values.filter(|_| answer.refusal == 0));
        }
    };
    (answer, None)
}

/// A list while it is made: each call is made on a machine, and its answer held to what is said of it.
struct Script {
    case: Case,
    mem: Vec<u8>,
}

impl Script {
    fn new(start: Start, name: &str, made: Made, sets: &[Vec<Value>]) -> Script {
        let mut mem = vec![0; NEED];
        assert_eq!(start(&made.bytes, &made.kinds, &mut mem).refusal, 0, "{name}");
        Script { case: Case { name: name.into(), made, sets: sets.to_vec(), lines: vec![] }, mem }
    }

    fn machine(&self) -> Machine {
        tag_memory::stored(&self.mem).expect("memory that only calls wrote")
    }

    fn call(&mut self, line: Line) -> (Answer, Option<Vec<Value>>) {
        self.case.lines.push(line);
        make(&mut self.mem, &self.case.sets, line)
    }

    /// A call that gives this refusal and this count.
    fn gets(&mut self, line: Line, refusal: u32, count: u32) {
        let answer = self.call(line).0;
        assert_eq!(answer, Answer { refusal, count }, "{}, {line:?}", self.case.name);
    }

    fn push(&mut self, set: u32, tag: Tag) {
        self.gets([PUSH, set, 0], 0, tag);
    }

    fn take(&mut self, tag: Tag, result: &[Value]) {
        let taken = self.call([TAKE, tag, 0]).1;
        assert_eq!(taken.as_deref(), Some(result), "{}, {tag}", self.case.name);
    }

    fn no_result(&mut self, tag: Tag) {
        self.gets([TAKE, tag, 0], 38, 0);
    }

    fn run(&mut self) {
        assert_eq!(self.call([RUN, MANY, 0]).0.refusal, 0, "{}", self.case.name);
    }

    /// Fires what is able under a tag, the last operator first, but for adds where these are to wait.
    fn fire_under(&mut self, tag: Tag, adds: bool) {
        let waits =
            |machine: &Machine, number: usize| !adds && machine.graph.operators[number].kind == Kind::Operator(1);
        loop {
            let machine = self.machine();
            let mut pairs = machine.able_pairs().into_iter().rev();
            let Some((number, _)) = pairs.find(|&(number, other)| other == tag && !waits(&machine, number)) else {
                return;
            };
            self.gets([FIRE, number as u32, tag], 0, 0);
        }
    }
}

/// All cases, in a fixed order.
pub fn list(start: Start) -> Vec<Case> {
    let scripts: [fn(Start) -> Vec<Case>; 6] = [lives, refusals, formulas, runs, sheets, random];
    scripts.into_iter().flat_map(|cases| cases(start)).collect()
}

/// A slow set of that sheet, with result 23, and a quick one, with result 1.
const SLOW: u32 = 1;
const QUICK: u32 = 2;

fn on_slow_sum(start: Start, name: &str) -> Script {
    Script::new(start, name, slow_sum(), &[vec![Whole(20), Truth(false)], vec![Whole(40), Truth(true)]])
}

fn lives(start: Start) -> Vec<Case> {
    let mut overtaking = on_slow_sum(start, "a quick set overtakes a slow one");
    overtaking.push(SLOW, 0);
    overtaking.push(QUICK, 1);
    overtaking.fire_under(1, true);
    overtaking.no_result(0);
    overtaking.take(1, &[Whole(1)]);
    overtaking.no_result(1);
    overtaking.push(QUICK, 1);
    overtaking.run();
    overtaking.take(1, &[Whole(1)]);
    overtaking.take(0, &[Whole(23)]);
    overtaking.push(SLOW, 0);

    let mut left = on_slow_sum(start, "tokens left behind a take");
    left.push(QUICK, 0);
    left.fire_under(0, false);
    left.take(0, &[Whole(1)]);
    left.push(SLOW, 1);
    left.no_result(0);
    left.fire_under(0, true);
    left.push(SLOW, 0);
    left.run();
    left.take(0, &[Whole(23)]);
    left.take(1, &[Whole(23)]);
    left.push(QUICK, 0);

    let mut held = on_slow_sum(start, "sixteen tags, each held by a token");
    for tag in 0..TAGS {
        held.push(QUICK, tag);
        held.fire_under(tag, false);
        held.take(tag, &[Whole(1)]);
    }
    held.gets([PUSH, QUICK, 0], 37, 0);
    held.fire_under(11, true);
    held.push(SLOW, 11);
    held.run();
    held.push(SLOW, 0);
    held.take(11, &[Whole(23)]);
    [overtaking, left, held].map(|script| script.case).into_iter().chain([seventeen(start)]).collect()
}

fn seventeen(start: Start) -> Case {
    let sets: Vec<Vec<Value>> = (0..17).map(|number| vec![Whole(100), Whole(number)]).collect();
    let mut script = Script::new(start, "seventeen pushes", lesser(), &sets);
    (0..TAGS).for_each(|tag| script.push(tag + 1, tag));
    script.gets([PUSH, 17, 0], 37, 0);
    script.gets([PUSH, 18, 0], 12, 0);
    script.run();
    script.gets([PUSH, 17, 0], 37, 0);
    for tag in [5, 15, 0] {
        script.take(tag, &[Whole(tag as i32)]);
    }
    script.push(17, 0);
    script.push(17, 5);
    script.push(17, 15);
    script.run();
    (0..TAGS)
        .for_each(|tag| script.take(tag, &[if matches!(tag, 0 | 5 | 15) { Whole(16) } else { Whole(tag as i32) }]));
    script.case
}

fn refusals(start: Start) -> Vec<Case> {
    let sets = [vec![Whole(3), Whole(5)], vec![Value::E, Whole(2)]];
    let mut absent = Script::new(start, "absent tags and operators", lesser(), &sets);
    absent.push(1, 0);
    for tag in [TAGS, TAGS + 1, 255, 256, 999_999] {
        absent.gets([FIRE, 0, tag], 34, 0);
        absent.no_result(tag);
    }
    for operator in [8, 1_023, 1_024, 999_999] {
        absent.gets([FIRE, operator, 0], 34, 0);
        absent.gets([FIRE, operator, TAGS], 34, 0);
    }
    absent.gets([FIRE, 0, 1], 34, 0);
    absent.gets([FIRE, 2, 0], 34, 0);
    absent.gets([FIRE, 0, 0], 0, 0);
    absent.gets([FIRE, 0, 0], 34, 0);

    let mut empty = Script::new(start, "a machine with nothing pushed", lesser(), &sets);
    (0..TAGS).for_each(|tag| empty.no_result(tag));
    empty.gets([RUN, 0, 0], 0, 0);
    empty.gets([RUN, MANY, 0], 0, 0);
    empty.gets([FIRE, 0, 0], 34, 0);

    let mut bad = Script::new(start, "a set with no values", lesser(), &sets);
    bad.gets([PUSH, 0, 0], 12, 0);
    bad.gets([PUSH, 3, 0], 12, 0);
    bad.push(2, 0);
    bad.run();
    bad.take(0, &[Value::E]);
    [absent, empty, bad].map(|script| script.case).into()
}

fn formulas(start: Start) -> Vec<Case> {
    let made = |rows: &[[u32; 5]], kinds: &[u8]| Made { bytes: sheet::write(rows), kinds: kinds.to_vec() };
    let mut bare =
        Script::new(start, "an identifier", made(&[[1, 0, 0, 0, 0]], b"W\n"), &[vec![Whole(7)], vec![Value::Z]]);
    bare.push(1, 0);
    bare.push(2, 1);
    bare.take(1, &[Value::Z]);
    bare.push(1, 1);
    bare.gets([RUN, MANY, 0], 0, 0);
    bare.take(0, &[Whole(7)]);
    bare.push(2, 0);

    let rows = [[1, 0, 0, 0, 0], [1, 1, 0, 0, 0], [4, 1, 2, 0, 0]];
    let mut pair = Script::new(start, "a pair", made(&rows, b"WT\n"), &[vec![Whole(-1), Truth(true)]]);
    pair.push(1, 0);
    pair.take(0, &[Whole(-1), Truth(true)]);
    pair.no_result(0);

    let mut seven = Script::new(start, "no inputs", made(&[[2, 7, 0, 0, 0]], b"\n"), &[]);
    seven.push(0, 0);
    seven.push(1, 1);
    seven.gets([FIRE, 0, 1], 0, 0);
    seven.take(1, &[Whole(7)]);
    seven.no_result(0);
    seven.gets([FIRE, 0, 0], 0, 0);
    seven.take(0, &[Whole(7)]);

    let strengths = [[1.37, 0.02], [0.01, 0.02]].map(|set| set.map(Value::real).to_vec());
    let mut floats = Script::new(start, "floats", range(), &strengths);
    floats.push(1, 0);
    floats.push(2, 1);
    floats.run();
    floats.take(1, &[Value::thousandths(999_999)]);
    floats.call([TAKE, 0, 0]);

    let mut errs = Script::new(start, "errs", lesser(), &[vec![Value::Z, Whole(5)], vec![Whole(5), Value::V]]);
    errs.push(1, 0);
    errs.push(2, 1);
    errs.run();
    errs.take(1, &[Value::E]);
    errs.take(0, &[Value::E]);
    [bare, pair, seven, floats, errs].map(|script| script.case).into()
}

fn runs(start: Start) -> Vec<Case> {
    let mut by_ones = on_slow_sum(start, "a run by single firings");
    (0..3).for_each(|tag| by_ones.push(if tag == 1 { QUICK } else { SLOW }, tag));
    by_ones.gets([RUN, 0, 0], 36, 0);
    while by_ones.call([RUN, 1, 0]).0.refusal == 36 {
        for tag in (0..3).rev() {
            by_ones.call([TAKE, tag, 0]);
        }
    }
    (0..3).for_each(|tag| drop(by_ones.call([TAKE, tag, 0])));
    by_ones.gets([RUN, 1, 0], 0, 0);

    let numbers: Vec<Vec<Value>> = (1..=16).map(|number| vec![Whole(number)]).collect();
    let mut chain = Script::new(start, "200 rows and sixteen sets", negations(200), &numbers);
    (0..TAGS).for_each(|tag| chain.push(tag + 1, tag));
    chain.gets([RUN, 3_183, 0], 36, 3_183);
    chain.gets([RUN, 1, 0], 0, 1);
    (0..TAGS).rev().for_each(|tag| chain.take(tag, &[Whole(-(tag as i32) - 1)]));
    vec![by_ones.case, chain.case]
}

/// Sheets that start refuses; the line behind them is not made.
fn sheets(_: Start) -> Vec<Case> {
    let case = |name: String, made: Made| Case { name, made, sets: vec![], lines: vec![[RUN, 1, 0]] };
    let planted = PLANTABLE
        .map(|fault| case(format!("a sheet with fault {fault}"), plant(fault, &mut Rng::new(fault.into())).made));
    let kinds = |kinds: &[u8]| Made { kinds: kinds.to_vec(), ..factorial() };
    let loops = [
        case("a sheet with a for".into(), factorial()),
        case("17 before 19".into(), kinds(b"WW\n")),
        case("18 before 19".into(), kinds(b"T\n")),
    ];
    planted.into_iter().chain(loops).collect()
}

/// Random lists of calls; their answers are those of the machine here.
fn random(start: Start) -> Vec<Case> {
    let mut rng = Rng::new(2026);
    (1..=16).map(|number| random_case(start, number, &mut rng)).collect()
}

fn random_case(start: Start, number: u32, rng: &mut Rng) -> Case {
    let made = small_sheet(rng);
    let sheet = made.sheet();
    let sets: Vec<Vec<Value>> = (0..8).map(|_| fitting_set(&sheet, rng)).collect();
    let mut script = Script::new(start, &format!("random sheet {number}"), made, &sets);
    for _ in 0..50 {
        let machine = script.machine();
        let able = machine.able_pairs();
        let tag = rng.below(6) as Tag;
        let line = match rng.below(10) {
            0 | 1 => [PUSH, rng.between(1, sets.len()) as u32, 0],
            2..=5 if !able.is_empty() => {
                let (operator, tag) = rng.pick(&able);
                [FIRE, operator as u32, tag]
            }
            6 => [RUN, rng.below(12) as u32, 0],
            7 => [FIRE, rng.below(40) as u32, tag],
            _ => [TAKE, tag, 0],
        };
        script.call(line);
    }
    script.case
}

/// An accepted sheet without for, with some operators.
fn small_sheet(rng: &mut Rng) -> Made {
    loop {
        let made = if rng.chance(70) { quick_sheet(rng) } else { loopless_sheet(rng) };
        if (4..=40).contains(&made.sheet().figures.operators) {
            return made;
        }
    }
}
