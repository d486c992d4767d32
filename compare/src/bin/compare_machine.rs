// Runs random lists of calls through the product's machine and through the plain one here, on the same bytes, and stops at the first difference, which it
// prints. After every call the answers, every byte and the records of firings, takes and refused pushes must agree; bytes past the lent ones and words around a
// record must be as they were. A record must show what its calls did since it was set (document 02, Job 10). A tray must answer and leave what the
// product's pushes one by one do. Where nothing but calls wrote the memory, each result taken must also be what direct evaluation gives for the set
// pushed (demand 3), also behind a set whose evaluation does not end (document 02, Job 11), and the oldest untaken set waits no more rounds than the
// firings that it is owed (document 02, Job 7).
// Usage: compare_machine CASES SEED [FIRST]. `compare_machine 1 SEED NUMBER` makes a case again.

use compare::arguments::{Cases, Counts};
use compare::bytes::{self, OUT_BYTES, VALUE_BYTES};
use compare::calls::difference;
use compare::memory::{self, Answer, RoundsAnswer, LETTERS, LINKS};
use compare::random::altered::alter;
use compare::random::faults::{plant, PLANTABLE};
use compare::random::{accepted_sheet, endless_sheet, heavy_sheet, lent_set, Made, Rng};
use compare::sheet::{self, Sheet};
use compare::tally::Tally;
use compare::{eval, product};
use std::collections::VecDeque;

/// The rounds within which an evaluation is looked for.
const ROUNDS: u32 = 2_000;

/// The firings within which a set is worked in turn, and the most rounds that a wait is followed for.
const FIRINGS: u32 = 50_000;
const MOST_WAIT: u64 = 1_000;

/// The most rounds lent to a machine that may go on without end.
const MANY_ROUNDS: u32 = 300;

/// How many calls in a hundred are followed by a look at how long the oldest untaken set waits.
const WAITS: usize = 10;

/// Before how many calls in a hundred the record is set to other numbers.
const OTHER_RECORDS: usize = 8;

/// Bytes behind the lent ones.
const MARGIN: usize = 32;

/// The words around a record.
const GUARD: [u32; 4] = [0x5a5a_5a5a; 4];

/// How many bytes a memory has before its links.
const FIGURES: usize = 8;

/// Where a memory has its number of inputs.
const INPUTS_AT: usize = 5;

/// No more sets go in at once: after sixteen untaken ones comes 32.
const MOST_UNTAKEN: usize = 16;

fn main() {
    Cases::asked("compare_machine").compare(|number, counts, rng| {
        let made = random_sheet(number, rng);
        compare_case(number, &made, counts, rng).map_err(|difference| format!("{made}\n{difference}"))
    });
}

fn random_sheet(number: u64, rng: &mut Rng) -> Made {
    match number % 20 {
        0 => heavy_sheet(rng),
        1 => plant(rng.pick(&PLANTABLE), rng).made,
        2..=4 => endless_sheet(rng),
        _ => accepted_sheet(rng),
    }
}

/// A machine under comparison: its memory, the sets pushed and not yet taken while nothing else wrote it, and how often each operator has fired. Beside it
/// a second machine, on which the same sets are worked one after another, each whole before the next goes in.
struct Run<'a> {
    sheet: &'a Sheet,
    mem: Vec<u8>,
    /// Copies of it that are no longer wanted.
    spare: Vec<Vec<u8>>,
    pushed: VecDeque<Vec<u8>>,
    times: Vec<u64>,
    in_turn: InTurn,
    taken: usize,
    /// A set taken before did not end within the rounds of an evaluation.
    endless: bool,
    altered: bool,
    tally: Tally,
    done: Done,
    counts: &'a mut Counts,
}

/// What a record must show: the numbers that it was set to, and all that was done since, firing by firing.
struct Done {
    firings: u64,
    takes: u64,
    refused: u64,
}

impl Done {
    fn since(tally: Tally) -> Done {
        Done { firings: tally.firings.into(), takes: tally.takes.into(), refused: tally.refused.into() }
    }

    /// "Each number stops at 4,294,967,295."
    fn shown(&self) -> Tally {
        let [firings, takes, refused] =
            [self.firings, self.takes, self.refused].map(|number| number.min(u32::MAX.into()) as u32);
        Tally { firings, takes, refused }
    }

    fn passes_an_end(&self) -> bool {
        [self.firings, self.takes, self.refused].iter().any(|&number| number > u32::MAX.into())
    }
}

/// A record between words that no call may touch.
#[repr(C)]
#[derive(Clone, Copy, PartialEq, Debug)]
struct Record {
    before: [u32; 4],
    tally: Tally,
    behind: [u32; 4],
}

impl Record {
    fn of(tally: Tally) -> Record {
        Record { before: GUARD, tally, behind: GUARD }
    }
}

/// A record with any numbers, many of them about the end.
fn random_record(rng: &mut Rng) -> Tally {
    let mut number = || match rng.below(4) {
        0 => rng.below(3) as u32,
        1 => rng.number() as u32,
        _ => u32::MAX - rng.pick(&[0, 1, 2, 5, 40, 1000]),
    };
    Tally { firings: number(), takes: number(), refused: number() }
}

/// The second machine: its memory, how often each operator has fired, and the sets worked; none where one of them does not end.
struct InTurn {
    mem: Vec<u8>,
    tally: Tally,
    times: Vec<u64>,
    worked: Option<usize>,
}

impl InTurn {
    /// Works the next set whole.
    fn work(&mut self, set: &[u8]) {
        let Some(worked) = self.worked else { return };
        let tally = &mut self.tally;
        let pushed = memory::push(&mut self.mem, set, tally);
        let ran = memory::run_telling(&mut self.mem, FIRINGS, tally, |operator| self.times[operator] += 1);
        let taken = memory::take(&mut self.mem, &mut [0; OUT_BYTES], tally);
        let whole = (pushed.refusal, ran.refusal, taken.refusal) == (0, 0, 0);
        self.worked = whole.then_some(worked + 1);
    }
}

/// A call's answer: of a run by rounds the count is that of its rounds.
#[derive(Clone, Copy, PartialEq, Debug)]
struct Told {
    refusal: u32,
    count: u32,
    firings: u64,
}

impl From<Answer> for Told {
    fn from(Answer { refusal, count }: Answer) -> Told {
        Told { refusal, count, firings: 0 }
    }
}

impl From<RoundsAnswer> for Told {
    fn from(RoundsAnswer { refusal, rounds, firings }: RoundsAnswer) -> Told {
        Told { refusal, count: rounds, firings }
    }
}

/// What a call is lent on one side: so many bytes of a memory, room for a result, and a record.
#[derive(PartialEq)]
struct Side {
    mem: Vec<u8>,
    lent: usize,
    out: Vec<u8>,
    room: usize,
    record: Record,
}

impl Side {
    fn memory(&mut self) -> (&mut [u8], &mut Tally) {
        (&mut self.mem[..self.lent], &mut self.record.tally)
    }

    fn memory_and_room(&mut self) -> (&mut [u8], &mut [u8], &mut Tally) {
        (&mut self.mem[..self.lent], &mut self.out[..self.room], &mut self.record.tally)
    }
}

/// A fire, a run of either sort or a take.
#[derive(Clone, Copy)]
enum Drive {
    Fire(u32),
    Run(u32),
    Rounds(u32),
    Take,
}

/// A call's answers here and in the product, and its sets: of a push the one pushed, of a tray those that went in.
struct Called {
    name: &'static str,
    ours: Told,
    theirs: Told,
    sets: Vec<Vec<u8>>,
}

fn compare_case(number: u64, made: &Made, counts: &mut Counts, rng: &mut Rng) -> Result<(), String> {
    let capacity = if rng.chance(95) { rng.between(1, 16) as u32 } else { rng.pick(&[0, 17, 255, 256, 257, u32::MAX]) };
    let need = memory::need(capacity as usize);
    let length = if rng.chance(95) { need + rng.below(3) } else { rng.pick(&[0, 1, 21_760, need - 1]) };
    let fill = rng.number() as u8;
    let held: Vec<u8> = (0..length + MARGIN).map(|at| (at as u8).wrapping_mul(31).wrapping_add(fill)).collect();
    let (mut plain, mut mem) = (held.clone(), held.clone());
    let mut record = Record::of(random_record(rng));
    let mut shown = record;
    let ours = memory::start(&made.bytes, &made.kinds, capacity, &mut plain[..length], &mut record.tally);
    let theirs = product::start(&made.bytes, &made.kinds, capacity, &mut mem[..length], &mut shown.tally);
    *counts.entry(format!("start with {:2}", ours.refusal)).or_default() += 1;
    if ours != theirs || mem[length..] != held[length..] || (theirs.refusal != 0 && mem != held) {
        return Err(format!("start at capacity {capacity} gives here {ours:?}, the product answers {theirs:?}"));
    }
    if shown != record {
        return Err(format!("start with {}: the record is here {record:?}, the product's {shown:?}", ours.refusal));
    }
    if ours.refusal != 0 {
        return Ok(());
    }
    let sheet = sheet::read(&made.bytes, &made.kinds).map_err(|refusal| format!("{refusal:?}"))?;
    if fixed_figures(&plain) != fixed_figures(&mem) {
        return Err("start stores other figures or letters than those here".into());
    }
    // The product's own graph, and now and then the one made here: the calls must do with both.
    let mem = if number % 4 == 3 { plain } else { mem };
    let times = vec![0; sheet.figures.operators as usize];
    let tally = shown.tally;
    let in_turn = InTurn { mem: mem[..length].to_vec(), tally, times: times.clone(), worked: Some(0) };
    let run = Run {
        sheet: &sheet,
        mem,
        spare: vec![],
        pushed: VecDeque::new(),
        times,
        in_turn,
        taken: 0,
        endless: false,
        altered: false,
        tally,
        done: Done::since(tally),
        counts,
    };
    run.list(length, rng)
}

/// What a start stores whatever the numbering is: the header's figures before the links, and the letters.
fn fixed_figures(mem: &[u8]) -> (&[u8], &[u8]) {
    (&mem[..FIGURES], &mem[LETTERS..LETTERS + usize::from(mem[INPUTS_AT])])
}

impl Run<'_> {
    /// A random list of calls; where nothing else wrote the memory, what can still be taken is taken at the end.
    fn list(mut self, length: usize, rng: &mut Rng) -> Result<(), String> {
        let alters = rng.chance(40);
        for _ in 0..rng.between(10, 80) {
            if alters && rng.chance(15) {
                let size = 1 + VALUE_BYTES * usize::from(self.mem[0]).clamp(1, 16);
                alter(&mut self.mem[..length], rng, |link, _| LINKS + link * size);
                self.altered = true;
            }
            if rng.chance(OTHER_RECORDS) {
                self.tally = random_record(rng);
                self.done = Done::since(self.tally);
            }
            self.call(length, rng)?;
            if rng.chance(WAITS) && !self.altered {
                self.wait(length)?;
            }
        }
        match self.altered {
            true => Ok(()),
            false => self.finish(length),
        }
    }

    fn call(&mut self, length: usize, rng: &mut Rng) -> Result<(), String> {
        let lent = if rng.chance(97) { length } else { rng.pick(&[0, 1, 8, length - 1 - length / 3, length - 3]) };
        let room = if rng.chance(97) { OUT_BYTES + rng.below(3) } else { rng.pick(&[0, 79]) };
        let (mut plain, mut product) = self.sides(lent, room);
        let called = match rng.below(12) {
            0..=4 => self.push_both(&mut plain, &mut product, rng)?,
            _ => {
                let drive = self.random_drive(lent, rng);
                self.drive_both(&mut plain, &mut product, drive)
            }
        };
        self.compare(called, plain, product)
    }

    /// Runs by rounds and takes what is ready, until nothing is: many sets are still untaken at the end of a list, and their results are to be held to
    /// evaluation too.
    fn finish(&mut self, length: usize) -> Result<(), String> {
        let mut taken = None;
        while taken != Some(self.taken) {
            taken = Some(self.taken);
            self.drive(length, Drive::Rounds(MANY_ROUNDS))?;
            self.take_all(length)?;
        }
        Ok(())
    }

    fn take_all(&mut self, length: usize) -> Result<(), String> {
        let mut taken = None;
        while taken != Some(self.taken) {
            taken = Some(self.taken);
            self.drive(length, Drive::Take)?;
        }
        Ok(())
    }

    /// A call that is lent all it needs.
    fn drive(&mut self, length: usize, drive: Drive) -> Result<(), String> {
        let (mut plain, mut product) = self.sides(length, OUT_BYTES);
        let called = self.drive_both(&mut plain, &mut product, drive);
        self.compare(called, plain, product)
    }

    fn sides(&mut self, lent: usize, room: usize) -> (Side, Side) {
        let record = Record::of(self.tally);
        let mut side = || Side { mem: self.copy(), lent, out: vec![0x55; 90], room, record };
        (side(), side())
    }

    /// A copy of the memory, in the place of one that is no longer wanted: new places for every call would take a third of the time.
    fn copy(&mut self) -> Vec<u8> {
        let mut copy = self.spare.pop().unwrap_or_default();
        copy.clone_from(&self.mem);
        copy
    }

    /// A call that was made on both sides.
    fn compare(&mut self, called: Called, plain: Side, product: Side) -> Result<(), String> {
        let Called { name, ours, theirs, sets } = called;
        *self.counts.entry(format!("{name} with {:2}", ours.refusal)).or_default() += 1;
        if ours != theirs || product != plain {
            let records = format!("records {:?} and {:?}", plain.record, product.record);
            return Err(format!("{name}: {}; {records}", difference(ours, theirs, &plain.mem, &product.mem)));
        }
        let keeps = (ours.refusal == 36 || name == "tray") && ours.count > 0;
        if ours.refusal != 0 && !keeps && (product.mem != self.mem || product.out != [0x55; 90]) {
            return Err(format!("{name} refused with {} altered its memory", ours.refusal));
        }
        if ours.refusal == 31 && !self.altered {
            return Err(format!("{name} gives 31 for memory that only calls wrote"));
        }
        self.spare.extend([plain.mem, std::mem::replace(&mut self.mem, product.mem)]);
        self.tally = product.record.tally;
        self.count_call(name, ours)?;
        self.follow(name, ours, sets, &product.out)
    }

    /// Document 02, Job 10: where nothing else touched the record, "the firings shown are their sum, and the other two count the accepted takes and refused
    /// pushes since". Firings were counted as they were made.
    fn count_call(&mut self, name: &str, answer: Told) -> Result<(), String> {
        match (name, answer.refusal) {
            ("take", 0) => self.done.takes += 1,
            ("push" | "tray", 1..) => self.done.refused += 1,
            _ => {}
        }
        if self.done.passes_an_end() {
            *self.counts.entry("records past an end".into()).or_default() += 1;
        }
        match self.done.shown() == self.tally {
            true => Ok(()),
            false => Err(format!("{name}, {answer:?}: the record is {:?}, not {:?}", self.tally, self.done.shown())),
        }
    }

    /// A push or a tray.
    fn push_both(&mut self, plain: &mut Side, product: &mut Side, rng: &mut Rng) -> Result<Called, String> {
        if rng.chance(60) {
            let set = lent_set(self.sheet, rng);
            let (mem, tally) = plain.memory();
            let ours = memory::push(mem, &set, tally);
            let (mem, tally) = product.memory();
            let theirs = product::push(mem, &set, tally);
            return Ok(Called { name: "push", ours: ours.into(), theirs: theirs.into(), sets: vec![set] });
        }
        let (bytes, number) = self.random_tray(rng);
        let (mem, tally) = plain.memory();
        let ours = memory::push_tray(mem, &bytes, number, tally);
        let (mem, tally) = product.memory();
        let theirs = product::push_tray(mem, &bytes, number, tally);
        let sets = self.one_by_one(&bytes, number, theirs, product)?;
        Ok(Called { name: "tray", ours: ours.into(), theirs: theirs.into(), sets })
    }

    fn random_drive(&self, lent: usize, rng: &mut Rng) -> Drive {
        match rng.below(9) {
            0 | 1 => Drive::Fire(self.random_operator(rng)),
            2 | 3 => Drive::Run(rng.pick(&[0, 1, 2, 7, 50, 1000, 20_000])),
            4 | 5 => Drive::Rounds(random_rounds(&self.mem[..lent], rng)),
            _ => Drive::Take,
        }
    }

    fn drive_both(&mut self, plain: &mut Side, product: &mut Side, drive: Drive) -> Called {
        let (mem, out, tally) = plain.memory_and_room();
        let (their_mem, their_out, their_tally) = product.memory_and_room();
        let (name, ours, theirs): (_, Told, Told) = match drive {
            Drive::Fire(number) => {
                let ours = memory::fire(mem, number, tally);
                if ours.refusal == 0 {
                    self.count_firing(number as usize);
                }
                ("fire", ours.into(), product::fire(their_mem, number, their_tally).into())
            }
            Drive::Run(firings) => {
                let ours = memory::run_telling(mem, firings, tally, |operator| self.count_firing(operator));
                ("run", ours.into(), product::run(their_mem, firings, their_tally).into())
            }
            Drive::Rounds(rounds) => {
                let ours = memory::run_rounds_telling(mem, rounds, tally, |operator| self.count_firing(operator));
                ("rounds", ours.into(), product::run_rounds(their_mem, rounds, their_tally).into())
            }
            Drive::Take => {
                let theirs = product::take(their_mem, their_out, their_tally);
                ("take", memory::take(mem, out, tally).into(), theirs.into())
            }
        };
        Called { name, ours, theirs, sets: vec![] }
    }

    fn random_operator(&self, rng: &mut Rng) -> u32 {
        let operators = self.sheet.figures.operators.max(1);
        if rng.chance(90) {
            rng.below(operators as usize) as u32
        } else {
            rng.pick(&[0, operators - 1, operators, u32::MAX])
        }
    }

    /// The second machine then has worked the sets taken and the oldest untaken one.
    fn work_oldest(&mut self) {
        if let (Some(worked), Some(set)) = (self.in_turn.worked, self.pushed.front()) {
            if worked == self.taken {
                self.in_turn.work(set);
            }
        }
    }

    /// Altered memory may have other operators; how often each of them fires nobody asks.
    fn count_firing(&mut self, operator: usize) {
        self.done.firings += 1;
        if let Some(times) = self.times.get_mut(operator) {
            *times += 1;
        }
    }

    /// Document 02, Job 7: "Count the firings that working one set after another would make up to and including that set, less those of them already
    /// made. After at most that many rounds its whole result is ready."
    fn wait(&mut self, length: usize) -> Result<(), String> {
        self.work_oldest();
        let left = self.in_turn.times.iter().zip(&self.times).map(|(there, here)| there.saturating_sub(*here));
        let owed = left.sum::<u64>();
        if self.in_turn.worked.is_none() || self.pushed.is_empty() || owed > MOST_WAIT {
            return Ok(());
        }
        let (mut mem, mut tally) = (self.mem[..length].to_vec(), Tally::default());
        let ran = product::run_rounds(&mut mem, owed as u32, &mut tally);
        let count = if ran.refusal == 36 { "waits with more to do" } else { "waits" };
        *self.counts.entry(count.into()).or_default() += 1;
        match product::take(&mut mem, &mut [0; OUT_BYTES], &mut tally).refusal {
            0 => Ok(()),
            refusal => Err(format!(
                "after the {owed} rounds that the oldest untaken set is owed, {ran:?}, take gives {refusal}"
            )),
        }
    }

    /// Demand 3: the result taken is that of the oldest set untaken. A tray's sets that went in are pushed, also beside a refusal.
    fn follow(&mut self, name: &str, answer: Told, sets: Vec<Vec<u8>>, out: &[u8]) -> Result<(), String> {
        if self.altered {
            return Ok(());
        }
        if name == "tray" || (name == "push" && answer.refusal == 0) {
            self.pushed.extend(sets);
        }
        if name != "take" || answer.refusal != 0 {
            return Ok(());
        }
        self.work_oldest();
        let set = self.pushed.pop_front().ok_or("a result was taken that no set was pushed for")?;
        self.taken += 1;
        let values = bytes::decode_set(&set).ok_or("a bad set was accepted")?;
        if let Ok(done) = eval::evaluate(self.sheet, &values, ROUNDS) {
            *self.counts.entry("results held to evaluation".into()).or_default() += 1;
            if bytes::encode_result(&done.set) != out[..OUT_BYTES] || done.set.width as u32 != answer.count {
                return Err(format!("the result of {set:02x?} is {out:02x?}, evaluation gives {:?}", done.set));
            }
            if self.endless {
                *self.counts.entry("of these behind a set that did not end".into()).or_default() += 1;
            }
        } else {
            self.endless = true;
        }
        Ok(())
    }

    /// The product's tray answered and left what its pushes of the same sets one by one do, up to the first refused. Gives the sets that went in.
    fn one_by_one(&mut self, sets: &[u8], number: u32, tray: Answer, left: &Side) -> Result<Vec<Vec<u8>>, String> {
        let (mut mem, lent, mut tally) = (self.copy(), left.lent, Tally::default());
        // A firing of no operator gives 11, 31 or 34, and leaves all.
        let fired = product::fire(&mut mem[..lent], u32::MAX, &mut tally);
        let mut refusal = Some(fired.refusal).filter(|&refusal| refusal != 34);
        let mut went_in = vec![];
        let mut rest = sets;
        while refusal.is_none() && went_in.len() < number as usize {
            let (set, behind) = rest.split_at(rest.len().min(VALUE_BYTES * usize::from(mem[INPUTS_AT])));
            match product::push(&mut mem[..lent], set, &mut tally).refusal {
                0 => went_in.push(set.to_vec()),
                given => refusal = Some(given),
            }
            rest = behind;
        }
        let pushes = Answer { refusal: refusal.unwrap_or(0), count: went_in.len() as u32 };
        self.count_tray(number, pushes);
        if pushes != tray || mem != left.mem {
            return Err(format!("a tray of {number}: {}", difference(pushes, tray, &mem, &left.mem)));
        }
        self.spare.push(mem);
        Ok(went_in)
    }

    fn count_tray(&mut self, number: u32, answer: Answer) {
        let inputs = if self.mem[INPUTS_AT] == 0 { "without inputs" } else { "of inputs" };
        let kind = match (number, answer.refusal, answer.count) {
            (0, ..) => "none",
            (_, 0, _) => "all in",
            (_, _, 0) => "the first refused",
            _ => "a later one refused",
        };
        *self.counts.entry(format!("trays {inputs}, {kind}")).or_default() += 1;
    }

    /// Sets behind each other and their number; now and then a bad set in the middle, the last not wholly lent, bytes behind it, more sets told than lent.
    fn random_tray(&self, rng: &mut Rng) -> (Vec<u8>, u32) {
        let number = if rng.chance(70) { rng.below(4) } else { rng.below(MOST_UNTAKEN + 5) };
        let mut sets: Vec<u8> = (0..number).flat_map(|_| lent_set(self.sheet, rng)).collect();
        match rng.below(10) {
            0 => sets.truncate(sets.len() - rng.below(sets.len().min(2 * VALUE_BYTES) + 1)),
            1 => sets.extend((0..rng.between(1, 12)).map(|_| rng.number() as u8)),
            2 => return (sets, rng.pick(&[0, 16, 17, 65_536, u32::MAX - 1, u32::MAX])),
            _ => {}
        }
        (sets, number as u32)
    }
}

/// The greatest number only where far fewer rounds end it.
fn random_rounds(mem: &[u8], rng: &mut Rng) -> u32 {
    let rounds = rng.pick(&[0, 1, 2, 3, 7, 50, MANY_ROUNDS, u32::MAX]);
    let ends = || memory::run_rounds(&mut mem.to_vec(), MANY_ROUNDS, &mut Tally::default()).refusal != 36;
    if rounds < u32::MAX || ends() {
        rounds
    } else {
        MANY_ROUNDS
    }
}
