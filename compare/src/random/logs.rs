// Random logs with all that a check of one is lent: logs that a scheduler without any plan writes, which are accepted, and such logs with a fault planted
// somewhere in what is lent.

use super::faults::{plant, PLANTABLE};
use super::lines::{bad_line, with_other_letter};
use super::{fitting_set, mutate, random_err, random_float_bytes, random_value, Made, Rng};
use crate::bytes::{encode, encode_set, OUT_BYTES, VALUE_BYTES};
use crate::log::{room_for, write_line, Handed, Start, LINE_BYTES, MOST_LINES};
use crate::memory::{need, Machine};
use crate::sheet;
use crate::tally::Tally;
use crate::value::Sort;

/// The largest number that a field of six characters holds.
const GREATEST_FIELD: usize = 999_999;

#[derive(Clone, Debug)]
pub struct Lent {
    pub made: Made,
    pub capacity: u32,
    pub sets: Vec<u8>,
    pub number: u32,
    pub log: Vec<u8>,
    /// Bytes of memory and of room beyond the need, or below it.
    pub more: isize,
    pub more_room: isize,
}

impl Lent {
    pub fn handed(&self) -> Handed<'_> {
        let Lent { made: Made { bytes: sheet, kinds }, capacity, sets, number, log, .. } = self;
        Handed { sheet, kinds, capacity: *capacity, sets, number: *number, log }
    }

    pub fn memory_bytes(&self) -> usize {
        need(self.capacity as usize).saturating_add_signed(self.more)
    }

    pub fn room_bytes(&self) -> usize {
        room_for(self.log.len()).saturating_add_signed(self.more_room)
    }
}

/// A log of at most so many lines that is accepted, for an accepted sheet; its operators are numbered as this start does.
pub fn accepted_log(start: Start, made: Made, most: usize, rng: &mut Rng) -> Lent {
    let sheet = made.sheet();
    let capacity = if rng.chance(60) { rng.between(1, 3) } else { rng.between(1, 16) } as u32;
    let mut mem = vec![0; need(capacity as usize)];
    let started = start(&made.bytes, &made.kinds, capacity, &mut mem, &mut Tally::default());
    assert_eq!(started.refusal, 0);
    let number = match sheet.sorts.is_empty() && rng.chance(50) {
        true => rng.pick(&[1, 1_000, GREATEST_FIELD as u32, u32::MAX]),
        false => rng.pick(&[0, 1, 1, 2, 3, 5, 20]),
    };
    let sets: Vec<u8> = match sheet.sorts.is_empty() {
        true => vec![],
        false => (0..number).flat_map(|_| encode_set(&fitting_set(&sheet, rng))).collect(),
    };
    let log = Scheduler::random(rng).work(&mut Machine::standing(&mut mem), &sets, number as usize, most, rng);
    let (more, more_room) = (rng.below(3) as isize, rng.below(3) as isize);
    Lent { made, capacity, sets, number, log, more, more_room }
}

/// In which order operators are asked whether they are able.
#[derive(Clone, Copy)]
pub enum Order {
    Rising,
    Falling,
    /// From this one on, and then those before it.
    From(usize),
}

impl Order {
    pub fn first_able(self, machine: &Machine<'_>) -> Option<usize> {
        let operators = machine.operators();
        let able = |i: &usize| machine.can_fire(*i);
        match self {
            Order::Rising => (0..operators).find(able),
            Order::Falling => (0..operators).rev().find(able),
            Order::From(first) => (first..operators).chain(0..first).find(able),
        }
    }
}

/// How likely a scheduler pushes or takes before it fires, of a hundred times, and its order, if it has one.
struct Scheduler {
    push: usize,
    take: usize,
    order: Option<Order>,
}

impl Scheduler {
    fn random(rng: &mut Rng) -> Scheduler {
        let order = rng.pick(&[Some(Order::Rising), Some(Order::Falling), None, None]);
        Scheduler { push: rng.pick(&[1, 5, 20, 70]), take: rng.pick(&[1, 5, 20, 70]), order }
    }

    /// Works until nothing can be done, or so many lines are written.
    fn work(&self, machine: &mut Machine<'_>, sets: &[u8], number: usize, most: usize, rng: &mut Rng) -> Vec<u8> {
        let mut log = String::new();
        while log.len() < LINE_BYTES * most {
            let (push, take) = (rng.chance(self.push), rng.chance(self.take));
            let line = (push.then(|| push_some(machine, sets, number, rng)).flatten())
                .or_else(|| take.then(|| take_one(machine)).flatten())
                .or_else(|| self.fire_one(machine, rng))
                .or_else(|| take_one(machine))
                .or_else(|| push_some(machine, sets, number, rng));
            match line {
                Some(line) => log.push_str(&line),
                None => break,
            }
        }
        log.into_bytes()
    }

    fn fire_one(&self, machine: &mut Machine<'_>, rng: &mut Rng) -> Option<String> {
        let order = self.order.unwrap_or(Order::From(rng.below(machine.operators().max(1))));
        let able = order.first_able(machine)?;
        machine.fire(able);
        Some(write_line(2, able as u32))
    }
}

fn push_some(machine: &mut Machine<'_>, sets: &[u8], number: usize, rng: &mut Rng) -> Option<String> {
    if number == 0 {
        return None;
    }
    let set = rng.below(number.min(GREATEST_FIELD));
    let set_bytes = sets.len() / number;
    let pushed = machine.push(&sets[set_bytes * set..][..set_bytes]);
    (pushed.refusal == 0).then(|| write_line(1, set as u32 + 1))
}

fn take_one(machine: &mut Machine<'_>) -> Option<String> {
    let taken = machine.take(&mut [0; OUT_BYTES]);
    (taken.refusal == 0).then(|| write_line(3, 0))
}

/// A change of what is lent that mostly is a fault, by its name.
pub type Fault = (&'static str, fn(&mut Lent, &mut Rng));

pub const FAULTS: [Fault; 23] = [
    ("a byte altered", alter_byte),
    ("a byte too many", |lent, rng| {
        let at = rng.below(lent.log.len() + 1);
        lent.log.insert(at, rng.pick(b" 0123\n"));
    }),
    ("a byte missing", |lent, rng| {
        if let Some(line) = some_line(lent, rng) {
            lent.log.remove(line + rng.below(LINE_BYTES));
        }
    }),
    ("a line removed", |lent, rng| {
        if let Some(line) = some_line(lent, rng) {
            lent.log.drain(line..line + LINE_BYTES);
        }
    }),
    ("a line doubled", |lent, rng| {
        if let Some(line) = some_line(lent, rng) {
            let text = lent.log[line..line + LINE_BYTES].to_vec();
            let at = if rng.chance(50) { line } else { lent.log.len() };
            insert(&mut lent.log, at, &text);
        }
    }),
    ("two lines swapped", swap_lines),
    ("the log cut", |lent, rng| {
        if let Some(line) = some_line(lent, rng) {
            lent.log.truncate(line + rng.below(LINE_BYTES));
        }
    }),
    ("a line put in", |lent, rng| {
        let at = if rng.chance(30) { lent.log.len() } else { some_line(lent, rng).unwrap_or(0) };
        let line = random_line(lent, rng);
        insert(&mut lent.log, at, line.as_bytes());
    }),
    ("another operator", |lent, rng| {
        let operator = random_operator(lent, rng);
        change_line(lent, b'2', &write_line(2, operator), rng);
    }),
    ("another set", |lent, rng| {
        let set = random_set_number(lent, rng);
        change_line(lent, b'1', &write_line(1, set), rng);
    }),
    ("another first field", |lent, rng| {
        if let Some(line) = some_line(lent, rng) {
            lent.log[line + 5] = rng.pick(b"0123456789");
        }
    }),
    ("3 and another number", |lent, rng| {
        change_line(lent, b'3', &write_line(3, rng.pick(&[1, 10, 999_999])), rng);
    }),
    ("many lines", many_lines),
    ("bytes behind the log", |lent, rng| {
        (0..rng.between(1, LINE_BYTES)).for_each(|_| lent.log.push(rng.pick(b"\n 0123\0")));
    }),
    ("a bad set", bad_set),
    ("the sets cut", |lent, rng| {
        let length = lent.sets.len();
        lent.sets.truncate(length.saturating_sub(rng.between(1, 2 * VALUE_BYTES)));
    }),
    ("bytes behind the sets", |lent, rng| {
        (0..rng.between(1, 12)).for_each(|_| lent.sets.push(rng.number() as u8));
    }),
    ("another number of sets", |lent, rng| {
        let number = lent.number;
        lent.number = rng.pick(&[0, number / 2, number.saturating_sub(1), number.saturating_add(1), u32::MAX]);
    }),
    ("short memory", |lent, rng| lent.more = -rng.pick(&[1, 1, 1_000, isize::MAX])),
    ("short room", |lent, rng| lent.more_room = -rng.pick(&[1, 1, 80, isize::MAX])),
    ("another capacity", |lent, rng| {
        let capacity = rng.between(1, 16) as u32;
        lent.capacity = rng.pick(&[0, 0, 0, 17, 17, 255, 256, 257, u32::MAX, capacity, capacity, capacity, 1, 1]);
    }),
    ("the sheet", |lent, rng| match rng.below(4) {
        0 => lent.made.bytes = mutate(&lent.made.bytes, rng),
        _ => lent.made = plant(rng.pick(&PLANTABLE), rng).made,
    }),
    ("the kinds line", |lent, rng| match rng.below(2) {
        1 if lent.made.refusal() == 0 => lent.made.kinds = with_other_letter(&lent.made.kinds, rng),
        _ => lent.made.kinds = bad_line(&lent.made.kinds, rng),
    }),
];

/// Where a whole line of the log stands, often the first or the last.
fn some_line(lent: &Lent, rng: &mut Rng) -> Option<usize> {
    let lines = lent.log.len() / LINE_BYTES;
    let line = match rng.below(6) {
        _ if lines == 0 => return None,
        0 => 0,
        1 => lines - 1,
        _ => rng.below(lines),
    };
    Some(LINE_BYTES * line)
}

fn insert(log: &mut Vec<u8>, at: usize, text: &[u8]) {
    log.splice(at..at, text.iter().copied());
}

fn alter_byte(lent: &mut Lent, rng: &mut Rng) {
    if let Some(line) = some_line(lent, rng) {
        let byte = if rng.chance(10) { rng.number() as u8 } else { rng.pick(b"  0123456789\n\r+-") };
        lent.log[line + rng.below(LINE_BYTES)] = byte;
    }
}

fn swap_lines(lent: &mut Lent, rng: &mut Rng) {
    if let (Some(one), Some(other)) = (some_line(lent, rng), some_line(lent, rng)) {
        (0..LINE_BYTES).for_each(|byte| lent.log.swap(one + byte, other + byte));
    }
}

/// Another text for a line of this kind, where there is one from a random line on.
fn change_line(lent: &mut Lent, kind: u8, text: &str, rng: &mut Rng) {
    let from = some_line(lent, rng).unwrap_or(0);
    let line = (from..lent.log.len()).step_by(LINE_BYTES).find(|&line| lent.log.get(line + 5) == Some(&kind));
    if let Some(place) = line.and_then(|line| lent.log.get_mut(line..line + LINE_BYTES)) {
        place.copy_from_slice(text.as_bytes());
    }
}

fn random_line(lent: &Lent, rng: &mut Rng) -> String {
    match rng.below(4) {
        0 => write_line(1, random_set_number(lent, rng)),
        1 => write_line(3, 0),
        _ => write_line(2, random_operator(lent, rng)),
    }
}

fn random_operator(lent: &Lent, rng: &mut Rng) -> u32 {
    let sheet = sheet::read(&lent.made.bytes, &lent.made.kinds);
    let operators = sheet.map_or(8, |sheet| sheet.figures.operators.max(1));
    let any = rng.below(operators as usize) as u32;
    rng.pick(&[any, any, any, operators - 1, operators, 1_023, 1_024, 999_999])
}

fn random_set_number(lent: &Lent, rng: &mut Rng) -> u32 {
    let greatest = lent.number.min(GREATEST_FIELD as u32 - 1);
    let any = rng.below(greatest as usize + 1) as u32;
    rng.pick(&[any, any, any, 0, greatest, greatest + 1, 999_999])
}

/// The lines again and again, up to the most that are allowed, or a little more.
fn many_lines(lent: &mut Lent, rng: &mut Rng) {
    let lines = if lent.log.is_empty() { write_line(3, 0).into_bytes() } else { lent.log.clone() };
    let most = LINE_BYTES * MOST_LINES;
    let length = most + rng.pick(&[0, 0, 1, LINE_BYTES - 1, LINE_BYTES, LINE_BYTES, LINE_BYTES + 1, 3 * LINE_BYTES]);
    lent.log = lines.iter().copied().cycle().take(length).collect();
}

/// A value of any kind, an err, a float of any pattern, or a byte altered.
fn bad_set(lent: &mut Lent, rng: &mut Rng) {
    let values = lent.sets.len() / VALUE_BYTES;
    if values == 0 {
        return;
    }
    let at = VALUE_BYTES * rng.below(values);
    let place = &mut lent.sets[at..at + VALUE_BYTES];
    match rng.below(4) {
        0 => place[rng.below(VALUE_BYTES)] = rng.pick(&[0, 1, 2, 3, 4, 5, 255]),
        1 => place.copy_from_slice(&random_err(rng)),
        2 => place.copy_from_slice(&random_float_bytes(rng)),
        _ => place.copy_from_slice(&encode(random_value(rng.pick(&[Sort::Whole, Sort::Truth, Sort::Real]), rng))),
    }
}
