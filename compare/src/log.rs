// The checker of logs from a bench with another scheduler (document 02, Job 3). The lines are followed on the bytes of docs/MEMORY.md. "the operator numbers
// are ours": those of whoever starts the machine, the product or the graph here.

use crate::bytes::{decode_set, OUT_BYTES, VALUE_BYTES};
use crate::machine::MOST_CAPACITY;
use crate::memory::{self, need, Machine, StartAnswer};
use crate::sheet::{self, read_number, refuse, Refusal, Sheet};
use crate::tally::Tally;
use crate::value::{set_suits, Sort};

/// "two six-character fields a line and a line feed"
pub const LINE_BYTES: usize = 13;
const FIELD: usize = 6;

/// "Up to 4,096 lines".
pub const MOST_LINES: usize = 4_096;

/// What `bench_check_log` answers.
#[repr(C)]
#[derive(Clone, Copy, PartialEq, Eq, Debug, Default)]
pub struct LogAnswer {
    pub refusal: u32,
    pub row: u32,
    pub count: u32,
    pub width: u32,
}

/// What is handed in, besides the memory and the room for results.
#[derive(Clone, Copy)]
pub struct Handed<'a> {
    pub sheet: &'a [u8],
    pub kinds: &'a [u8],
    pub capacity: u32,
    pub sets: &'a [u8],
    pub number: u32,
    pub log: &'a [u8],
}

pub type Start = fn(&[u8], &[u8], u32, &mut [u8], &mut Tally) -> StartAnswer;

/// The room for results that a log of so many bytes needs: a result has a line for its push and one for its take.
pub fn room_for(log_bytes: usize) -> usize {
    OUT_BYTES * (log_bytes / (2 * LINE_BYTES)).min(MOST_LINES / 2)
}

pub fn check(handed: &Handed<'_>, mem: &mut [u8], out: &mut [u8]) -> LogAnswer {
    check_started_by(memory::start, handed, mem, out)
}

/// Refusals in the order 11, 14, 1 to 9, 17, 18, 10, 12, 15, 16. Memory and room are written on acceptance and on 16, where they are "as the earlier lines
/// made them".
pub fn check_started_by(start: Start, handed: &Handed<'_>, mem: &mut [u8], out: &mut [u8]) -> LogAnswer {
    let (sheet, lines) = match tested(handed, mem.len(), out.len()) {
        Ok(tested) => tested,
        Err(Refusal { number, row }) => return LogAnswer { refusal: number, row, ..LogAnswer::default() },
    };
    let started = start(handed.sheet, handed.kinds, handed.capacity, mem, &mut Tally::default());
    assert_eq!(started.refusal, 0, "the start of a tested sheet");
    let (count, row) = follow(&lines, &mut Machine::standing(mem), out);
    // That of the results handed out; none have none.
    let width = if count > 0 { sheet.figures.results } else { 0 };
    LogAnswer { refusal: if row > 0 { 16 } else { 0 }, row, count, width }
}

/// All that comes before 16.
fn tested<'a>(handed: &Handed<'a>, memory: usize, room: usize) -> Result<(Sheet, Vec<Line<'a>>), Refusal> {
    let capacity = handed.capacity as usize;
    if memory < need(capacity) || room < room_for(handed.log.len()) {
        return refuse(11, 0);
    }
    if !(1..=MOST_CAPACITY).contains(&capacity) {
        return refuse(14, 0);
    }
    let sheet = sheet::read(handed.sheet, handed.kinds)?;
    let list = SetList::read(handed.sets, handed.number, &sheet.sorts)?;
    let lines = read_lines(handed.log, &list)?;
    Ok((sheet, lines))
}

/// "Sets count from 1 in a list lent like a tray."
struct SetList<'a> {
    bytes: &'a [u8],
    number: u32,
    set_bytes: usize,
}

impl<'a> SetList<'a> {
    /// 12 for a set of a value that is none or of another kind; Job 1: "A set not wholly lent gets 12, bytes past the last are left aside".
    fn read(bytes: &'a [u8], number: u32, sorts: &[Sort]) -> Result<SetList<'a>, Refusal> {
        let list = SetList { bytes, number, set_bytes: VALUE_BYTES * sorts.len() };
        let good = |set: &[u8]| decode_set(set).is_some_and(|values| set_suits(&values, sorts));
        // One look at the only set of no values there is.
        let looked_at = if sorts.is_empty() { number.min(1) } else { number };
        match (1..=looked_at).all(|number| list.set(number).is_some_and(good)) {
            true => Ok(list),
            false => refuse(12, 0),
        }
    }

    /// A set by its number, if it is in the list and wholly lent.
    fn set(&self, number: u32) -> Option<&'a [u8]> {
        let before = self.set_bytes * (number.checked_sub(1)? as usize);
        let set = self.bytes.get(before..before + self.set_bytes);
        set.filter(|_| number <= self.number)
    }
}

/// "1 and a set number, 2 and an operator number, or 3 and 0, for push, fire, take."
enum Line<'a> {
    Push(&'a [u8]),
    Fire(usize),
    Take,
}

/// 15 "when a line is malformed, names a set not in the list or is line 4,097", with "the lowest such line".
fn read_lines<'a>(log: &[u8], list: &SetList<'a>) -> Result<Vec<Line<'a>>, Refusal> {
    let mut lines = Vec::new();
    for text in log.split_inclusive(|&byte| byte == b'\n') {
        match read_line(text, list) {
            Some(line) if lines.len() < MOST_LINES => lines.push(line),
            _ => return refuse(15, lines.len() + 1),
        }
    }
    Ok(lines)
}

fn read_line<'a>(text: &[u8], list: &SetList<'a>) -> Option<Line<'a>> {
    let fields = text.strip_suffix(b"\n").filter(|fields| fields.len() == 2 * FIELD)?;
    match (read_number(&fields[..FIELD])?, read_number(&fields[FIELD..])?) {
        (1, set) => list.set(set).map(Line::Push),
        (2, operator) => Some(Line::Fire(operator as usize)),
        (3, 0) => Some(Line::Take),
        _ => None,
    }
}

/// Follows the lines up to the first that the machine refuses: how many results were handed out, and that line, 0 where there is none.
fn follow(lines: &[Line<'_>], machine: &mut Machine<'_>, out: &mut [u8]) -> (u32, u32) {
    let mut places = out.chunks_exact_mut(OUT_BYTES);
    let mut count = 0;
    for (row, line) in (1..).zip(lines) {
        let mut result = [0; OUT_BYTES];
        let refusal = match *line {
            Line::Push(set) => machine.push(set).refusal,
            Line::Fire(operator) => machine.fire(operator).refusal,
            Line::Take => machine.take(&mut result).refusal,
        };
        if refusal != 0 {
            return (count, row);
        }
        if let Line::Take = line {
            places.next().expect("room for each result").copy_from_slice(&result);
            count += 1;
        }
    }
    (count, 0)
}

/// The text of a line, for making logs.
pub fn write_line(kind: u32, number: u32) -> String {
    format!("{kind:6}{number:6}\n")
}

/// The text of a log from lines of two fields.
pub fn write(lines: &[[u32; 2]]) -> Vec<u8> {
    lines.iter().map(|&[kind, number]| write_line(kind, number)).collect::<String>().into_bytes()
}
