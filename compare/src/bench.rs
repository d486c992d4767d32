// The program bench as a function of its three files' bytes (document 01, "Program and readings"; kinds.txt: document 02, Job 6; floats: Job 9).
// Assumes nothing about the bytes; a missing file is an empty one.

use crate::graph;
use crate::machine::Machine;
use crate::sheet::{self, refuse, Refusal, Sheet};
use crate::value::{set_suits, Float, Reason, Sort, Value};
use std::fmt::Write;

pub const CAPACITY: usize = 2;
pub const FIRINGS: u32 = 1_000_000;
pub const MOST_SET_BYTES: usize = 65_536;
pub const FIELD: usize = 11;

/// What the program prints.
pub fn bench(formula: &[u8], kinds: &[u8], sets: &[u8]) -> Vec<u8> {
    let mut text = String::new();
    match read_files(formula, kinds, sets) {
        Ok((sheet, sets)) => print_results(&mut text, &sheet, &sets),
        Err(refusal) => print_refusal(&mut text, refusal),
    }
    text.into_bytes()
}

/// "It makes the sheet's tests, then 13, then 12 (lowest line)".
fn read_files(formula: &[u8], kinds: &[u8], sets: &[u8]) -> Result<(Sheet, Vec<Vec<Value>>), Refusal> {
    let sheet = sheet::read(formula, kinds)?;
    if sets.len() > MOST_SET_BYTES {
        return refuse(13, 0);
    }
    let sets = read_sets(sets, &sheet.sorts)?;
    Ok((sheet, sets))
}

pub fn read_sets(bytes: &[u8], sorts: &[Sort]) -> Result<Vec<Vec<Value>>, Refusal> {
    let mut sets = Vec::new();
    for line in bytes.split_inclusive(|&byte| byte == b'\n') {
        match read_line(line, sorts) {
            Some(set) => sets.push(set),
            None => return refuse(12, sets.len() + 1),
        }
    }
    Ok(sets)
}

fn read_line(line: &[u8], sorts: &[Sort]) -> Option<Vec<Value>> {
    let fields = line.strip_suffix(b"\n")?;
    if fields.len() != sorts.len() * FIELD {
        return None;
    }
    let set: Option<Vec<Value>> = fields.chunks_exact(FIELD).map(read_value).collect();
    set.filter(|set| set_suits(set, sorts))
}

/// "a decimal number as in the sheet, with "-" for negatives (no -0), or T, F, E"; document 02, Job 5: "Set and result
/// fields may hold Z and V"; Job 9: "the field is R and directly after it the bit pattern in decimal without leading zeros".
fn read_value(field: &[u8]) -> Option<Value> {
    let blanks = field.iter().take_while(|&&byte| byte == b' ').count();
    match &field[blanks..] {
        b"T" => Some(Value::Truth(true)),
        b"F" => Some(Value::Truth(false)),
        b"E" => Some(Value::E),
        b"Z" => Some(Value::Z),
        b"V" => Some(Value::V),
        b"0" => Some(Value::Whole(0)),
        b"R0" => Float::of_bits(0).map(Value::Real),
        [b'R', digits @ ..] => read_number(digits).and_then(real),
        [b'-', digits @ ..] => read_number(digits).and_then(|number| whole(-number)),
        digits => read_number(digits).and_then(whole),
    }
}

fn whole(number: i64) -> Option<Value> {
    i32::try_from(number).ok().map(Value::Whole)
}

/// "Patterns that are not finite are refused with 12".
fn real(pattern: i64) -> Option<Value> {
    u32::try_from(pattern).ok().and_then(Float::of_bits).map(Value::Real)
}

/// A number above zero: digits, the first of them not 0. Eleven digits fit 64 bits.
fn read_number(digits: &[u8]) -> Option<i64> {
    match digits {
        [b'1'..=b'9', ..] if digits.iter().all(u8::is_ascii_digit) => {
            Some(digits.iter().fold(0, |number, digit| number * 10 + i64::from(digit - b'0')))
        }
        _ => None,
    }
}

/// "it pushes until refused or out of sets, runs with the firings left, takes until refused, and repeats until every
/// set is taken. After a run's 36 it takes until refused once more, and 36 prints last with row 0."
fn print_results(text: &mut String, sheet: &Sheet, sets: &[Vec<Value>]) {
    let figures = sheet.figures;
    writeln!(text, "{:6}{:6}{:6}", figures.inputs, figures.results, sets.len()).expect("a string takes text");
    let graph = graph::build(sheet);
    let mut machine = Machine::start(&graph, CAPACITY).expect("a capacity in its range");
    let (mut pushed, mut taken, mut left) = (0, 0, FIRINGS);
    while taken < sets.len() {
        while pushed < sets.len() && machine.push(&sets[pushed]).is_ok() {
            pushed += 1;
        }
        let ran = machine.run(left);
        left -= ran.count;
        while let Ok(set) = machine.take() {
            text.push_str(&write_set(set.used()));
            taken += 1;
        }
        if ran.refusal != 0 {
            print_refusal(text, Refusal { number: ran.refusal, row: 0 });
            return;
        }
    }
}

fn print_refusal(text: &mut String, refusal: Refusal) {
    writeln!(text, "{:6}{:6}", refusal.number, refusal.row).expect("a string takes text");
}

/// A set's line, with an 11-character field a value.
pub fn write_set(set: &[Value]) -> String {
    let mut text = String::new();
    for &value in set {
        let field = match value {
            Value::Whole(number) => number.to_string(),
            Value::Truth(true) => "T".into(),
            Value::Truth(false) => "F".into(),
            Value::Real(float) => format!("R{}", float.bits()),
            Value::Err(Reason::Other) => "E".into(),
            Value::Err(Reason::ZeroDivisor) => "Z".into(),
            Value::Err(Reason::OutOfRange) => "V".into(),
        };
        write!(text, "{field:>FIELD$}").expect("a string takes text");
    }
    text.push('\n');
    text
}
