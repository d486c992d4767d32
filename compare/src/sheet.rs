// Reading a formula sheet: tests 1 to 9 of document 01, "The formula sheet" and "Said by what was handed in".
// Each test goes over the whole sheet before the next, in one pass over the rows, and gives the lowest row at fault.
// Row kind 10 is document 02's, Job 9. Tests 17 and 18 of its Job 6 stand in kinds.rs, test 10 in count.rs. Assumes nothing about the bytes.

use crate::value::{operands, Sort, CODES, PLACES};
use crate::{count, kinds};

/// A refusal's number and its row (or line), 0 where it has none.
#[derive(Clone, Copy, PartialEq, Eq, Debug)]
pub struct Refusal {
    pub number: u32,
    pub row: u32,
}

pub fn refuse<T>(number: u32, row: usize) -> Result<T, Refusal> {
    Err(Refusal { number, row: row as u32 })
}

pub const ROW_BYTES: usize = 31;
pub const FIELD_BYTES: usize = 6;
pub const MOST_ROWS: usize = 200;
pub const MOST_OPERATORS: u32 = 1024;

/// The 33rd name, after the 32 identifiers.
pub const TRIGGER: u64 = 1 << 32;

/// The five fields as they stand.
#[derive(Clone, Copy, PartialEq, Eq, Debug)]
pub struct Row {
    pub kind: u32,
    pub a: u32,
    pub b: u32,
    pub c: u32,
    pub d: u32,
}

#[derive(Clone, Copy, PartialEq, Eq, Debug)]
pub enum Place {
    Expression,
    Body,
}

/// A row with what the tests found out about it.
#[derive(Clone, Copy, Debug)]
pub struct Line {
    pub row: Row,
    pub place: Place,
    /// The width of an expression; of a body the returned width, 0 if it has none.
    pub width: u8,
    /// The iterated width of a body, 0 if it has none.
    pub iterated: u8,
    /// In a body place, the width that the whole loop around it returns.
    pub loop_width: u8,
    /// The free names, identifiers at bits 0 to 31 and the trigger at bit 32.
    pub free: u64,
}

#[derive(Clone, Copy, PartialEq, Eq, Debug)]
pub struct Figures {
    pub rows: u32,
    pub operators: u32,
    pub inputs: u32,
    pub results: u32,
}

/// An accepted sheet.
#[derive(Clone, Debug)]
pub struct Sheet {
    pub lines: Vec<Line>,
    pub figures: Figures,
    /// The kind of each input.
    pub sorts: Vec<Sort>,
}

impl Sheet {
    /// A row by its number, which counts from 1.
    pub fn line(&self, number: u32) -> &Line {
        &self.lines[number as usize - 1]
    }

    /// The number of the last row, which is the formula.
    pub fn last(&self) -> u32 {
        self.lines.len() as u32
    }

    /// "The inputs are the formula's free identifiers, rising."
    pub fn inputs(&self) -> impl Iterator<Item = u32> {
        inputs(&self.lines)
    }
}

fn inputs(lines: &[Line]) -> impl Iterator<Item = u32> {
    let free = lines[lines.len() - 1].free;
    (0..32).filter(move |name| free >> name & 1 == 1)
}

/// Makes all tests, in the order 1 to 9, 17, 18, 10.
pub fn read(bytes: &[u8], line: &[u8]) -> Result<Sheet, Refusal> {
    let lines = read_rows(bytes)?;
    let sorts = kinds::read_line(line, inputs(&lines).count())?;
    kinds::test(&lines, inputs(&lines).zip(sorts.iter().copied()))?;
    let operators = count::operators(&lines);
    if operators > MOST_OPERATORS {
        return refuse(10, 0);
    }
    let figures = Figures {
        rows: lines.len() as u32,
        operators,
        inputs: sorts.len() as u32,
        results: lines[lines.len() - 1].width.into(),
    };
    Ok(Sheet { lines, figures, sorts })
}

/// Makes tests 1 to 9, which know nothing of kinds, and gives the identifiers of the inputs.
pub fn input_names(bytes: &[u8]) -> Result<Vec<u32>, Refusal> {
    read_rows(bytes).map(|lines| inputs(&lines).collect())
}

/// Makes tests 1 to 5, after which each row is known by its fields alone.
pub fn read_lines(bytes: &[u8]) -> Result<Vec<Line>, Refusal> {
    test_rows(bytes)?;
    let lines = read_fields(bytes)?;
    test_ranges(&lines)?;
    test_named_rows(&lines)?;
    Ok(lines)
}

fn read_rows(bytes: &[u8]) -> Result<Vec<Line>, Refusal> {
    let mut lines = read_lines(bytes)?;
    test_named_once(&lines)?;
    set_places(&mut lines);
    test_iters(&lines)?;
    set_widths(&mut lines)?;
    set_loop_widths(&mut lines);
    set_free_names(&mut lines);
    test_bound_names(&lines)?;
    Ok(lines)
}

/// 1 "empty, not in 31-byte rows, or a row without its line feed"; 2 "over 200 rows".
fn test_rows(bytes: &[u8]) -> Result<(), Refusal> {
    let ended = |row: &[u8]| row[ROW_BYTES - 1] == b'\n';
    if bytes.is_empty() || !bytes.len().is_multiple_of(ROW_BYTES) || !bytes.chunks_exact(ROW_BYTES).all(ended) {
        return refuse(1, 0);
    }
    if bytes.len() / ROW_BYTES > MOST_ROWS {
        return refuse(2, 0);
    }
    Ok(())
}

/// 3 "a malformed field".
fn read_fields(bytes: &[u8]) -> Result<Vec<Line>, Refusal> {
    let mut lines = Vec::with_capacity(bytes.len() / ROW_BYTES);
    for (index, text) in bytes.chunks_exact(ROW_BYTES).enumerate() {
        match read_row(text) {
            Some(row) => {
                lines.push(Line { row, place: Place::Expression, width: 0, iterated: 0, loop_width: 0, free: 0 })
            }
            None => return refuse(3, index + 1),
        }
    }
    Ok(lines)
}

fn read_row(text: &[u8]) -> Option<Row> {
    Some(Row {
        kind: read_number(&text[0..6])?,
        a: read_number(&text[6..12])?,
        b: read_number(&text[12..18])?,
        c: read_number(&text[18..24])?,
        d: read_number(&text[24..30])?,
    })
}

/// "right-justified with spaces, no leading zeros; zero is one digit 0".
pub fn read_number(field: &[u8]) -> Option<u32> {
    let blanks = field.iter().take_while(|&&byte| byte == b' ').count();
    let digits = &field[blanks..];
    if digits.is_empty() || (digits[0] == b'0' && digits.len() > 1) {
        return None;
    }
    digits.iter().try_fold(0, |number, byte| {
        let digit = byte.wrapping_sub(b'0');
        (digit < 10).then_some(number * 10 + u32::from(digit))
    })
}

/// 4 "kind, code, identifier, constant or unlisted field outside its range".
fn test_ranges(lines: &[Line]) -> Result<(), Refusal> {
    match lines.iter().position(|line| !fields_in_range(&line.row)) {
        Some(index) => refuse(4, index + 1),
        None => Ok(()),
    }
}

fn fields_in_range(row: &Row) -> bool {
    let Row { kind, a, b, c, d } = *row;
    match kind {
        1 => a <= 31 && (b, c, d) == (0, 0, 0),
        // Document 02, Job 9: row kind 10 has the range of a whole number.
        2 | 10 => a <= 999_999 && (b, c, d) == (0, 0, 0),
        3 => a <= 1 && (b, c, d) == (0, 0, 0),
        4 => (c, d) == (0, 0),
        5 => CODES.contains(&a) && (c, d) == (0, 0),
        6 | 8 => b >= 1 && a + b - 1 <= 31,
        7 => d == 0,
        9 => (b, c, d) == (0, 0, 0),
        _ => false,
    }
}

/// The fields of a row that name rows; the rest of the array is 0.
pub fn named_rows(row: &Row) -> ([u32; 3], usize) {
    match row.kind {
        4 => ([row.a, row.b, 0], 2),
        5 => ([row.b, 0, 0], 1),
        6 | 8 => ([row.c, row.d, 0], 2),
        7 => ([row.a, row.b, row.c], 3),
        9 => ([row.a, 0, 0], 1),
        _ => ([0; 3], 0),
    }
}

/// 5 "a row that names one wrongly": below 1, or not smaller than its own number.
fn test_named_rows(lines: &[Line]) -> Result<(), Refusal> {
    for (index, line) in lines.iter().enumerate() {
        let (named, count) = named_rows(&line.row);
        if named[..count].iter().any(|&row| row < 1 || row > index as u32) {
            return refuse(5, index + 1);
        }
    }
    Ok(())
}

/// 6 "a row before the last not named once".
fn test_named_once(lines: &[Line]) -> Result<(), Refusal> {
    let mut times = [0u16; MOST_ROWS];
    for line in lines {
        let (named, count) = named_rows(&line.row);
        for &row in &named[..count] {
            times[row as usize - 1] += 1;
        }
    }
    match times[..lines.len() - 1].iter().position(|&times| times != 1) {
        Some(index) => refuse(6, index + 1),
        None => Ok(()),
    }
}

/// "Body places are d of a for, and, of a row in a body place, d of a let and b, c of an if."
/// A row is named by a later one, so its place is known when the rows are walked from the last.
fn set_places(lines: &mut [Line]) {
    for index in (0..lines.len()).rev() {
        let Line { row, place, .. } = lines[index];
        match (row.kind, place) {
            (8, _) | (6, Place::Body) => lines[row.d as usize - 1].place = Place::Body,
            (7, Place::Body) => {
                lines[row.b as usize - 1].place = Place::Body;
                lines[row.c as usize - 1].place = Place::Body;
            }
            _ => {}
        }
    }
}

/// 7 "iter in an expression place".
fn test_iters(lines: &[Line]) -> Result<(), Refusal> {
    match lines.iter().position(|line| line.row.kind == 9 && line.place == Place::Expression) {
        Some(index) => refuse(7, index + 1),
        None => Ok(()),
    }
}

/// 8 "a width rule broken". The rows named stand before the row naming them, so their widths are known.
fn set_widths(lines: &mut [Line]) -> Result<(), Refusal> {
    for index in 0..lines.len() {
        match widths(&lines[index], &lines[..index]) {
            Some((iterated, width)) => {
                lines[index].iterated = iterated;
                lines[index].width = width;
            }
            None => return refuse(8, index + 1),
        }
    }
    Ok(())
}

/// The iterated and the returned width of a row, an expression's width being a returned one; 0 is none.
fn widths(line: &Line, before: &[Line]) -> Option<(u8, u8)> {
    let Row { kind, a, b, c, d } = line.row;
    let row = |number: u32| &before[number as usize - 1];
    match kind {
        1..=3 | 10 => Some((0, 1)),
        4 => {
            let sum = row(a).width + row(b).width;
            (sum <= PLACES as u8).then_some((0, sum))
        }
        5 => (usize::from(row(b).width) == operands(a)).then_some((0, 1)),
        6 => (u32::from(row(c).width) == b).then_some((row(d).iterated, row(d).width)),
        7 => {
            let iterated = joined(row(b).iterated, row(c).iterated)?;
            let returned = joined(row(b).width, row(c).width)?;
            (row(a).width == 1).then_some((iterated, returned))
        }
        8 => {
            let fits = u32::from(row(c).width) == b && u32::from(row(d).iterated) == b && row(d).width > 0;
            fits.then_some((0, row(d).width))
        }
        _ => Some((row(a).width, 0)),
    }
}

/// "body arms are equal in each width that both have"; arms of an expression always have the one width.
fn joined(left: u8, right: u8) -> Option<u8> {
    match (left, right) {
        (0, width) | (width, 0) => Some(width),
        _ => (left == right).then_some(left),
    }
}

/// Hands the width that a loop returns down to every row of its body.
fn set_loop_widths(lines: &mut [Line]) {
    for index in (0..lines.len()).rev() {
        let Line { row, place, width, loop_width, .. } = lines[index];
        match (row.kind, place) {
            (8, _) => lines[row.d as usize - 1].loop_width = width,
            (6, Place::Body) => lines[row.d as usize - 1].loop_width = loop_width,
            (7, Place::Body) => {
                lines[row.b as usize - 1].loop_width = loop_width;
                lines[row.c as usize - 1].loop_width = loop_width;
            }
            _ => {}
        }
    }
}

/// The names free in each row. A returned expression's false constant takes a trigger (Figure 2.10).
fn set_free_names(lines: &mut [Line]) {
    for index in 0..lines.len() {
        let names = names_inside(&lines[index].row, lines);
        lines[index].free = if is_returned(&lines[index]) { names | TRIGGER } else { names };
    }
}

/// Whether a row is an expression in a body place: "false at a returned expression".
pub fn is_returned(line: &Line) -> bool {
    line.place == Place::Body && !matches!(line.row.kind, 6 | 7 | 9)
}

/// The names that a row uses itself, without the trigger of a false constant beside it.
/// An iter's true constant takes a trigger (Figure 2.11).
pub fn names_inside(row: &Row, lines: &[Line]) -> u64 {
    let free = |number: u32| lines[number as usize - 1].free;
    match row.kind {
        1 => 1 << row.a,
        2 | 3 | 10 => TRIGGER,
        4 => free(row.a) | free(row.b),
        5 => free(row.b),
        6 | 8 => free(row.c) | (free(row.d) & !bound_names(row)),
        7 => free(row.a) | free(row.b) | free(row.c),
        _ => free(row.a) | TRIGGER,
    }
}

/// The identifiers a to a+b-1 that a let or a for binds.
pub fn bound_names(row: &Row) -> u64 {
    ((1 << row.b) - 1) << row.a
}

/// 9 "a bound identifier not free in row d".
fn test_bound_names(lines: &[Line]) -> Result<(), Refusal> {
    let at_fault = |line: &Line| {
        matches!(line.row.kind, 6 | 8) && bound_names(&line.row) & !lines[line.row.d as usize - 1].free != 0
    };
    match lines.iter().position(at_fault) {
        Some(index) => refuse(9, index + 1),
        None => Ok(()),
    }
}

/// The text of a row, for making sheets.
pub fn write_row(row: &Row) -> String {
    format!("{:6}{:6}{:6}{:6}{:6}\n", row.kind, row.a, row.b, row.c, row.d)
}

/// Rows of five fields.
pub fn rows_of(lines: &[Line]) -> Vec<[u32; 5]> {
    lines.iter().map(|line| [line.row.kind, line.row.a, line.row.b, line.row.c, line.row.d]).collect()
}

/// The text of a sheet from rows of five fields.
pub fn write(rows: &[[u32; 5]]) -> Vec<u8> {
    let text = |&[kind, a, b, c, d]: &[u32; 5]| write_row(&Row { kind, a, b, c, d });
    rows.iter().map(text).collect::<String>().into_bytes()
}
