// The tidy call (document 02, Job 8): a sheet without the rows that its last row does not reach, the others numbered anew.
// Tests 1 to 5 are made, and no others, so that a sheet may be tidied which reading refuses.

use crate::sheet::{self, named_rows, refuse, Line, Refusal, Row, FIELD_BYTES, MOST_ROWS, ROW_BYTES};

/// What `bench_tidy` answers.
#[repr(C)]
#[derive(Clone, Copy, PartialEq, Eq, Debug, Default)]
pub struct TidyAnswer {
    pub refusal: u32,
    pub row: u32,
    pub rows: u32,
}

/// The memory that a sheet of so many bytes needs: a longer one than 200 rows is refused, and nothing of it written.
pub fn room_for(sheet_bytes: usize) -> usize {
    sheet_bytes.min(MOST_ROWS * ROW_BYTES)
}

/// Refusals in the order 11, 1 to 5; `out` is written on acceptance only, from its start, as far as the new sheet goes.
pub fn tidy(sheet: &[u8], out: &mut [u8]) -> TidyAnswer {
    match tested(sheet, out.len()) {
        Ok(lines) => TidyAnswer { refusal: 0, row: 0, rows: write_reached(&lines, out) },
        Err(Refusal { number, row }) => TidyAnswer { refusal: number, row, rows: 0 },
    }
}

fn tested(sheet: &[u8], room: usize) -> Result<Vec<Line>, Refusal> {
    if room < room_for(sheet.len()) {
        return refuse(11, 0);
    }
    sheet::read_lines(sheet)
}

/// "renumbers the rest in their old order and writes the sheet from the start": how many rows are left.
fn write_reached(lines: &[Line], out: &mut [u8]) -> u32 {
    let reached = reached(lines);
    let mut new_numbers = [0; MOST_ROWS];
    let mut places = out.chunks_exact_mut(ROW_BYTES);
    let mut count = 0;
    for (index, line) in lines.iter().enumerate().filter(|&(index, _)| reached[index]) {
        // The rows named stand before, so that their numbers are known.
        let row = renumbered(line.row, |name| new_numbers[name as usize - 1]);
        write_row(&row, places.next().expect("room for each row"));
        count += 1;
        new_numbers[index] = count;
    }
    count
}

/// Whether each row is the last or, over one row or several, named by it.
fn reached(lines: &[Line]) -> [bool; MOST_ROWS] {
    let mut reached = [false; MOST_ROWS];
    let mut waiting = vec![lines.len() as u32];
    while let Some(number) = waiting.pop() {
        let index = number as usize - 1;
        if !reached[index] {
            reached[index] = true;
            let (names, count) = named_rows(&lines[index].row);
            waiting.extend(&names[..count]);
        }
    }
    reached
}

fn renumbered(row: Row, new: impl Fn(u32) -> u32) -> Row {
    let Row { kind, a, b, c, d } = row;
    match kind {
        4 => Row { a: new(a), b: new(b), ..row },
        5 => Row { b: new(b), ..row },
        6 | 8 => Row { c: new(c), d: new(d), ..row },
        7 => Row { a: new(a), b: new(b), c: new(c), ..row },
        9 => Row { a: new(a), ..row },
        _ => row,
    }
}

fn write_row(row: &Row, place: &mut [u8]) {
    let fields = [row.kind, row.a, row.b, row.c, row.d];
    for (field, number) in place.chunks_exact_mut(FIELD_BYTES).zip(fields) {
        write_number(number, field);
    }
    place[ROW_BYTES - 1] = b'\n';
}

/// "right-justified with spaces, no leading zeros; zero is one digit 0"
fn write_number(number: u32, field: &mut [u8]) {
    let mut rest = number;
    for (place, byte) in field.iter_mut().rev().enumerate() {
        *byte = if place == 0 || rest > 0 { b'0' + (rest % 10) as u8 } else { b' ' };
        rest /= 10;
    }
}

#[cfg(test)]
mod tests {
    use super::*;
    use crate::sheet::write;

    #[test]
    fn a_refused_tidy_leaves_the_lent_bytes() {
        let mut out = [0x55; 100];
        for (sheet, refusal, row) in [
            (Vec::new(), 1, 0),
            (vec![b' '; 31], 1, 0),
            (write(&[[1, 0, 0, 0, 0], [11, 0, 0, 0, 0]]), 4, 2),
            (write(&[[1, 0, 0, 0, 0], [5, 11, 2, 0, 0], [1, 0, 0, 0, 0]]), 5, 2),
        ] {
            assert_eq!(tidy(&sheet, &mut out), TidyAnswer { refusal, row, rows: 0 });
            assert_eq!(out, [0x55; 100]);
        }
        let long = write(&vec![[1, 0, 0, 0, 0]; 201]);
        assert_eq!(tidy(&long, &mut [0; 6_199]).refusal, 11);
        assert_eq!(tidy(&long, &mut [0; 6_200]).refusal, 2);
    }

    #[test]
    fn a_field_is_written_as_it_is_read() {
        for number in [0, 1, 9, 10, 99, 100, 999, 1_000, 10_000, 99_999, 100_000, 999_999] {
            let mut field = [0; FIELD_BYTES];
            write_number(number, &mut field);
            assert_eq!(field[..], *format!("{number:6}").as_bytes());
            assert_eq!(sheet::read_number(&field), Some(number));
        }
    }
}
