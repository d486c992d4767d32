// Sheets with one planted fault for each refusal 1 to 10, 17 and 18, made from accepted sheets.
// Where the way of planting fixes the row that the refusal must give, it is said with the bytes.

use super::lines::{bad_line, with_other_letter};
use super::sheets::{accepted_sheet, mixed_sheet, overfull_sheet, unkinded_sheet, Made};
use super::Rng;
use crate::sheet::{self, rows_of, Place, Sheet, ROW_BYTES};

/// A sheet with its kinds line and, where it is known, the row that its refusal gives.
pub struct Planted {
    pub made: Made,
    pub row: Option<u32>,
}

/// The refusals that can be planted.
pub const PLANTABLE: [u32; 12] = [1, 2, 3, 4, 5, 6, 7, 8, 9, 10, 17, 18];

/// A sheet that gets this refusal.
pub fn plant(number: u32, rng: &mut Rng) -> Planted {
    loop {
        let planted = match number {
            17 => Some(planted_line(rng)),
            18 => broken_kinds(rng),
            10 => Some(Planted { made: overfull_sheet(rng), row: Some(0) }),
            _ => broken_rows(number, rng),
        };
        if let Some(planted) = planted {
            return planted;
        }
    }
}

/// The bytes of a sheet at fault and, where it is known, the row.
struct Broken {
    bytes: Vec<u8>,
    row: Option<u32>,
}

/// 1 to 9: the kinds line, which is tested later, is good or bad.
fn broken_rows(number: u32, rng: &mut Rng) -> Option<Planted> {
    let Made { bytes, kinds } = accepted_sheet(rng);
    let sheet = sheet::read(&bytes, &kinds).expect("an accepted sheet");
    let broken = match number {
        1..=5 => plant_in_rows(number, &rows_of(&sheet.lines), rng).map(|(bytes, row)| known(bytes, row)),
        6 => not_once(&sheet, rng),
        7 => misplaced_iter(&sheet, rng),
        8 => bad_width(&sheet, rng),
        _ => not_free(&sheet, rng),
    };
    let kinds = if rng.chance(50) { kinds } else { bad_line(&kinds, rng) };
    broken.map(|Broken { bytes, row }| Planted { made: Made { bytes, kinds }, row })
}

/// The bytes of rows that pass tests 1 to 5 with a fault that gets one of these refusals, and the row that it gives; none where these rows cannot have it.
pub fn plant_in_rows(number: u32, rows: &[[u32; 5]], rng: &mut Rng) -> Option<(Vec<u8>, u32)> {
    let bytes = sheet::write(rows);
    match number {
        1 => Some((bad_rows(bytes, rng), 0)),
        2 => Some((many_rows(&bytes, rng), 0)),
        3 => Some(bad_field(bytes, rng)),
        4 => Some(out_of_range(rows, rng)),
        _ => wrongly_named(rows, rng),
    }
}

/// 17: a line at fault, also beside rows that break the kinds and beside too many operators.
fn planted_line(rng: &mut Rng) -> Planted {
    let mut made = match rng.below(20) {
        0 => overfull_sheet(rng),
        1..=4 => unkinded_sheet(rng),
        _ => accepted_sheet(rng),
    };
    made.kinds = bad_line(&made.kinds, rng);
    Planted { made, row: Some(0) }
}

/// 18: leaves of another kind, an input of another, a code of another kind, a constant with a fraction among whole numbers or the other way round, a
/// remainder of floats, operands of any kinds; also beside too many operators.
fn broken_kinds(rng: &mut Rng) -> Option<Planted> {
    let (made, row) = match rng.below(20) {
        0..=2 => (unkinded_sheet(rng), None),
        3 => (with_other_input(overfull_sheet(rng), rng), None),
        4..=6 => (with_other_input(accepted_sheet(rng), rng), None),
        7..=9 => other_code(accepted_sheet(rng), rng)?,
        10..=12 => (other_constant(accepted_sheet(rng), rng)?, None),
        13..=15 => (remainder(accepted_sheet(rng), rng)?, None),
        _ => (mixed_sheet(rng), None),
    };
    (made.refusal() == 18).then_some(Planted { made, row })
}

fn with_other_input(mut made: Made, rng: &mut Rng) -> Made {
    made.kinds = with_other_letter(&made.kinds, rng);
    made
}

/// A comparison becomes a junction or the other way round: its own row is at fault, and no other, since both give a truth.
fn other_code(made: Made, rng: &mut Rng) -> Option<(Made, Option<u32>)> {
    let sheet = made.sheet();
    let number = some_row(&sheet, rng, |_, row| row[0] == 5 && matches!(row[1], 6..=9))?;
    let row = rows_of(&sheet.lines)[number as usize - 1];
    let code = if row[1] < 8 { rng.pick(&[8, 9]) } else { rng.pick(&[6, 7]) };
    let bytes = with_row(&sheet, number, [5, code, row[2], 0, 0]);
    Some((Made { bytes, kinds: made.kinds }, Some(number)))
}

/// A constant of row kind 2 becomes one of row kind 10, or the other way round.
fn other_constant(made: Made, rng: &mut Rng) -> Option<Made> {
    let sheet = made.sheet();
    let number = some_row(&sheet, rng, |_, row| matches!(row[0], 2 | 10))?;
    let row = rows_of(&sheet.lines)[number as usize - 1];
    Some(Made { bytes: with_row(&sheet, number, [12 - row[0], row[1], 0, 0, 0]), kinds: made.kinds })
}

/// A sum, difference, product or quotient becomes a remainder, which of floats is a wrong kind.
fn remainder(made: Made, rng: &mut Rng) -> Option<Made> {
    let sheet = made.sheet();
    let number = some_row(&sheet, rng, |_, row| row[0] == 5 && row[1] <= 4)?;
    let row = rows_of(&sheet.lines)[number as usize - 1];
    Some(Made { bytes: with_row(&sheet, number, [5, 5, row[2], 0, 0]), kinds: made.kinds })
}

fn known(bytes: Vec<u8>, row: u32) -> Broken {
    Broken { bytes, row: Some(row) }
}

/// The sheet with one row exchanged.
fn with_row(sheet: &Sheet, number: u32, row: [u32; 5]) -> Vec<u8> {
    exchanged(&rows_of(&sheet.lines), number, row)
}

fn exchanged(rows: &[[u32; 5]], number: u32, row: [u32; 5]) -> Vec<u8> {
    let mut rows = rows.to_vec();
    rows[number as usize - 1] = row;
    sheet::write(&rows)
}

/// The number of a random row of which this holds.
fn some_row(sheet: &Sheet, rng: &mut Rng, holds: impl Fn(u32, [u32; 5]) -> bool) -> Option<u32> {
    some_of(&rows_of(&sheet.lines), rng, holds)
}

fn some_of(rows: &[[u32; 5]], rng: &mut Rng, holds: impl Fn(u32, [u32; 5]) -> bool) -> Option<u32> {
    let found: Vec<u32> =
        (1..).zip(rows).filter(|&(number, &row)| holds(number, row)).map(|(number, _)| number).collect();
    (!found.is_empty()).then(|| rng.pick(&found))
}

fn bad_rows(mut bytes: Vec<u8>, rng: &mut Rng) -> Vec<u8> {
    let rows = bytes.len() / ROW_BYTES;
    match rng.below(5) {
        0 => return Vec::new(),
        1 => bytes.truncate(bytes.len() - rng.between(1, 30)),
        2 => (0..rng.between(1, 30)).for_each(|_| bytes.push(b'\n')),
        3 => bytes[rng.between(1, rows) * ROW_BYTES - 1] = rng.pick(b" 0\r"),
        _ => {
            // The line feed one place too early, so that the number of bytes is right.
            let end = rng.between(1, rows) * ROW_BYTES - 1;
            bytes.swap(end - 1, end);
        }
    }
    bytes
}

fn many_rows(bytes: &[u8], rng: &mut Rng) -> Vec<u8> {
    let rows = rng.pick(&[201, 201, 202, 230, 1000]);
    bytes.iter().copied().cycle().take(rows * ROW_BYTES).collect()
}

fn bad_field(mut bytes: Vec<u8>, rng: &mut Rng) -> (Vec<u8>, u32) {
    let row = rng.below(bytes.len() / ROW_BYTES);
    let start = row * ROW_BYTES + rng.below(5) * 6;
    let field = &mut bytes[start..start + 6];
    let text: &[u8] = match rng.below(12) {
        0 => b"      ",
        1 => b"    00",
        2 => b"000001",
        3 => b"    1 ",
        4 => b"    +1",
        5 => b"    -1",
        6 => b"  1  1",
        7 => b"\t    1",
        8 => b"   1\r\n",
        9 => b"    1\0",
        10 => b"\xff    1",
        _ => b"    1A",
    };
    field.copy_from_slice(text);
    (bytes, row as u32 + 1)
}

fn out_of_range(rows: &[[u32; 5]], rng: &mut Rng) -> (Vec<u8>, u32) {
    let number = rng.between(1, rows.len()) as u32;
    let row = rows[number as usize - 1];
    let unlisted: &[usize] = match row[0] {
        1..=3 | 9 | 10 => &[2, 3, 4],
        4 | 5 => &[3, 4],
        7 => &[4],
        _ => &[],
    };
    let mut changed = row;
    match (row[0], rng.below(3)) {
        (1, 0) => changed[1] = rng.pick(&[32, 33, 999_999]),
        (3, 0) => changed[1] = rng.pick(&[2, 3, 10]),
        (5, 0) => changed[1] = rng.pick(&[0, 12, 13, 999_999]),
        (6 | 8, 0) => changed[2] = 0,
        (6 | 8, 1) => changed[1] = rng.pick(&[33 - row[2], 32, 999_999]),
        (6 | 8, _) => changed[2] = rng.pick(&[33 - row[1], 33, 999_999]),
        (_, 1) if !unlisted.is_empty() => changed[rng.pick(unlisted)] = rng.pick(&[1, 2, 999_999]),
        _ => changed[0] = rng.pick(&[0, 11, 12, 999_999]),
    }
    (exchanged(rows, number, changed), number)
}

/// The places of the fields that name rows.
pub fn naming_fields(kind: u32) -> &'static [usize] {
    match kind {
        4 => &[1, 2],
        5 => &[2],
        6 | 8 => &[3, 4],
        7 => &[1, 2, 3],
        9 => &[1],
        _ => &[],
    }
}

fn wrongly_named(rows: &[[u32; 5]], rng: &mut Rng) -> Option<(Vec<u8>, u32)> {
    let number = some_of(rows, rng, |_, row| !naming_fields(row[0]).is_empty())?;
    let mut row = rows[number as usize - 1];
    row[rng.pick(naming_fields(row[0]))] = rng.pick(&[0, number, number + 1, 201, 999_999]);
    Some((exchanged(rows, number, row), number))
}

fn not_once(sheet: &Sheet, rng: &mut Rng) -> Option<Broken> {
    let number = some_row(sheet, rng, |number, row| number > 2 && !naming_fields(row[0]).is_empty())?;
    let mut row = rows_of(&sheet.lines)[number as usize - 1];
    let field = rng.pick(naming_fields(row[0]));
    let old = row[field];
    let new = rng.between(1, number as usize - 1) as u32;
    row[field] = new;
    (new != old).then(|| known(with_row(sheet, number, row), old.min(new)))
}

fn misplaced_iter(sheet: &Sheet, rng: &mut Rng) -> Option<Broken> {
    if rng.chance(30) && sheet.last() < 200 {
        let mut rows = rows_of(&sheet.lines);
        rows.push([9, sheet.last(), 0, 0, 0]);
        return Some(known(sheet::write(&rows), sheet.last() + 1));
    }
    let outside = |number, row: [u32; 5]| row[0] == 5 && sheet.line(number).place == Place::Expression;
    let number = some_row(sheet, rng, outside)?;
    let row = rows_of(&sheet.lines)[number as usize - 1];
    Some(known(with_row(sheet, number, [9, row[2], 0, 0, 0]), number))
}

fn bad_width(sheet: &Sheet, rng: &mut Rng) -> Option<Broken> {
    let number = some_row(sheet, rng, |_, row| matches!(row[0], 5 | 6 | 8 | 9))?;
    let row = rows_of(&sheet.lines)[number as usize - 1];
    let mut changed = row;
    match row[0] {
        5 => changed[1] = if row[1] < 10 { rng.pick(&[10, 11]) } else { rng.between(1, 9) as u32 },
        9 if sheet.line(row[1]).width < 16 => return wider_iter(sheet, number, rng),
        9 => return None,
        _ if row[2] > 1 && rng.chance(50) => changed[2] -= 1,
        _ if row[1] + row[2] <= 31 => changed[2] += 1,
        _ => return None,
    }
    Some(known(with_row(sheet, number, changed), number))
}

/// Gives an iter one value too many, by two rows before it. The fault shows at an if or for above.
fn wider_iter(sheet: &Sheet, iter: u32, rng: &mut Rng) -> Option<Broken> {
    if sheet.last() > 198 {
        return None;
    }
    let later = |named: u32| if named >= iter { named + 2 } else { named };
    let mut rows = Vec::new();
    for (number, mut row) in (1..).zip(rows_of(&sheet.lines)) {
        if number == iter {
            rows.push([2, rng.below(9) as u32, 0, 0, 0]);
            rows.push([4, row[1], iter, 0, 0]);
            row[1] = iter + 1;
        } else {
            naming_fields(row[0]).iter().for_each(|&field| row[field] = later(row[field]));
        }
        rows.push(row);
    }
    Some(Broken { bytes: sheet::write(&rows), row: None })
}

fn not_free(sheet: &Sheet, rng: &mut Rng) -> Option<Broken> {
    let number = some_row(sheet, rng, |_, row| matches!(row[0], 6 | 8))?;
    let mut row = rows_of(&sheet.lines)[number as usize - 1];
    row[1] = rng.between(0, 32 - row[2] as usize) as u32;
    let bound = ((1u64 << row[2]) - 1) << row[1];
    let missing = bound & !sheet.line(row[4]).free != 0;
    missing.then(|| known(with_row(sheet, number, row), number))
}

#[cfg(test)]
mod tests {
    use super::*;

    #[test]
    fn each_planted_fault_gets_its_refusal_and_row() {
        let mut rng = Rng::new(5);
        for case in 0..2000 {
            let number = PLANTABLE[case % PLANTABLE.len()];
            let Planted { made, row } = plant(number, &mut rng);
            let refusal = sheet::read(&made.bytes, &made.kinds).expect_err("a planted fault");
            let text = String::from_utf8_lossy(&made.bytes).into_owned();
            assert_eq!(refusal.number, number, "{text}");
            if let Some(row) = row {
                assert_eq!(refusal.row, row, "{number}\n{text}");
            }
        }
    }
}
