// Sheets to be handed to the call for the next small sheet (document 02, Job 14): small ones, and others that are small but for one thing.

use super::faults::{naming_fields, plant};
use super::sheets::{accepted_sheet, loose_sheet};
use super::{mutate, Rng};
use crate::sheet::{read_lines, rows_of, write};
use crate::small::{SmallSheets, MOST_ROWS};

type Rows = Vec<[u32; 5]>;

/// How one is made, and its bytes. The number chooses the way.
pub fn nearly_small_sheet(number: u64, sheets: &SmallSheets, rng: &mut Rng) -> (&'static str, Vec<u8>) {
    let list = sheets.list();
    // Half of them from any place; of the others each number of rows is as frequent.
    let place = if rng.chance(50) { rng.below(list.len()) } else { list.len() >> rng.below(14) };
    let small = &list[place.min(list.len() - 1)];
    let mut rows = rows_of(&read_lines(small).expect("a small sheet"));
    match number % 16 {
        0 => ("small", small.clone()),
        1 | 2 => ("with another byte", with_another_byte(small, rng)),
        3 => ("of another length", of_another_length(small, rng)),
        4 => ("with altered bytes", mutate(small, rng)),
        5 => ("of six rows or more", of_more_rows(rows, rng)),
        6 => ("with identifier 2", with_identifier(rows, rng)),
        7 => ("with constant 2", with_constant(rows, rng)),
        8 => ("with row kind 10", with_floats(rows, rng)),
        9 => ("with a let of other identifiers", with_let(rows, rng)),
        10 => ("with rows exchanged", {
            let (one, other) = (rng.below(rows.len()), rng.below(rows.len()));
            rows.swap(one, other);
            write(&rows)
        }),
        11 => ("with another name of a row", with_another_name(rows, rng)),
        12 => ("with another code or kind", with_another_sort(rows, rng)),
        13 => ("of any rows", of_any_rows(rng)),
        14 => ("refused by 1 to 9", plant(rng.between(1, 9) as u32, rng).made.bytes),
        _ => ("as reading is compared on", if rng.chance(50) { accepted_sheet(rng) } else { loose_sheet(rng) }.bytes),
    }
}

fn with_another_byte(small: &[u8], rng: &mut Rng) -> Vec<u8> {
    let mut bytes = small.to_vec();
    let place = rng.below(bytes.len());
    bytes[place] = if rng.chance(50) { rng.pick(b" 0123456789\n") } else { rng.number() as u8 };
    bytes
}

/// Cut, or with bytes behind it.
fn of_another_length(small: &[u8], rng: &mut Rng) -> Vec<u8> {
    match rng.below(3) {
        0 => small[..rng.below(small.len())].to_vec(),
        1 => [small, &[rng.pick(b" 0\n\0")]].concat(),
        _ => [small, &small[..rng.between(1, small.len())]].concat(),
    }
}

/// Further rows behind the last, each of which names the one before it; most such sheets pass tests 1 to 9.
fn of_more_rows(mut rows: Rows, rng: &mut Rng) -> Vec<u8> {
    let most = if rng.chance(80) { MOST_ROWS + 1 } else { rng.between(MOST_ROWS + 1, 9) };
    while rows.len() < most {
        rows.push([5, rng.pick(&[10, 11]), rows.len() as u32, 0, 0]);
    }
    write(&rows)
}

/// An identifier has another number wherever it is used, or in one row.
fn with_identifier(mut rows: Rows, rng: &mut Rng) -> Vec<u8> {
    let (old, new) = (rng.pick(&[0, 1]), rng.pick(&[2, 2, 31, 32]));
    let using: Vec<usize> =
        (0..rows.len()).filter(|&row| [1, 6].contains(&rows[row][0]) && rows[row][1] == old).collect();
    let chosen = if using.is_empty() || rng.chance(60) { using } else { vec![rng.pick(&using)] };
    chosen.into_iter().for_each(|row| rows[row][1] = new);
    write(&rows)
}

fn with_constant(mut rows: Rows, rng: &mut Rng) -> Vec<u8> {
    let constants = rows.iter_mut().filter(|row| [2, 3].contains(&row[0]));
    constants.for_each(|row| row[1] = rng.pick(&[row[1], 2, 2, 10, 999_999]));
    write(&rows)
}

/// A leaf is a float's constant.
fn with_floats(mut rows: Rows, rng: &mut Rng) -> Vec<u8> {
    rows.iter_mut().filter(|row| row[0] <= 3 && rng.chance(50)).for_each(|row| row[0] = 10);
    write(&rows)
}

/// Identifiers 1 and 2, or others, for those of a let or of a pair, which then is one.
fn with_let(mut rows: Rows, rng: &mut Rng) -> Vec<u8> {
    for row in rows.iter_mut().filter(|row| [4, 6].contains(&row[0])) {
        let (c, d) = if row[0] == 6 { (row[3], row[4]) } else { (row[1], row[2]) };
        let (a, b) = rng.pick(&[(1, 2), (0, 1), (1, 1), (0, 2), (2, 1), (0, 3), (0, 0)]);
        *row = [rng.pick(&[6, 6, 6, 8]), a, b, c, d];
    }
    write(&rows)
}

fn with_another_name(mut rows: Rows, rng: &mut Rng) -> Vec<u8> {
    let number = rng.below(rows.len());
    let last = rows.len() as u32;
    for &field in naming_fields(rows[number][0]) {
        if rng.chance(60) {
            rows[number][field] = rng.between(0, last as usize) as u32;
        }
    }
    write(&rows)
}

/// Mostly an operator's code or a leaf's kind.
fn with_another_sort(mut rows: Rows, rng: &mut Rng) -> Vec<u8> {
    let number = rng.below(rows.len());
    let row = &mut rows[number];
    match row[0] {
        1..=3 => row[0] = rng.between(0, 4) as u32,
        5 => row[1] = rng.between(0, 12) as u32,
        _ => row[0] = rng.between(4, 11) as u32,
    }
    write(&rows)
}

/// Rows of any kinds, each of which names rows before it that none has named, where there are enough.
fn of_any_rows(rng: &mut Rng) -> Vec<u8> {
    let mut unnamed: Vec<u32> = Vec::new();
    let mut rows = Rows::new();
    for number in 1..=rng.between(1, MOST_ROWS + 2) as u32 {
        let kind = if unnamed.len() < 3 { rng.between(1, 10) } else { rng.between(4, 9) } as u32;
        let mut row = [kind, rng.pick(&[0, 1]), 0, 0, 0];
        match kind {
            5 => row[1] = rng.between(1, 11) as u32,
            6 | 8 => row[2] = 1,
            _ => {}
        }
        for &field in naming_fields(kind) {
            row[field] = if unnamed.is_empty() { 1 } else { unnamed.remove(rng.below(unnamed.len())) };
        }
        rows.push(row);
        unnamed.push(number);
    }
    write(&rows)
}
