// Writes FILE, what the product's crate next_runs is to print of its walk through the list of small sheets: every 5,000th sheet, behind the answer that a call
// gives with it, in six-character fields; wherever the number of rows changes, the rows up to then, how many sheets have so many and how many have up to so many,
// and a line with the digest of all bytes so far; at the end the last sheet, and what is answered behind it.

use compare::sheet::ROW_BYTES;
use compare::small::{Digest, NextAnswer, SmallSheets, ROOM};
use std::{env, fs, io, process};

/// Every so-manieth sheet is written.
const SHOWN: usize = 5_000;

fn main() -> io::Result<()> {
    let Some(file) = env::args().nth(1) else {
        eprintln!("usage: next_cases FILE");
        process::exit(2);
    };
    let sheets = SmallSheets::all();
    let mut expected = Vec::new();
    let (mut rows, mut shorter, mut digest) = (0, 0, Digest::EMPTY);
    for (place, sheet) in sheets.list().iter().enumerate() {
        if sheet.len() / ROW_BYTES != rows {
            expected.extend(change(rows, place - shorter, place, digest));
            (rows, shorter) = (sheet.len() / ROW_BYTES, place);
        }
        digest = digest.with(sheet);
        if (place + 1) % SHOWN == 0 {
            expected.extend(line(0, 0, rows));
            expected.extend(sheet);
        }
    }
    let last = sheets.list().last().expect("small sheets");
    let NextAnswer { refusal, row, rows: none } = sheets.next(last, &mut [0; ROOM]);
    expected.extend(change(rows, sheets.list().len() - shorter, sheets.list().len(), digest));
    expected.extend(last);
    expected.extend(line(refusal, row as usize, none as usize));
    fs::write(file, expected)
}

fn line(a: u32, b: usize, c: usize) -> Vec<u8> {
    format!("{a:6}{b:6}{c:6}\n").into_bytes()
}

fn change(rows: usize, sheets: usize, all: usize, digest: Digest) -> Vec<u8> {
    [line(rows as u32, sheets, all), format!("{:016x}\n", digest.0).into_bytes()].concat()
}
