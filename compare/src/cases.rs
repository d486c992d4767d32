// Sheets and their kinds lines with the reader's answer for each, as fixed test data.
// Each answer but those of the random sheets is written here by hand from documents 01 and 02, and the reader is held to it
// while the list is made.

mod kinds;
mod rules;

use crate::bytes::{read, ReadAnswer};
use crate::random::faults::{plant, PLANTABLE};
use crate::random::turns::altered_sheet;
use crate::random::{accepted_sheet, heavy_sheet, loose_sheet, renamed_sheet, Made, Rng};
use crate::sheet::{input_names, write};
pub use rules::nest;

type Rows = Vec<[u32; 5]>;

pub struct Case {
    pub name: String,
    pub made: Made,
}

struct List(Vec<Case>);

impl List {
    fn add(&mut self, name: &str, made: Made) {
        self.0.push(Case { name: name.into(), made });
    }

    /// A sheet that gets this refusal with this kinds line.
    fn refused_with(&mut self, number: u32, row: u32, name: &str, bytes: Vec<u8>, kinds: &[u8]) {
        let answer = read(&bytes, kinds);
        assert_eq!((answer.refusal, answer.row), (number, row), "{name}");
        self.add(name, Made { bytes, kinds: kinds.to_vec() });
    }

    /// A sheet that gets this refusal, one of 1 to 10, where all inputs are whole numbers.
    fn refused(&mut self, number: u32, row: u32, name: &str, bytes: Vec<u8>) {
        let kinds = "W".repeat(input_names(&bytes).map_or(0, |names| names.len())) + "\n";
        self.refused_with(number, row, name, bytes, kinds.as_bytes());
    }

    /// An accepted sheet, its inputs' letters, and its figures: rows, operators, inputs, results.
    fn accepted(&mut self, figures: [u32; 4], name: &str, bytes: Vec<u8>, letters: &str) {
        let [rows, operators, inputs, results] = figures;
        let kinds = format!("{letters}\n").into_bytes();
        let figures = ReadAnswer { refusal: 0, row: 0, rows, operators, inputs, results };
        assert_eq!(read(&bytes, &kinds), figures, "{name}");
        self.add(name, Made { bytes, kinds });
    }
}

/// All cases, in a fixed order.
pub fn list() -> Vec<Case> {
    let mut list = List(Vec::new());
    examples(&mut list);
    bytes_and_rows(&mut list);
    fields(&mut list);
    ranges(&mut list);
    namings(&mut list);
    rules::iters(&mut list);
    rules::widths(&mut list);
    rules::bound_names(&mut list);
    rules::operators(&mut list);
    rules::two_faults(&mut list);
    kinds::lines(&mut list);
    kinds::operators(&mut list);
    kinds::fractions(&mut list);
    kinds::kinds_that_go_on(&mut list);
    kinds::choices(&mut list);
    kinds::loops(&mut list);
    kinds::lower_rows(&mut list);
    random(&mut list);
    list.0
}

/// What `expected` says of a sheet: refusal, row, rows, operators, inputs and results, in six-character fields.
pub fn answer_line(made: &Made) -> String {
    let ReadAnswer { refusal, row, rows, operators, inputs, results } = read(&made.bytes, &made.kinds);
    format!("{refusal:6}{row:6}{rows:6}{operators:6}{inputs:6}{results:6}")
}

fn lesser() -> Rows {
    vec![
        [1, 0, 0, 0, 0],
        [1, 1, 0, 0, 0],
        [4, 1, 2, 0, 0],
        [5, 6, 3, 0, 0],
        [1, 0, 0, 0, 0],
        [1, 1, 0, 0, 0],
        [7, 4, 5, 6, 0],
    ]
}

/// "for i, y = n, 1 do if 1 < i then iter i - 1, y * i else y", with i, y, n as 0, 1, 2.
fn factorial() -> Rows {
    vec![
        [1, 2, 0, 0, 0],
        [2, 1, 0, 0, 0],
        [4, 1, 2, 0, 0],
        [2, 1, 0, 0, 0],
        [1, 0, 0, 0, 0],
        [4, 4, 5, 0, 0],
        [5, 6, 6, 0, 0],
        [1, 0, 0, 0, 0],
        [2, 1, 0, 0, 0],
        [4, 8, 9, 0, 0],
        [5, 2, 10, 0, 0],
        [1, 1, 0, 0, 0],
        [1, 0, 0, 0, 0],
        [4, 12, 13, 0, 0],
        [5, 3, 14, 0, 0],
        [4, 11, 15, 0, 0],
        [9, 16, 0, 0, 0],
        [1, 1, 0, 0, 0],
        [7, 7, 17, 18, 0],
        [8, 0, 2, 3, 19],
    ]
}

/// An identifier negated until there are so many rows.
fn negations(rows: u32) -> Rows {
    (1..=rows).map(|row| if row == 1 { [1, 0, 0, 0, 0] } else { [5, 11, row - 1, 0, 0] }).collect()
}

fn with(rows: &Rows, number: usize, row: [u32; 5]) -> Vec<u8> {
    let mut rows = rows.clone();
    rows[number - 1] = row;
    write(&rows)
}

fn examples(list: &mut List) {
    list.accepted([7, 8, 2, 1], "the lesser of two", write(&lesser()), "WW");
    list.accepted([20, 32, 1, 1], "factorial", write(&factorial()), "W");
    let twice = [[1, 0, 0, 0, 0], [1, 0, 0, 0, 0], [4, 1, 2, 0, 0], [5, 1, 3, 0, 0]];
    list.accepted([4, 2, 1, 1], "x + x", write(&twice), "W");
    list.accepted([1, 0, 1, 1], "identifier 31 alone", write(&[[1, 31, 0, 0, 0]]), "W");
    list.accepted([1, 1, 0, 1], "the greatest constant", write(&[[2, 999_999, 0, 0, 0]]), "");
    list.accepted([1, 1, 0, 1], "a truth", write(&[[3, 1, 0, 0, 0]]), "");
    let pair = [[2, 0, 0, 0, 0], [3, 0, 0, 0, 0], [4, 2, 1, 0, 0]];
    list.accepted([3, 3, 0, 2], "a pair that names its rows crosswise", write(&pair), "");
    let inner = [[2, 1, 0, 0, 0], [1, 0, 0, 0, 0], [1, 0, 0, 0, 0], [6, 0, 1, 2, 3], [6, 0, 1, 1, 4]];
    list.accepted([5, 1, 0, 1], "let x = 1 in let x = x in x", write(&inner), "");
    // if p then x else x, in an expression: T, F, M, two copies of p, one of x.
    let same = [[1, 1, 0, 0, 0], [1, 0, 0, 0, 0], [1, 0, 0, 0, 0], [7, 1, 2, 3, 0]];
    list.accepted([4, 6, 2, 1], "if p then x else x", write(&same), "WT");
    list.accepted(TWO_ITERS_FIGURES, "a body if of two iters", write(&two_iters()), "T");
}

/// for x = x do if x then (if x then iter x else iter x) else x, x
fn two_iters() -> Rows {
    vec![
        [1, 0, 0, 0, 0],
        [1, 0, 0, 0, 0],
        [1, 0, 0, 0, 0],
        [1, 0, 0, 0, 0],
        [9, 4, 0, 0, 0],
        [1, 0, 0, 0, 0],
        [9, 6, 0, 0, 0],
        [7, 3, 5, 7, 0],
        [1, 0, 0, 0, 0],
        [1, 0, 0, 0, 0],
        [4, 9, 10, 0, 0],
        [7, 2, 8, 11, 0],
        [8, 0, 1, 1, 12],
    ]
}

// Inner if: T on x and trigger, F on x and trigger, two true constants, IC, M with one iterated result: 8; x to test,
// T and F: 2 copies; trigger to T and F: 1; the test's output to four gates and IC: 4; the third output to two
// results: 1. Outer if: T 2, F 2, false constant, IC, 2 M on the third output: 8; its copy: 1; x within the no arm: 1;
// x 2, trigger 1, test 4. For: FM, FS, iter? to both: 3. In all 16 + 17 + 3.
const TWO_ITERS_FIGURES: [u32; 4] = [13, 36, 1, 2];

fn bytes_and_rows(list: &mut List) {
    let one = write(&[[1, 0, 0, 0, 0]]);
    list.refused(1, 0, "empty", Vec::new());
    list.refused(1, 0, "a lone line feed", b"\n".to_vec());
    list.refused(1, 0, "a missing last line feed", one[..30].to_vec());
    list.refused(1, 0, "seven rows, the last without its line feed", {
        let bytes = write(&lesser());
        bytes[..bytes.len() - 1].to_vec()
    });
    let text = String::from_utf8(write(&lesser())).unwrap();
    list.refused(1, 0, "CR LF ends, 32 bytes a row", text.replace('\n', "\r\n").into_bytes());
    list.refused(3, 1, "CR in the place of the last character", text.replace("0\n", "\r\n").into_bytes());
    list.refused(1, 0, "CR LF ends in 31 rows, 32 times 31 bytes", {
        let text = String::from_utf8(write(&negations(31))).unwrap();
        text.replace('\n', "\r\n").into_bytes()
    });
    list.refused(1, 0, "the line feed one place early", b"     1     0     0     0     \n0".to_vec());
    list.refused(3, 1, "a line feed inside a row too", b"     1     0     0     0    0\n\n".to_vec());
    list.refused(1, 0, "the second row without its line feed", {
        let mut bytes = write(&lesser());
        bytes[61] = b' ';
        bytes
    });
    list.refused(1, 0, "a stray byte behind the rows", [&one[..], b" "].concat());
    list.refused(1, 0, "a stray line feed behind the rows", [&one[..], b"\n"].concat());
    list.refused(1, 0, "31 spaces", vec![b' '; 31]);
    list.refused(3, 1, "31 line feeds", vec![b'\n'; 31]);
    list.accepted([200, 199, 1, 1], "6,200 bytes", write(&negations(200)), "W");
    list.refused(2, 0, "6,231 bytes", write(&negations(201)));
    list.refused(1, 0, "6,232 bytes", [write(&negations(201)), b"\n".to_vec()].concat());
    list.refused(1, 0, "6,231 bytes, the last line feed missing", {
        let mut bytes = write(&negations(201));
        bytes[6230] = b'0';
        bytes
    });
    list.refused(2, 0, "201 rows of malformed fields", {
        let row = [vec![b'x'; 30], vec![b'\n']].concat();
        row.repeat(201)
    });
}

fn fields(list: &mut List) {
    let malformed: [(&str, &[u8; 6]); 19] = [
        ("six spaces", b"      "),
        ("a leading zero", b"    01"),
        ("two zeros", b"    00"),
        ("six zeros", b"000000"),
        ("a plus sign", b"    +1"),
        ("a minus sign", b"    -1"),
        ("minus zero", b"    -0"),
        ("left-justified", b"1     "),
        ("a space behind", b"    1 "),
        ("a space inside", b"  1  1"),
        ("a tab before", b"\t    1"),
        ("a tab behind", b"    1\t"),
        ("a byte 0x00 before", b"\x00    1"),
        ("a byte 0x00 behind", b"    1\x00"),
        ("a byte 0xff", b"\xff    1"),
        ("a byte 0xb1, a digit but for its highest bit", b"     \xb1"),
        ("a slash, the byte before the digits", b"     /"),
        ("a colon, the byte after the digits", b"     :"),
        ("a letter", b"    1e"),
    ];
    for (place, name) in ["kind", "a", "b", "c", "d"].into_iter().enumerate() {
        for (what, text) in malformed.iter().skip(place % 2).step_by(2) {
            let mut bytes = write(&lesser());
            let row = 2 + place;
            let start = (row - 1) * 31 + place * 6;
            bytes[start..start + 6].copy_from_slice(*text);
            list.refused(3, row as u32, &format!("field {name} with {what}"), bytes);
        }
    }
}

fn ranges(list: &mut List) {
    for kind in [0, 11, 12, 999_999] {
        list.refused(4, 1, &format!("kind {kind}"), write(&[[kind, 0, 0, 0, 0]]));
    }
    for code in [0, 12, 999_999] {
        list.refused(4, 4, &format!("code {code}"), with(&lesser(), 4, [5, code, 3, 0, 0]));
    }
    list.refused(4, 1, "identifier 32", write(&[[1, 32, 0, 0, 0]]));
    list.refused(4, 1, "truth 2", write(&[[3, 2, 0, 0, 0]]));
    let named = [[2, 1, 0, 0, 0], [1, 31, 0, 0, 0], [6, 31, 1, 1, 2]];
    list.accepted([3, 1, 0, 1], "a let of identifier 31", write(&named), "");
    let (one, last) = ([2, 1, 0, 0, 0], [1, 31, 0, 0, 0]);
    let two = [one, one, [4, 1, 2, 0, 0], [1, 30, 0, 0, 0], last, [4, 4, 5, 0, 0], [6, 30, 2, 3, 6]];
    list.accepted([7, 3, 0, 2], "a let of identifiers 30 and 31", write(&two), "");
    for (what, kind) in [("let", 6), ("for", 8)] {
        for (a, b) in [(0, 0), (31, 0), (31, 2), (32, 1), (0, 33), (999_999, 999_999), (1, 32)] {
            let rows = [[2, 1, 0, 0, 0], [1, 31, 0, 0, 0], [kind, a, b, 1, 2]];
            list.refused(4, 3, &format!("a {what} of {b} identifiers from {a} on"), write(&rows));
        }
        // a+b-1 of 31 is in its range; what is wrong is the width.
        let rows = [[2, 1, 0, 0, 0], [1, 31, 0, 0, 0], [kind, 30, 2, 1, 2]];
        list.refused(8, 3, &format!("a {what} of 2 identifiers from 30 on"), write(&rows));
        let rows = [[2, 1, 0, 0, 0], [1, 31, 0, 0, 0], [kind, 0, 32, 1, 2]];
        list.refused(8, 3, &format!("a {what} of 32 identifiers"), write(&rows));
    }
    for (row, fields) in [(1, 2..5), (3, 3..5), (4, 3..5), (7, 4..5)] {
        for field in fields {
            let mut changed = lesser()[row - 1];
            changed[field] = 1;
            let name = format!("kind {} with 1 in unlisted field {field}", changed[0]);
            list.refused(4, row as u32, &name, with(&lesser(), row, changed));
        }
    }
    for field in 2..5 {
        for (row, fields) in [(2, [2, 1, 0, 0, 0]), (17, [9, 16, 0, 0, 0])] {
            let mut changed = fields;
            changed[field] = 999_999;
            let name = format!("kind {} with 999999 in unlisted field {field}", changed[0]);
            list.refused(4, row as u32, &name, with(&factorial(), row, changed));
        }
    }
    list.refused(4, 1, "a truth with 1 in unlisted field 2", write(&[[3, 1, 1, 0, 0]]));
}

fn namings(list: &mut List) {
    for (what, named) in [("row 0", 0), ("itself", 4), ("a later row", 5), ("a row that is not there", 8)] {
        list.refused(5, 4, &format!("an operator of {what}"), with(&lesser(), 4, [5, 6, named, 0, 0]));
    }
    list.refused(5, 3, "a pair whose a is row 0", with(&lesser(), 3, [4, 0, 2, 0, 0]));
    list.refused(5, 3, "a pair whose b is itself", with(&lesser(), 3, [4, 1, 3, 0, 0]));
    list.refused(5, 7, "an if whose test is itself", with(&lesser(), 7, [7, 7, 5, 6, 0]));
    list.refused(5, 7, "an if whose b is a row that is not there", with(&lesser(), 7, [7, 4, 999_999, 6, 0]));
    list.refused(5, 7, "an if whose c is row 0", with(&lesser(), 7, [7, 4, 5, 0, 0]));
    list.refused(5, 20, "a for whose c is row 0", with(&factorial(), 20, [8, 0, 2, 0, 19]));
    list.refused(5, 20, "a for whose d is itself", with(&factorial(), 20, [8, 0, 2, 3, 20]));
    list.refused(5, 17, "an iter of a later row", with(&factorial(), 17, [9, 18, 0, 0, 0]));
    list.refused(5, 1, "row 1 names row 1", write(&[[5, 11, 1, 0, 0]]));
    list.refused(5, 1, "a let whose c is row 0 and d row 0", write(&[[6, 0, 1, 0, 0]]));
    list.refused(6, 1, "the pair (1, 1)", write(&[[1, 0, 0, 0, 0], [4, 1, 1, 0, 0]]));
    list.refused(6, 1, "an if with one row for both arms", {
        write(&[[1, 0, 0, 0, 0], [3, 1, 0, 0, 0], [7, 2, 1, 1, 0]])
    });
    list.refused(6, 2, "a row never named", write(&[[1, 0, 0, 0, 0], [1, 1, 0, 0, 0], [5, 11, 1, 0, 0]]));
    list.refused(6, 1, "two formulas", write(&[[1, 0, 0, 0, 0], [1, 0, 0, 0, 0]]));
    list.refused(6, 1, "row 2 never and row 1 twice named", with(&lesser(), 3, [4, 1, 1, 0, 0]));
    list.refused(6, 5, "row 5 never and row 6 twice named", with(&lesser(), 7, [7, 4, 6, 6, 0]));
}

/// Some of each kind from a fixed seed; their answers are the reader's.
fn random(list: &mut List) {
    let mut rng = Rng::new(2024);
    for number in 1..=12 {
        list.add(&format!("random accepted sheet {number}"), accepted_sheet(&mut rng));
    }
    for number in 1..=4 {
        list.add(&format!("random sheet with many operators {number}"), heavy_sheet(&mut rng));
    }
    for number in PLANTABLE {
        list.add(&format!("random sheet with fault {number}"), plant(number, &mut rng).made);
        list.add(&format!("random sheet with fault {number} again"), plant(number, &mut rng).made);
    }
    for number in 1..=12 {
        list.add(&format!("random rows {number}"), loose_sheet(&mut rng));
        list.add(&format!("random sheet with other names {number}"), renamed_sheet(&mut rng));
        list.add(&format!("random sheet with altered bytes {number}"), altered_sheet(&mut rng));
    }
}

#[cfg(test)]
mod tests {
    use super::*;

    #[test]
    fn every_answer_written_by_hand_is_the_readers() {
        let cases = list();
        assert!(cases.len() > 200 && cases.len() < 1000);
        for number in (0..=10).chain([17, 18]) {
            assert!(cases.iter().filter(|case| case.made.refusal() == number).count() > 3);
        }
    }

    #[test]
    fn an_expected_line_has_fields_of_six() {
        let line = |bytes: Vec<u8>, kinds: &[u8]| answer_line(&Made { bytes, kinds: kinds.to_vec() });
        assert_eq!(line(Vec::new(), b""), "     1     0     0     0     0     0");
        assert_eq!(line(write(&lesser()), b"WW\n"), "     0     0     7     8     2     1");
        assert_eq!(line(write(&lesser()), b"WT\n"), "    18     4     0     0     0     0");
    }
}
