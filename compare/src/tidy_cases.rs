// Sheets with what is left of each when it is tidied, as fixed test data (document 02, Job 8). What is left is written here by hand, but for random sheets, and
// the tidy here is held to it while the list is made.

use crate::bytes;
use crate::cases::nest;
use crate::examples::{endless, factorial, half_dead, lesser, negations, range};
use crate::random::dead::littered_sheet;
use crate::random::Rng;
use crate::sheet::{read_lines, rows_of, write, MOST_ROWS, ROW_BYTES};
use crate::tidy::{room_for, tidy, TidyAnswer};

type Row = [u32; 5];

pub struct Case {
    pub name: String,
    pub sheet: Vec<u8>,
}

/// What the program that tidies the cases writes: refusal, row and rows in six-character fields, and the new sheet.
pub fn expected(sheet: &[u8]) -> (TidyAnswer, Vec<u8>) {
    let mut out = vec![HELD; room_for(sheet.len())];
    let answer = tidy(sheet, &mut out);
    let TidyAnswer { refusal, row, rows } = answer;
    let mut text = format!("{refusal:6}{row:6}{rows:6}\n").into_bytes();
    let (left, behind) = out.split_at(ROW_BYTES * rows as usize);
    assert!(behind.iter().all(|&byte| byte == HELD), "a byte behind the new sheet");
    text.extend(left);
    (answer, text)
}

const HELD: u8 = 0x5a;

struct List(Vec<Case>);

impl List {
    fn add(&mut self, name: &str, sheet: Vec<u8>) {
        self.0.push(Case { name: name.into(), sheet });
    }

    /// A sheet of which these rows are left; whether the new one then gets 6.
    fn tidied(&mut self, name: &str, rows: &[Row], left: &[Row], named_twice: bool) {
        let (answer, text) = expected(&write(rows));
        assert_eq!(answer, TidyAnswer { refusal: 0, row: 0, rows: left.len() as u32 }, "{name}");
        assert_eq!(text[19..], write(left), "{name}");
        assert_eq!(bytes::read(&text[19..], b"").refusal == 6, named_twice, "{name}");
        self.add(name, write(rows));
    }

    fn left(&mut self, name: &str, rows: &[Row], left: &[Row]) {
        self.tidied(name, rows, left, false);
    }

    /// A sheet of which some row left is named twice.
    fn left_doubled(&mut self, name: &str, rows: &[Row], left: &[Row]) {
        self.tidied(name, rows, left, true);
    }

    /// A sheet without a dead row, in which no row is named twice.
    fn kept(&mut self, name: &str, rows: &[Row]) {
        self.left(name, rows, rows);
    }

    fn refused(&mut self, number: u32, row: u32, name: &str, sheet: Vec<u8>) {
        assert_eq!(expected(&sheet).0, TidyAnswer { refusal: number, row, rows: 0 }, "{name}");
        self.add(name, sheet);
    }
}

/// All cases, in a fixed order.
pub fn list() -> Vec<Case> {
    let mut list = List(Vec::new());
    nothing_dead(&mut list);
    dead_rows(&mut list);
    dead_parts(&mut list);
    each_kind(&mut list);
    long_sheets(&mut list);
    named_twice(&mut list);
    not_mended(&mut list);
    faults(&mut list);
    faults_by_rows(&mut list);
    random(&mut list);
    list.0
}

const X: Row = [1, 0, 0, 0, 0];
const Y: Row = [1, 1, 0, 0, 0];
const ONE: Row = [2, 1, 0, 0, 0];
const TRUE: Row = [3, 1, 0, 0, 0];

fn rows(bytes: &[u8]) -> Vec<Row> {
    rows_of(&read_lines(bytes).expect("tests 1 to 5 pass"))
}

fn nothing_dead(list: &mut List) {
    list.kept("the lesser of two", &rows(&lesser().bytes));
    list.kept("factorial", &rows(&factorial().bytes));
    list.kept("a loop without end", &rows(&endless().bytes));
    list.kept("range from strength", &rows(&range().bytes));
    list.kept("an identifier alone", &[[1, 31, 0, 0, 0]]);
    list.kept("the greatest constant alone", &[[2, 999_999, 0, 0, 0]]);
    list.kept("a constant with a fraction alone", &[[10, 999_999, 0, 0, 0]]);
    list.kept("a truth alone", &[TRUE]);
    list.kept("a pair that names its rows crosswise", &[X, Y, [4, 2, 1, 0, 0]]);
}

/// Rows between those of "if x < y then x else y", which are left.
fn dead_rows(list: &mut List) {
    let lesser = rows(&lesser().bytes);
    let (test, arms) = ([[4, 2, 3, 0, 0], [5, 6, 4, 0, 0]], [[7, 5, 6, 7, 0]]);
    list.left("a dead row first", &[&[ONE, X, Y][..], &test, &[X, Y], &arms].concat(), &lesser);
    let before_the_last = [X, Y, [4, 1, 2, 0, 0], [5, 6, 3, 0, 0], X, Y, TRUE, [7, 4, 5, 6, 0]];
    list.left("a dead row before the last", &before_the_last, &lesser);
    let between = [X, ONE, Y, [4, 1, 3, 0, 0], TRUE, [5, 6, 4, 0, 0], X, Y, [2, 7, 0, 0, 0], [7, 6, 7, 8, 0]];
    list.left("dead rows between", &between, &lesser);
    let naming = [X, Y, [4, 1, 2, 0, 0], [4, 2, 1, 0, 0], [5, 6, 3, 0, 0], [5, 11, 5, 0, 0], X, Y, [7, 5, 7, 8, 0]];
    list.left("dead rows that name live ones", &naming, &lesser);
    let chain = [X, [5, 11, 1, 0, 0], [5, 11, 2, 0, 0], Y, [5, 11, 3, 0, 0], [4, 1, 4, 0, 0], [5, 6, 6, 0, 0]];
    let chain = [&chain[..], &[[5, 11, 5, 0, 0], X, [5, 11, 8, 0, 0], Y, [4, 8, 10, 0, 0], [7, 7, 9, 11, 0]]].concat();
    list.left("a chain of dead rows from a live one on", &chain, &lesser);
    list.left("the last row alone", &[lesser.clone(), vec![X]].concat(), &[X]);
    list.left(
        "a formula and behind it another",
        &[lesser.clone(), vec![X, [5, 11, 8, 0, 0]]].concat(),
        &[X, [5, 11, 1, 0, 0]],
    );
    list.left("two rows, one dead", &[X, Y], &[Y]);
    list.left("the same row twice", &[X, X], &[X]);
}

/// What clubs leave behind when they change a formula at its last rows.
fn dead_parts(list: &mut List) {
    let (factorial, lesser) = (rows(&factorial().bytes), rows(&lesser().bytes));
    let start = [[1, 2, 0, 0, 0], ONE, [4, 1, 2, 0, 0]];
    list.left("factorial cut to what its loop starts from", &[factorial.clone(), vec![[5, 1, 3, 0, 0]]].concat(), &{
        [&start[..], &[[5, 1, 3, 0, 0]]].concat()
    });
    let test = [ONE, X, [4, 1, 2, 0, 0], [5, 6, 3, 0, 0]];
    list.left("factorial cut to its test", &[factorial.clone(), vec![[5, 10, 7, 0, 0]]].concat(), &{
        [&test[..], &[[5, 10, 4, 0, 0]]].concat()
    });
    list.left("an if cut to its arm", &[lesser.clone(), vec![[5, 11, 5, 0, 0]]].concat(), &[X, [5, 11, 1, 0, 0]]);
    list.left("an if with its arms exchanged in a new last row", &[lesser.clone(), vec![[7, 4, 6, 5, 0]]].concat(), &{
        [X, Y, [4, 1, 2, 0, 0], [5, 6, 3, 0, 0], X, Y, [7, 4, 6, 5, 0]]
    });
    let behind = |row: &Row| match row[0] {
        4 => [4, row[1] + 20, row[2] + 20, 0, 0],
        5 => [5, row[1], row[2] + 20, 0, 0],
        7 => [7, row[1] + 20, row[2] + 20, row[3] + 20, 0],
        _ => *row,
    };
    let after: Vec<Row> = lesser.iter().map(behind).collect();
    list.left("the lesser of two behind the rows of factorial", &[factorial.clone(), after].concat(), &lesser);
}

/// Which fields of each kind name rows: the others keep their numbers, though they are row numbers too.
fn each_kind(list: &mut List) {
    let dead = [TRUE, TRUE];
    let with = |rows: &[Row]| [&dead[..], rows].concat();
    list.left("kind 1", &with(&[[1, 2, 0, 0, 0]]), &[[1, 2, 0, 0, 0]]);
    list.left("kind 2", &with(&[[2, 2, 0, 0, 0]]), &[[2, 2, 0, 0, 0]]);
    list.left("kind 3", &with(&[[3, 1, 0, 0, 0]]), &[[3, 1, 0, 0, 0]]);
    list.left("kind 10", &with(&[[10, 2, 0, 0, 0]]), &[[10, 2, 0, 0, 0]]);
    list.left("kind 4", &with(&[X, Y, [4, 3, 4, 0, 0]]), &[X, Y, [4, 1, 2, 0, 0]]);
    list.left("kind 4, crosswise", &with(&[X, Y, [4, 4, 3, 0, 0]]), &[X, Y, [4, 2, 1, 0, 0]]);
    list.left("kind 4, a dead row between its two", &[X, TRUE, Y, [4, 1, 3, 0, 0]], &[X, Y, [4, 1, 2, 0, 0]]);
    list.left("kind 5", &with(&[X, [5, 11, 3, 0, 0]]), &[X, [5, 11, 1, 0, 0]]);
    let coded = [X, X, [4, 3, 4, 0, 0], [5, 5, 5, 0, 0]];
    list.left("kind 5, a code that is a row's number", &with(&coded), &[X, X, [4, 1, 2, 0, 0], [5, 5, 3, 0, 0]]);
    list.left("kind 6", &with(&[ONE, X, [6, 0, 1, 3, 4]]), &[ONE, X, [6, 0, 1, 1, 2]]);
    let two = [1, 3, 0, 0, 0];
    let bound = [ONE, ONE, [4, 3, 4, 0, 0], two, [1, 4, 0, 0, 0], [4, 6, 7, 0, 0], [6, 3, 2, 5, 8]];
    let left = [ONE, ONE, [4, 1, 2, 0, 0], two, [1, 4, 0, 0, 0], [4, 4, 5, 0, 0], [6, 3, 2, 3, 6]];
    list.left("kind 6, identifiers that are rows' numbers", &with(&bound), &left);
    list.left("kind 6, c behind d", &with(&[X, ONE, [6, 0, 1, 4, 3]]), &[X, ONE, [6, 0, 1, 2, 1]]);
    list.left("kind 7", &with(&[TRUE, X, Y, [7, 3, 4, 5, 0]]), &[TRUE, X, Y, [7, 1, 2, 3, 0]]);
    list.left("kind 7, backwards", &with(&[X, Y, TRUE, [7, 5, 4, 3, 0]]), &[X, Y, TRUE, [7, 3, 2, 1, 0]]);
    let looped = |by: u32| {
        let body = [[9, 3 + by, 0, 0, 0], X, [7, 2 + by, 4 + by, 5 + by, 0]];
        [&[X, X, X][..], &body, &[[8, 0, 1, 1 + by, 6 + by]]].concat()
    };
    list.left("kinds 8 and 9", &with(&looped(2)), &looped(0));
    list.left("kind 9 as the formula", &with(&[X, [9, 3, 0, 0, 0]]), &[X, [9, 1, 0, 0, 0]]);
    let all = [X, ONE, TRUE, [10, 1, 0, 0, 0], [4, 1, 2, 0, 0], [5, 1, 5, 0, 0], [6, 0, 1, 2, 1], [7, 3, 1, 2, 0]];
    let all = [&all[..], &[[8, 0, 1, 2, 1], [9, 1, 0, 0, 0], Y]].concat();
    list.left("dead rows of every kind", &all, &[Y]);
}

fn long_sheets(list: &mut List) {
    let most = MOST_ROWS as u32;
    list.kept("200 rows, all live", &rows(&negations(most).bytes));
    let mut ended = rows(&negations(most - 1).bytes);
    ended.push(Y);
    list.left("200 rows, all dead but the last", &ended, &[Y]);
    list.left("200 rows that name none", &vec![X; MOST_ROWS], &[X]);
    list.left("200 rows, every other dead", &rows(&half_dead(most).bytes), &rows(&negations(most / 2).bytes));
    // Numbers of three digits become numbers of one and of two.
    let mut behind = vec![TRUE; 188];
    behind.extend((0..11).map(|row| if row == 0 { X } else { [5, 11, 188 + row, 0, 0] }));
    behind.push([5, 11, 199, 0, 0]);
    list.left("twelve live rows behind 188 dead ones", &behind, &rows(&negations(12).bytes));
    let mut apart = vec![TRUE; 200];
    (apart[0], apart[98], apart[199]) = (X, Y, [4, 99, 1, 0, 0]);
    list.left("rows 1, 99 and 200 alone live", &apart, &[X, Y, [4, 2, 1, 0, 0]]);
}

/// "the new sheet gets 6 exactly when two fields of kept rows name the same row"
fn named_twice(list: &mut List) {
    list.left_doubled("the pair (1, 1)", &[X, [4, 1, 1, 0, 0]], &[X, [4, 1, 1, 0, 0]]);
    list.left_doubled("the pair (2, 2) behind a dead row", &[TRUE, X, [4, 2, 2, 0, 0]], &[X, [4, 1, 1, 0, 0]]);
    list.left_doubled("one row for both arms", &[X, TRUE, [7, 2, 1, 1, 0]], &[X, TRUE, [7, 2, 1, 1, 0]]);
    list.left_doubled("one row for test and arm", &[Y, X, [7, 2, 2, 1, 0]], &[Y, X, [7, 2, 2, 1, 0]]);
    list.left_doubled("one row for c and d of a let", &[TRUE, X, [6, 0, 1, 2, 2]], &[X, [6, 0, 1, 1, 1]]);
    let shared = [X, [5, 11, 1, 0, 0], [5, 11, 1, 0, 0], TRUE, [4, 2, 3, 0, 0]];
    let left = [X, [5, 11, 1, 0, 0], [5, 11, 1, 0, 0], [4, 2, 3, 0, 0]];
    list.left_doubled("a row that two live rows name", &shared, &left);
    let once = [X, [5, 11, 1, 0, 0], [5, 11, 1, 0, 0], TRUE, [5, 11, 3, 0, 0]];
    list.left("a row that a live row and a dead one name", &once, &[X, [5, 11, 1, 0, 0], [5, 11, 2, 0, 0]]);
    let dead = [X, Y, [4, 1, 1, 0, 0], [4, 2, 2, 0, 0], [5, 11, 1, 0, 0]];
    list.left("rows that dead rows name twice", &dead, &[X, [5, 11, 1, 0, 0]]);
    let unnamed = [X, Y, Y, [4, 1, 1, 0, 0]];
    list.left_doubled("rows named never, and one twice", &unnamed, &[X, [4, 1, 1, 0, 0]]);
}

/// What tests 6 to 10, 17 and 18 find: the rows that are left are as they were.
fn not_mended(list: &mut List) {
    list.kept("iter as the formula", &[ONE, [9, 1, 0, 0, 0]]);
    list.kept("an operator of one value", &[X, [5, 1, 1, 0, 0]]);
    list.kept("let x = 1 in 2", &[ONE, [2, 2, 0, 0, 0], [6, 0, 1, 1, 2]]);
    list.kept("a truth negated", &[TRUE, [5, 11, 1, 0, 0]]);
    list.kept("1,025 operators", &nest(29, 24));
    list.kept("a for whose body only returns", &[X, X, [8, 0, 1, 1, 2]]);
    let dead = [X, [9, 1, 0, 0, 0], [5, 1, 1, 0, 0], [6, 5, 1, 1, 1], [8, 0, 1, 1, 1], [5, 10, 1, 0, 0]];
    list.left("dead rows at fault", &dead, &[X, [5, 10, 1, 0, 0]]);
}

fn faults(list: &mut List) {
    let one = write(&[X]);
    let two = write(&[TRUE, X]);
    list.refused(1, 0, "empty", Vec::new());
    list.refused(1, 0, "a lone line feed", b"\n".to_vec());
    list.refused(1, 0, "a missing last line feed", two[..61].to_vec());
    list.refused(1, 0, "a byte behind the rows", [&one[..], b"\n"].concat());
    list.refused(1, 0, "a dead row without its line feed", [&[b' '; 31][..], &one].concat());
    list.refused(1, 0, "6,230 bytes", vec![b'\n'; 6_230]);
    list.refused(2, 0, "201 rows", write(&[X; 201]));
    list.refused(2, 0, "201 rows of malformed fields", [vec![b'x'; 30], vec![b'\n']].concat().repeat(201));
    let malformed = |row: usize, text: &[u8; 6]| {
        let mut bytes = write(&[X, TRUE, Y, [4, 1, 3, 0, 0]]);
        bytes[(row - 1) * ROW_BYTES + 6..][..6].copy_from_slice(text);
        bytes
    };
    list.refused(3, 1, "a malformed field in a live row", malformed(1, b"    01"));
    list.refused(3, 2, "a malformed field in a dead row", malformed(2, b"      "));
    list.refused(3, 4, "a malformed field in the last row", malformed(4, b"    -1"));
}

fn faults_by_rows(list: &mut List) {
    let refused = |list: &mut List, number, row, name: &str, rows: &[Row]| {
        list.refused(number, row, name, write(rows));
    };
    refused(list, 4, 1, "kind 11 in a dead row", &[[11, 0, 0, 0, 0], X]);
    refused(list, 4, 1, "identifier 32 in a dead row", &[[1, 32, 0, 0, 0], X]);
    refused(list, 4, 2, "code 12 in a dead row", &[X, [5, 12, 1, 0, 0], X]);
    refused(list, 4, 2, "an unlisted field in the last row", &[X, [1, 0, 0, 0, 1]]);
    refused(list, 4, 2, "a let of no identifiers in a dead row", &[X, [6, 0, 0, 1, 1], X]);
    refused(list, 4, 2, "out of range in rows 2 and 3", &[X, [3, 2, 0, 0, 0], [3, 2, 0, 0, 0], X]);
    refused(list, 5, 1, "a dead row that names itself", &[[5, 11, 1, 0, 0], X]);
    refused(list, 5, 2, "a dead row that names a later one", &[X, [4, 1, 3, 0, 0], X]);
    refused(list, 5, 2, "a last row that names row 0", &[X, [4, 0, 1, 0, 0]]);
    refused(list, 5, 3, "a last row that names itself", &[X, TRUE, [7, 2, 1, 3, 0]]);
    refused(list, 5, 2, "rows 2 and 3 name wrongly", &[X, [9, 2, 0, 0, 0], [9, 3, 0, 0, 0], X]);
    refused(list, 4, 3, "5 in row 2, 4 in row 3", &[X, [9, 2, 0, 0, 0], [11, 0, 0, 0, 0], X]);
    let mut bytes = write(&[[11, 0, 0, 0, 0], [9, 2, 0, 0, 0], X]);
    bytes[2 * ROW_BYTES] = b'x';
    list.refused(3, 3, "4 in row 1, 5 in row 2, 3 in row 3", bytes);
}

/// Short ones from a fixed seed; what is left of them is the tidy's.
fn random(list: &mut List) {
    let mut rng = Rng::new(2026);
    let mut number = 0;
    while list.0.len() < 120 {
        let (kind, littered) = littered_sheet(number, &mut rng);
        number += 1;
        if littered.made.bytes.len() <= 40 * ROW_BYTES {
            list.add(&format!("random, {kind}"), littered.made.bytes);
        }
    }
}

#[cfg(test)]
mod tests {
    use super::*;

    #[test]
    fn what_is_left_by_hand_is_what_the_tidy_leaves() {
        let cases = list();
        let refused = |number| cases.iter().filter(|case| expected(&case.sheet).0.refusal == number).count();
        assert!(refused(0) > 60, "{}", refused(0));
        assert!((1..=5).all(|number| refused(number) >= 2));
    }
}
