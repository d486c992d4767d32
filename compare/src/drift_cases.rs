// Sheets and tolerances with how far the results can move, as fixed test data (document 02, Job 13). Numbers and refusals are written here by hand, but for those of
// random sheets, and the drift here is held to them while the list is made.

use crate::cases::nest;
use crate::drift::{drift, DriftAnswer, MOST, NUMBER_BYTES, ROOM};
use crate::examples::{endless, factorial, lesser, mean, negations, range, scaled};
use crate::random::faults::{plant, Planted, PLANTABLE};
use crate::random::movements::{encoded, moving_sheet};
use crate::random::{Made, Rng};
use crate::sheet::{write, ROW_BYTES};

type Row = [u32; 5];

pub struct Case {
    pub name: String,
    pub made: Made,
    pub tolerances: Vec<u8>,
    /// The bytes lent for the numbers.
    pub room: usize,
}

impl Case {
    /// That length in a six-character field.
    pub fn room_line(&self) -> String {
        format!("{:6}\n", self.room)
    }

    /// What the program that makes the cases writes: refusal, row and results in six-character fields, and the numbers in a line of eleven-character fields.
    pub fn expected(&self) -> (DriftAnswer, String) {
        const HELD: u8 = 0x5a;
        let mut out = vec![HELD; self.room];
        let answer = drift(&self.made.bytes, &self.made.kinds, &self.tolerances, &mut out);
        let DriftAnswer { refusal, row, results } = answer;
        let (numbers, behind) = out.split_at(NUMBER_BYTES * results as usize);
        assert!(behind.iter().all(|&byte| byte == HELD), "a byte behind the numbers");
        let field = |bytes: &[u8]| format!("{:11}", u32::from_le_bytes(bytes.try_into().expect("four bytes")));
        let mut text = format!("{refusal:6}{row:6}{results:6}\n");
        if refusal == 0 {
            text.extend(numbers.chunks_exact(NUMBER_BYTES).map(field));
            text.push('\n');
        }
        (answer, text)
    }
}

struct List(Vec<Case>);

impl List {
    fn add(&mut self, name: &str, made: Made, tolerances: &[u8], room: usize) -> &Case {
        let (name, tolerances) = (name.into(), tolerances.to_vec());
        self.0.push(Case { name, made, tolerances, room });
        &self.0[self.0.len() - 1]
    }

    /// Rows over inputs of kind W, one a tolerance.
    fn told(&mut self, name: &str, rows: &[Row], tolerances: &[u32], numbers: &[u32]) {
        let case = self.add(name, of_wholes(rows, tolerances.len()), &encoded(tolerances), ROOM);
        let fields: String = numbers.iter().map(|number| format!("{number:11}")).collect();
        assert_eq!(case.expected().1, format!("     0     0{:6}\n{fields}\n", numbers.len()), "{name}");
    }

    /// 21 of rows over so many inputs of kind W.
    fn past(&mut self, name: &str, rows: &[Row], inputs: usize, tolerances: &[u8]) {
        self.refused(21, 0, name, of_wholes(rows, inputs), tolerances, ROOM);
    }

    /// 20, whatever the tolerances are.
    fn other_sort(&mut self, row: u32, name: &str, rows: &[Row], kinds: &[u8]) {
        self.refused(20, row, name, Made { bytes: write(rows), kinds: kinds.to_vec() }, &[0xff; 5], ROOM);
    }

    fn refused(&mut self, number: u32, row: u32, name: &str, made: Made, tolerances: &[u8], room: usize) {
        let (answer, _) = self.add(name, made, tolerances, room).expected();
        assert_eq!(answer, DriftAnswer { refusal: number, row, results: 0 }, "{name}");
    }
}

fn of_wholes(rows: &[Row], inputs: usize) -> Made {
    Made { bytes: write(rows), kinds: [&vec![b'W'; inputs][..], b"\n"].concat() }
}

/// All cases, in a fixed order.
pub fn list() -> Vec<Case> {
    let mut list = List(Vec::new());
    each_sort(&mut list);
    bound_names(&mut list);
    whole_formulas(&mut list);
    about_the_greatest(&mut list);
    other_sorts(&mut list);
    lowest_rows(&mut list);
    tolerances_at_fault(&mut list);
    order(&mut list);
    random(&mut list);
    list.0
}

const X: Row = [1, 0, 0, 0, 0];
const Y: Row = [1, 1, 0, 0, 0];
const TRUE: Row = [3, 1, 0, 0, 0];

fn whole(number: u32) -> Row {
    [2, number, 0, 0, 0]
}

fn pair(a: u32, b: u32) -> Row {
    [4, a, b, 0, 0]
}

fn code(code: u32, row: u32) -> Row {
    [5, code, row, 0, 0]
}

fn bind(first: u32, count: u32, c: u32, d: u32) -> Row {
    [6, first, count, c, d]
}

const ADD: u32 = 1;
const SUBTRACT: u32 = 2;
const MULTIPLY: u32 = 3;
const DIVIDE: u32 = 4;
const NEGATE: u32 = 11;

/// A code on two rows, the first in front.
fn on(number: u32, left: Row, right: Row) -> [Row; 4] {
    [left, right, pair(1, 2), code(number, 3)]
}

fn each_sort(list: &mut List) {
    list.told("an identifier", &[X], &[7], &[7]);
    list.told("an identifier that does not move", &[[1, 31, 0, 0, 0]], &[0], &[0]);
    list.told("a whole constant", &[whole(999_999)], &[], &[0]);
    list.told("negate", &[X, code(NEGATE, 1)], &[7], &[7]);
    list.told("add", &on(ADD, X, Y), &[7, 8], &[15]);
    list.told("subtract", &on(SUBTRACT, X, Y), &[7, 8], &[15]);
    list.told("x - x", &on(SUBTRACT, X, X), &[7], &[14]);
    list.told("add a constant", &on(ADD, X, whole(999)), &[7], &[7]);
    list.told("multiply, the constant behind", &on(MULTIPLY, X, whole(6)), &[7], &[42]);
    list.told("multiply, the constant in front", &on(MULTIPLY, whole(6), X), &[7], &[42]);
    list.told("multiply by 0", &on(MULTIPLY, X, whole(0)), &[MOST], &[0]);
    list.told("multiply by 1", &on(MULTIPLY, whole(1), X), &[MOST], &[MOST]);
    list.told("multiply two constants", &on(MULTIPLY, whole(999_999), whole(999_999)), &[], &[0]);
    list.told("divide by 1", &on(DIVIDE, X, whole(1)), &[MOST], &[MOST]);
    list.told("divide evenly", &on(DIVIDE, X, whole(4)), &[8], &[2]);
    list.told("divide, rounded up", &on(DIVIDE, X, whole(4)), &[9], &[3]);
    list.told("divide, rounded up by the most", &on(DIVIDE, X, whole(999_999)), &[1], &[1]);
    list.told("divide what does not move", &on(DIVIDE, X, whole(4)), &[0], &[0]);
    list.told("divide a constant", &on(DIVIDE, whole(9), whole(4)), &[], &[0]);
    list.told("divide the greatest", &on(DIVIDE, X, whole(2)), &[MOST], &[1_073_741_824]);
    list.told("a pair, crosswise", &[X, Y, pair(2, 1)], &[3, 5], &[5, 3]);
    let three = [[1, 31, 0, 0, 0], [1, 3, 0, 0, 0], [1, 17, 0, 0, 0], pair(1, 2), pair(4, 3)];
    list.told("tolerances by rising identifiers", &three, &[3, 17, 31], &[31, 3, 17]);
}

fn bound_names(list: &mut List) {
    list.told("let x = x in x", &[X, X, bind(0, 1, 1, 2)], &[7], &[7]);
    list.told("let x = 5 in x", &[whole(5), X, bind(0, 1, 1, 2)], &[], &[0]);
    let halves = [X, whole(6), pair(1, 2), code(MULTIPLY, 3), X, whole(2), pair(5, 6), code(DIVIDE, 7)];
    list.told("a use above its row c", &[&halves[..], &[bind(0, 1, 8, 4)]].concat(), &[7], &[24]);
    let crossed = [Y, X, pair(1, 2), X, whole(10), pair(4, 5), code(MULTIPLY, 6), Y, pair(7, 8), code(ADD, 9)];
    list.told("let x, y = y, x in x * 10 + y", &[&crossed[..], &[bind(0, 2, 3, 10)]].concat(), &[7, 3], &[37]);
    // let x = x * 2 in (let x = x + x in x / 3) - x: the inner x moves 28, the outer one 14
    let inner = [X, X, pair(1, 2), code(ADD, 3), X, whole(3), pair(5, 6), code(DIVIDE, 7), bind(0, 1, 4, 8)];
    let outer = [X, pair(9, 10), code(SUBTRACT, 11), X, whole(2), pair(13, 14), code(MULTIPLY, 15), bind(0, 1, 16, 12)];
    list.told("a name bound anew within its let", &[&inner[..], &outer].concat(), &[7], &[24]);
    list.told("a sum of a let", &[X, X, pair(1, 2), Y, bind(0, 1, 4, 3), code(ADD, 5)], &[7], &[14]);
    // let y = x in (let x = 1 in x + y): the inner let does not bind y
    let kept = [X, Y, pair(1, 2), code(ADD, 3), whole(1), bind(0, 1, 5, 4), X, bind(1, 1, 7, 6)];
    list.told("a name that an inner let leaves", &kept, &[7], &[7]);
    let names: Vec<Row> = (0..16).map(|name| [1, name, 0, 0, 0]).collect();
    let pairs: Vec<Row> = (0..15).map(|place| pair(if place == 0 { 1 } else { 16 + place }, place + 2)).collect();
    let sixteen = [names, pairs].concat();
    let numbers: Vec<u32> = (1..=16).collect();
    list.told("sixteen results", &sixteen, &numbers, &numbers);
    let again = sixteen.iter().map(|row| if row[0] == 4 { pair(row[1] + 31, row[2] + 31) } else { *row });
    let bound = [sixteen.clone(), again.collect(), vec![bind(0, 16, 31, 62)]].concat();
    list.told("a let of sixteen", &bound, &numbers, &numbers);
}

fn whole_formulas(list: &mut List) {
    list.told("a mean and what is left of three times it", &rows_of(&mean()), &[5, 4, 7], &[22, 5]);
    list.told("200 rows of negations", &rows_of(&negations(200)), &[MOST], &[MOST]);
    // 1,000,000, 750,000, 562,500, .., each three quarters of the one before, rounded up
    list.told("24 lets within each other", &rows_of(&scaled()), &[1_000_000], &[1_005]);
    let sum = |last: u32| [X, pair(last, last + 1), code(ADD, last + 2)];
    let sums = [vec![X], (0..66).flat_map(|place| sum(3 * place + 1)).collect()].concat();
    list.told("67 times x", &sums, &[1_000], &[67_000]);
    // x * 3 / 2 * 3 / 2 ..: each quotient is rounded up
    let part = |last: u32| {
        [
            whole(3),
            pair(last, last + 1),
            code(MULTIPLY, last + 2),
            whole(2),
            pair(last + 3, last + 4),
            code(DIVIDE, last + 5),
        ]
    };
    let parts = [vec![X], (0..4).flat_map(|place| part(6 * place + 1)).collect()].concat();
    list.told("rounded up four times", &parts, &[1], &[8]);
}

/// Numbers of rows at 2,147,483,647 and past it.
fn about_the_greatest(list: &mut List) {
    let half = MOST / 2;
    let sum = on(ADD, X, Y);
    list.told("the greatest tolerance", &[X], &[MOST], &[MOST]);
    list.told("the greatest and 0", &sum, &[MOST, 0], &[MOST]);
    list.past("the greatest and 1", &sum, 2, &encoded(&[MOST, 1]));
    list.past("1 and the greatest", &sum, 2, &encoded(&[1, MOST]));
    list.past("the greatest twice", &on(SUBTRACT, X, X), 1, &encoded(&[MOST]));
    list.told("twice the half", &on(MULTIPLY, X, whole(2)), &[half], &[MOST - 1]);
    list.past("twice one more", &on(MULTIPLY, X, whole(2)), 1, &encoded(&[half + 1]));
    list.told("2,147 times 999,999", &on(MULTIPLY, whole(999_999), X), &[2_147], &[2_146_997_853]);
    list.past("2,148 times 999,999", &on(MULTIPLY, whole(999_999), X), 1, &encoded(&[2_148]));
    list.past("the greatest times 999,999", &on(MULTIPLY, whole(999_999), X), 1, &encoded(&[MOST]));
    let halved = [&on(MULTIPLY, X, whole(2))[..], &[whole(2), pair(4, 5), code(DIVIDE, 6)]].concat();
    list.told("doubled and halved", &halved, &[half], &[half]);
    list.past("doubled too far, and halved", &halved, 1, &encoded(&[half + 1]));
    let nothing = [&on(MULTIPLY, X, whole(2))[..], &[whole(0), pair(4, 5), code(MULTIPLY, 6)]].concat();
    list.told("doubled, times 0", &nothing, &[half], &[0]);
    list.past("doubled too far, times 0", &nothing, 1, &encoded(&[half + 1]));
    // let y = x * 2 in y / 4
    let used = on(DIVIDE, Y, whole(4));
    let bound = [&used[..], &[X, whole(2), pair(5, 6), code(MULTIPLY, 7), bind(1, 1, 8, 4)]].concat();
    list.told("a let's row c", &bound, &[half], &[half / 2 + 1]);
    list.past("a let's row c too far", &bound, 1, &encoded(&[half + 1]));
}

fn other_sorts(list: &mut List) {
    list.other_sort(1, "a truth", &[TRUE], b"\n");
    list.other_sort(1, "a number with a fraction", &[[10, 1_500, 0, 0, 0]], b"\n");
    list.other_sort(1, "an input of kind T", &[X], b"T\n");
    list.other_sort(1, "an input of kind R", &[X, code(NEGATE, 1)], b"R\n");
    list.other_sort(4, "remainder", &on(5, X, whole(7)), b"W\n");
    list.other_sort(4, "less", &on(6, X, whole(7)), b"W\n");
    list.other_sort(4, "equal", &on(7, X, whole(7)), b"W\n");
    list.other_sort(1, "and", &on(8, X, Y), b"TT\n");
    list.other_sort(1, "or", &on(9, X, Y), b"TT\n");
    list.other_sort(1, "not", &[X, code(10, 1)], b"T\n");
    list.other_sort(4, "a product of names", &on(MULTIPLY, X, Y), b"WW\n");
    list.other_sort(
        5,
        "a product with a negated constant",
        &[whole(6), code(NEGATE, 1), X, pair(2, 3), code(MULTIPLY, 4)],
        b"W\n",
    );
    list.other_sort(4, "a divisor that is a name", &on(DIVIDE, X, Y), b"WW\n");
    list.other_sort(4, "a divisor that is 0", &on(DIVIDE, X, whole(0)), b"W\n");
    list.other_sort(4, "0 by 0", &on(DIVIDE, whole(0), whole(0)), b"\n");
    list.other_sort(4, "a constant in front of a divisor", &on(DIVIDE, whole(6), X), b"W\n");
    let let_pair = |number: u32| [X, whole(6), pair(1, 2), X, bind(0, 1, 4, 3), code(number, 5)];
    list.other_sort(6, "a product whose pair stands behind a let", &let_pair(MULTIPLY), b"W\n");
    list.other_sort(6, "a quotient whose pair stands behind a let", &let_pair(DIVIDE), b"W\n");
    let let_constant = [&on(MULTIPLY, X, Y)[..], &[whole(6), bind(1, 1, 5, 4)]].concat();
    list.other_sort(4, "a product with a name for a constant", &let_constant, b"W\n");
    list.other_sort(3, "an if", &[X, X, TRUE, [7, 3, 1, 2, 0]], b"W\n");
    list.other_sort(1, "a sum of floats", &on(ADD, [10, 1, 0, 0, 0], X), b"R\n");
    list.other_sort(4, "the lesser of two", &rows_of(&lesser()), &lesser().kinds);
    list.other_sort(7, "factorial", &rows_of(&factorial()), &factorial().kinds);
    list.other_sort(1, "a loop without end", &rows_of(&endless()), &endless().kinds);
    list.other_sort(1, "range from strength", &rows_of(&range()), &range().kinds);
}

fn rows_of(made: &Made) -> Vec<Row> {
    crate::sheet::rows_of(&made.sheet().lines)
}

/// "lowest row given"
fn lowest_rows(list: &mut List) {
    // if x < 5 then x else x
    let arms_first = [X, X, X, whole(5), pair(3, 4), code(6, 5), [7, 6, 1, 2, 0]];
    list.other_sort(6, "a test behind its arms", &arms_first, b"W\n");
    let both = [X, whole(7), pair(1, 2), code(5, 3), whole(0), pair(4, 5), code(DIVIDE, 6)];
    list.other_sort(4, "two rows of other sorts", &both, b"W\n");
    list.other_sort(1, "a name bound to a truth, above it", &[X, TRUE, bind(0, 1, 2, 1)], b"\n");
    list.other_sort(1, "a name bound to a truth, below it", &[TRUE, X, bind(0, 1, 1, 2)], b"\n");
    list.other_sort(
        2,
        "the second of two names",
        &[X, Y, pair(1, 2), whole(5), TRUE, pair(4, 5), bind(0, 2, 6, 3)],
        b"\n",
    );
    // for x = x do let y = x in if true then iter y else y
    let body = [Y, [9, 1, 0, 0, 0], Y, TRUE, [7, 4, 2, 3, 0], X, bind(1, 1, 6, 5), X];
    list.other_sort(2, "an iter", &[&body[..], &[[8, 0, 1, 8, 7]]].concat(), b"W\n");
    let returned = [X, [5, 11, 1, 0, 0], Y, X, [9, 4, 0, 0, 0], [7, 3, 5, 2, 0], X, [8, 0, 1, 7, 6]];
    list.other_sort(3, "a test within a loop's body", &returned, b"WT\n");
}

fn tolerances_at_fault(list: &mut List) {
    list.past("no tolerance", &[X], 1, &[]);
    list.past("three bytes", &[X], 1, &[0; 3]);
    list.past("five bytes", &[X], 1, &[0; 5]);
    list.past("two tolerances for one input", &[X], 1, &[0; 8]);
    list.past("a tolerance for none", &[whole(5)], 0, &[0; 4]);
    list.past("a byte for none", &[whole(5)], 0, &[0]);
    list.past("one tolerance for two inputs", &on(ADD, X, Y), 2, &[0; 4]);
    list.past("one more than the greatest", &[X], 1, &encoded(&[MOST + 1]));
    list.past("the greatest of 32 bits", &[X], 1, &encoded(&[u32::MAX]));
    list.past("the second out of range", &on(ADD, X, Y), 2, &encoded(&[0, MOST + 1]));
    let nothing = on(MULTIPLY, X, whole(0));
    list.past("out of range, times 0", &nothing, 1, &encoded(&[MOST + 1]));
}

/// 11 before all, 1 to 9, 17, 18 and 10 before 20, 20 before 21.
fn order(list: &mut List) {
    let mut rng = Rng::new(13);
    list.refused(11, 0, "a byte too few", of_wholes(&[X], 1), &encoded(&[7]), ROOM - 1);
    list.refused(11, 0, "room for its one number", of_wholes(&[X], 1), &encoded(&[7]), NUMBER_BYTES);
    list.refused(11, 0, "no memory, and an empty sheet", of_wholes(&[], 0), &[], 0);
    list.refused(1, 0, "an empty sheet", of_wholes(&[], 0), &[0xff], ROOM);
    let more = list.add("a byte more than needed", of_wholes(&[X], 1), &encoded(&[7]), ROOM + 1);
    assert_eq!(more.expected().0, DriftAnswer { refusal: 0, row: 0, results: 1 });
    for number in PLANTABLE {
        let Planted { made, row } = loop {
            let planted = plant(number, &mut rng);
            if planted.row.is_some() && planted.made.bytes.len() <= 60 * ROW_BYTES || matches!(number, 2 | 10) {
                break planted;
            }
        };
        let name = format!("fault {number} before all tolerances");
        list.refused(number, row.expect("a known row"), &name, made, &[0xff; 3], ROOM);
    }
    let kinded = |rows: &[Row], kinds: &[u8]| Made { bytes: write(rows), kinds: kinds.to_vec() };
    list.refused(17, 0, "17 before 20", kinded(&[TRUE], b"W\n"), &[0xff], ROOM);
    list.refused(18, 4, "18 before 20", kinded(&on(ADD, TRUE, X), b"W\n"), &[0xff], ROOM);
    list.refused(10, 0, "10 before 20", of_wholes(&nest(29, 24), 16), &[0xff], ROOM);
    list.refused(20, 4, "20 before 21", of_wholes(&on(MULTIPLY, X, X), 1), &encoded(&[MOST + 1]), ROOM);
}

/// Short ones from a fixed seed; what is said of them is the drift's.
fn random(list: &mut List) {
    let mut rng = Rng::new(2026);
    let mut number = 0;
    while list.0.len() < 140 {
        let (kind, moving) = moving_sheet(number, &mut rng);
        number += 1;
        if moving.made.bytes.len() <= 40 * ROW_BYTES && moving.tolerances.len() <= 200 && moving.made.kinds.len() <= 40
        {
            list.add(&format!("random, {kind}"), moving.made, &moving.tolerances, ROOM);
        }
    }
}

#[cfg(test)]
mod tests {
    use super::*;

    #[test]
    fn what_is_written_by_hand_is_what_the_drift_says() {
        let cases = list();
        let refused = |number| cases.iter().filter(|case| case.expected().0.refusal == number).count();
        assert!(refused(0) > 50 && refused(20) > 30 && refused(21) > 20);
        assert!((1..=11).chain([17, 18]).all(|number| refused(number) >= 1));
    }
}
