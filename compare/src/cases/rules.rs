// The cases of tests 7 to 10, and sheets with two faults. See the list above for how they are held to the reader.

use super::{factorial, lesser, with, List, Rows};
use crate::sheet::write;

/// So many values, identifiers from 0 on, as pairs.
fn tuple(width: u32) -> Rows {
    let mut rows: Rows = vec![[1, 0, 0, 0, 0]];
    for name in 1..width {
        let before = rows.len() as u32;
        rows.push([1, name, 0, 0, 0]);
        rows.push([4, before, before + 1, 0, 0]);
    }
    rows
}

/// Two columns of rows with the second's names moved up, so that a row can name both.
fn beside(mut first: Rows, second: Rows) -> Rows {
    let by = first.len() as u32;
    first.extend(second.into_iter().map(|[kind, a, b, c, d]| match kind {
        4 => [4, a + by, b + by, 0, 0],
        5 => [5, a, b + by, 0, 0],
        6 | 8 => [kind, a, b, c + by, d + by],
        7 => [7, a + by, b + by, c + by, 0],
        9 => [9, a + by, 0, 0, 0],
        _ => [kind, a, b, c, d],
    }));
    first
}

pub fn iters(list: &mut List) {
    list.refused(7, 2, "iter as the formula", write(&[[2, 1, 0, 0, 0], [9, 1, 0, 0, 0]]));
    let x = [1, 0, 0, 0, 0];
    let iter = [9, 1, 0, 0, 0];
    list.refused(7, 2, "iter in an operand", write(&[x, iter, [5, 11, 2, 0, 0]]));
    list.refused(7, 2, "iter in a pair", write(&[x, iter, x, [4, 3, 2, 0, 0]]));
    list.refused(7, 2, "iter in row c of a let", write(&[x, iter, x, [6, 0, 1, 2, 3]]));
    list.refused(7, 2, "iter in row d of an expression's let", write(&[x, iter, x, [6, 0, 1, 3, 2]]));
    list.refused(7, 2, "iter in row c of a for", write(&[x, iter, x, [8, 0, 1, 2, 3]]));
    list.refused(7, 2, "iter in the test of an if", write(&[x, iter, x, x, [7, 2, 3, 4, 0]]));
    list.refused(7, 2, "iter in an arm of an expression's if", write(&[x, iter, x, x, [7, 3, 4, 2, 0]]));
    list.refused(7, 17, "iter in an iter, in a body", {
        let mut rows = factorial();
        rows.splice(17..20, [[9, 17, 0, 0, 0], [1, 1, 0, 0, 0], [7, 7, 18, 19, 0], [8, 0, 2, 3, 20]]);
        write(&rows)
    });
    list.refused(7, 2, "iter in the test of a body's if", {
        write(&[x, iter, x, x, [9, 4, 0, 0, 0], [7, 2, 3, 5, 0], x, [8, 0, 1, 7, 6]])
    });
    list.refused(7, 2, "iter in row c of a body's let", write(&[x, iter, x, [6, 0, 1, 2, 3], x, [8, 0, 1, 5, 4]]));
    // for x = x do if x then let y = x in iter y else x: T, F, E, FM, FS and IC, 8 gates, 2 constants, 8 copies.
    let bound = [x, x, x, [1, 1, 0, 0, 0], [9, 4, 0, 0, 0], [6, 1, 1, 3, 5], x, [7, 2, 6, 7, 0], [8, 0, 1, 1, 8]];
    list.accepted([9, 18, 1, 1], "iter in row d of a body's let", write(&bound), "T");
    list.refused(7, 2, "iter in a returned pair of a body", write(&[x, iter, x, [4, 2, 3, 0, 0], x, [8, 0, 1, 5, 4]]));
}

pub fn widths(list: &mut List) {
    list.accepted([31, 0, 16, 16], "sixteen values", write(&tuple(16)), &"W".repeat(16));
    list.refused(8, 33, "seventeen values", write(&tuple(17)));
    let mut halves = beside(tuple(8), tuple(9));
    halves.push([4, 15, 32, 0, 0]);
    list.refused(8, 33, "eight and nine values", write(&halves));
    for (code, width) in [(1, 1), (9, 3), (10, 2), (11, 2), (7, 16), (11, 16)] {
        let mut rows = tuple(width);
        let last = rows.len() as u32;
        rows.push([5, code, last, 0, 0]);
        list.refused(8, last + 1, &format!("code {code} of {width} values"), write(&rows));
    }
    let (x, y) = ([1, 0, 0, 0, 0], [1, 1, 0, 0, 0]);
    let pair = [4, 1, 2, 0, 0];
    list.refused(8, 6, "a test of two values", write(&[x, x, pair, x, x, [7, 3, 4, 5, 0]]));
    list.refused(8, 6, "unequal arms of an expression's if", write(&[x, x, pair, x, x, [7, 4, 3, 5, 0]]));
    list.refused(8, 5, "a let of one identifier to two values", write(&[x, x, pair, x, [6, 0, 1, 3, 4]]));
    list.refused(8, 3, "a let of two identifiers to one value", write(&[x, x, [6, 0, 2, 1, 2]]));
    list.refused(8, 3, "a for whose body only returns", write(&[x, x, [8, 0, 1, 1, 2]]));
    list.refused(8, 4, "a for whose body only iterates", write(&[x, x, [9, 2, 0, 0, 0], [8, 0, 1, 1, 3]]));
    let endless = [x, x, x, [9, 3, 0, 0, 0], x, [9, 5, 0, 0, 0], [7, 2, 4, 6, 0], [8, 0, 1, 1, 7]];
    list.refused(8, 8, "a for whose body is an if of two iters", write(&endless));
    let started = [x, y, pair, [9, 3, 0, 0, 0], x, x, [7, 5, 4, 6, 0], x, [8, 0, 2, 8, 7]];
    list.refused(8, 9, "a for of 2 identifiers started from 1 value", write(&started));
    let iterated = [x, y, pair, x, x, [9, 5, 0, 0, 0], y, [7, 4, 6, 7, 0], [8, 0, 2, 3, 8]];
    list.refused(8, 9, "a for of 2 identifiers with 1 iterated value", write(&iterated));
    body_arms(list);
}

fn body_arms(list: &mut List) {
    let x = [1, 0, 0, 0, 0];
    // for x = x do if x then iter x else iter x, x
    let iters = [x, x, x, [9, 3, 0, 0, 0], x, x, [4, 5, 6, 0, 0], [9, 7, 0, 0, 0], [7, 2, 4, 8, 0], [8, 0, 1, 1, 9]];
    list.refused(8, 9, "body arms that iterate 1 and 2 values", write(&iters));
    // for x = x do if x then x else x, x
    let returns = [x, x, x, x, x, [4, 4, 5, 0, 0], [7, 2, 3, 6, 0], [8, 0, 1, 1, 7]];
    list.refused(8, 7, "body arms that return 1 and 2 values", write(&returns));
    // for x = x do if x then iter x else (if x then x else x, x)
    let nested =
        [x, x, x, [9, 3, 0, 0, 0], x, x, x, x, [4, 7, 8, 0, 0], [7, 5, 6, 9, 0], [7, 2, 4, 10, 0], [8, 0, 1, 1, 11]];
    list.refused(8, 10, "inner body arms that return 1 and 2 values", write(&nested));
    // for x = x do if x then iter x else x, x: the arms have no width in common.
    let apart = [x, x, x, [9, 3, 0, 0, 0], x, x, [4, 5, 6, 0, 0], [7, 2, 4, 7, 0], [8, 0, 1, 1, 8]];
    list.accepted([9, 21, 1, 2], "body arms that iterate 1 and return 2 values", write(&apart), "T");
    let test = [x, x, x, [4, 2, 3, 0, 0], x, [9, 5, 0, 0, 0], x, [7, 4, 6, 7, 0], [8, 0, 1, 1, 8]];
    list.refused(8, 8, "a test of two values in a body", write(&test));
}

pub fn bound_names(list: &mut List) {
    let one = [2, 1, 0, 0, 0];
    let x = [1, 0, 0, 0, 0];
    list.refused(9, 3, "let x = 1 in 2", write(&[one, [2, 2, 0, 0, 0], [6, 0, 1, 1, 2]]));
    list.refused(9, 3, "let x = x in 2", write(&[x, one, [6, 0, 1, 1, 2]]));
    list.refused(9, 5, "let x, y = 1, 1 in x", write(&[one, one, [4, 1, 2, 0, 0], x, [6, 0, 2, 3, 4]]));
    let inner = [one, one, x, [6, 0, 1, 2, 3], [6, 0, 1, 1, 4]];
    list.refused(9, 5, "let x = 1 in let x = 1 in x", write(&inner));
    list.refused(9, 20, "a for that binds 3, 4 over a body of 0, 1", with(&factorial(), 20, [8, 3, 2, 3, 19]));
    list.refused(9, 20, "a for that binds 1, 2 over a body of 0, 1", with(&factorial(), 20, [8, 1, 2, 3, 19]));
    // for x = x do if x then iter true else let x = 1 in x: x is free in the test.
    let shadow = [x, x, [3, 1, 0, 0, 0], [9, 3, 0, 0, 0], one, x, [6, 0, 1, 5, 6], [7, 2, 4, 7, 0], [8, 0, 1, 1, 8]];
    list.accepted([9, 16, 1, 1], "a body's let that rebinds the loop's identifier", write(&shadow), "T");
}

/// Sixteen identifiers added, negated so many times, then within so many ifs "if true then .. else 0".
/// Operators: 15 and the negations; the first if 38; each further one 41, as trigger is then free in its arm.
pub fn nest(negations: u32, ifs: u32) -> Rows {
    let mut rows: Rows = vec![[1, 0, 0, 0, 0]];
    for name in 1..16 {
        let before = rows.len() as u32;
        rows.extend([[1, name, 0, 0, 0], [4, before, before + 1, 0, 0], [5, 1, before + 2, 0, 0]]);
    }
    for _ in 0..negations {
        rows.push([5, 11, rows.len() as u32, 0, 0]);
    }
    for _ in 0..ifs {
        let before = rows.len() as u32;
        rows.extend([[3, 1, 0, 0, 0], [2, 0, 0, 0, 0], [7, before + 1, before, before + 2, 0]]);
    }
    rows
}

pub fn operators(list: &mut List) {
    list.accepted([49, 53, 16, 1], "one if over sixteen names", write(&nest(0, 1)), &"W".repeat(16));
    list.accepted([146, 1024, 16, 1], "exactly 1,024 operators", write(&nest(28, 24)), &"W".repeat(16));
    list.refused(10, 0, "1,025 operators", write(&nest(29, 24)));
    list.refused(10, 0, "far more than 1,024 operators", write(&nest(0, 51)));
    let mut rows = nest(28, 24);
    rows.extend([[2, 1, 0, 0, 0], [6, 20, 1, 147, 146]]);
    list.refused(9, 148, "over 1,024 operators and a bound identifier that is not free", write(&rows));
}

/// The fault with the higher number stands on the lower row.
pub fn two_faults(list: &mut List) {
    let mut rows = lesser();
    rows[0] = [11, 0, 0, 0, 0];
    let mut bytes = write(&rows);
    bytes[31 * 5 + 5] = b'x';
    list.refused(3, 6, "kind 11 in row 1, a malformed field in row 6", bytes);
    let mut rows = lesser();
    rows[2] = [4, 1, 7, 0, 0];
    rows[5] = [1, 32, 0, 0, 0];
    list.refused(4, 6, "a later row named in row 3, identifier 32 in row 6", write(&rows));
    let mut rows = lesser();
    rows[2] = [4, 1, 1, 0, 0];
    rows[6] = [7, 4, 5, 7, 0];
    list.refused(5, 7, "row 1 named twice, row 7 names itself", write(&rows));
    let x = [1, 0, 0, 0, 0];
    let rows = [x, [9, 1, 0, 0, 0], [5, 11, 2, 0, 0], x, x, [4, 3, 5, 0, 0]];
    list.refused(6, 4, "iter in an operand in row 2, row 4 never named", write(&rows));
    let rows = [x, [5, 1, 1, 0, 0], x, [9, 3, 0, 0, 0], [4, 2, 4, 0, 0]];
    list.refused(7, 4, "an operator of one value in row 2, iter in a pair in row 4", write(&rows));
    let rows = [[2, 1, 0, 0, 0], [2, 2, 0, 0, 0], [6, 0, 1, 1, 2], [5, 1, 3, 0, 0]];
    list.refused(8, 4, "a bound identifier not free in row 3, an operator of one value in row 4", write(&rows));
    let mut bytes = write(&lesser());
    bytes[0] = b'x';
    bytes.truncate(bytes.len() - 1);
    list.refused(1, 0, "a malformed field in row 1, the last line feed missing", bytes);
    let rows = [x, [9, 1, 0, 0, 0], [5, 11, 2, 0, 0], x, [9, 4, 0, 0, 0], [4, 3, 5, 0, 0]];
    list.refused(7, 2, "iter in rows 2 and 5", write(&rows));
    let rows = [x, [5, 1, 1, 0, 0], [5, 2, 2, 0, 0]];
    list.refused(8, 2, "an operator of one value in rows 2 and 3", write(&rows));
}
