// The sheets that are timed, each with its kinds line: document 01's worked examples, one of floats, two that drift is told for, a long sheet, and one near the
// greatest number of operators.

use crate::bytes;
use crate::random::{heavy_loopless_sheet_of_wholes, heavy_sheet_of_wholes, Made, Rng};
use crate::sheet::write;

fn made(rows: &[[u32; 5]], kinds: &[u8]) -> Made {
    Made { bytes: write(rows), kinds: kinds.to_vec() }
}

pub fn lesser() -> Made {
    let names = [[1, 0, 0, 0, 0], [1, 1, 0, 0, 0]];
    let rows = [names[0], names[1], [4, 1, 2, 0, 0], [5, 6, 3, 0, 0], names[0], names[1], [7, 4, 5, 6, 0]];
    made(&rows, b"WW\n")
}

/// "for i, y = n, 1 do if 1 < i then iter i - 1, y * i else y".
pub fn factorial() -> Made {
    let (i, y, n, one) = ([1, 0, 0, 0, 0], [1, 1, 0, 0, 0], [1, 2, 0, 0, 0], [2, 1, 0, 0, 0]);
    let start = [n, one, [4, 1, 2, 0, 0], one, i, [4, 4, 5, 0, 0], [5, 6, 6, 0, 0]];
    let next = [i, one, [4, 8, 9, 0, 0], [5, 2, 10, 0, 0], y, i, [4, 12, 13, 0, 0], [5, 3, 14, 0, 0]];
    let end = [[4, 11, 15, 0, 0], [9, 16, 0, 0, 0], y, [7, 7, 17, 18, 0], [8, 0, 2, 3, 19]];
    made(&[&start[..], &next[..], &end[..]].concat(), b"W\n")
}

/// "not not (for x = x do if x then iter x else x)": a false ends at once, a true never does.
pub fn endless() -> Made {
    let x = [1, 0, 0, 0, 0];
    let looped = [x, x, x, [9, 3, 0, 0, 0], x, [7, 2, 4, 5, 0], [8, 0, 1, 1, 6]];
    made(&[&looped[..], &[[5, 10, 7, 0, 0], [5, 10, 8, 0, 0]]].concat(), b"T\n")
}

/// Range from strength: with s and n as 0 and 1, "if n < s then 42.195 / (s * s) else 999.999".
pub fn range() -> Made {
    let (s, n) = ([1, 0, 0, 0, 0], [1, 1, 0, 0, 0]);
    let test = [n, s, [4, 1, 2, 0, 0], [5, 6, 3, 0, 0]];
    let near = [[10, 42_195, 0, 0, 0], s, s, [4, 6, 7, 0, 0], [5, 3, 8, 0, 0], [4, 5, 9, 0, 0], [5, 4, 10, 0, 0]];
    let end = [[10, 999_999, 0, 0, 0], [7, 4, 11, 12, 0]];
    made(&[&test[..], &near[..], &end[..]].concat(), b"RR\n")
}

/// A mean, and what is left of three times it: with x, y, z and m as 0 to 3, "let m = (x + y) / 2 in m * 3 - z, m".
pub fn mean() -> Made {
    let (m, three, two) = ([1, 3, 0, 0, 0], [2, 3, 0, 0, 0], [2, 2, 0, 0, 0]);
    let rest = [m, three, [4, 1, 2, 0, 0], [5, 3, 3, 0, 0], [1, 2, 0, 0, 0], [4, 4, 5, 0, 0], [5, 2, 6, 0, 0]];
    let results = [m, [4, 7, 8, 0, 0]];
    let sum = [[1, 0, 0, 0, 0], [1, 1, 0, 0, 0], [4, 10, 11, 0, 0], [5, 1, 12, 0, 0]];
    let half = [two, [4, 13, 14, 0, 0], [5, 4, 15, 0, 0], [6, 3, 1, 16, 9]];
    made(&[&rest[..], &results, &sum, &half].concat(), b"WWW\n")
}

/// "let x = x * 3 / 4 in let x = x * 3 / 4 in .. in -x", in 200 rows.
pub fn scaled() -> Made {
    const LETS: u32 = 24;
    let (x, three, four) = ([1, 0, 0, 0, 0], [2, 3, 0, 0, 0], [2, 4, 0, 0, 0]);
    let mut rows = vec![x];
    rows.extend((1..8).map(|row| [5, 11, row, 0, 0]));
    for _ in 0..LETS {
        let last = rows.len() as u32;
        let product = [x, three, [4, last + 1, last + 2, 0, 0], [5, 3, last + 3, 0, 0]];
        let quotient = [four, [4, last + 4, last + 5, 0, 0], [5, 4, last + 6, 0, 0]];
        rows.extend([&product[..], &quotient, &[[6, 0, 1, last + 7, last]]].concat());
    }
    made(&rows, b"W\n")
}

/// "let x = ((a + 1) + 1) + 1 in if t then 1 else x", with a, t and x as 0 to 2.
pub fn slow_sum() -> Made {
    let one = [2, 1, 0, 0, 0];
    let sum = |row: u32| [one, [4, row, row + 1, 0, 0], [5, 1, row + 2, 0, 0]];
    let choice = [[1, 1, 0, 0, 0], one, [1, 2, 0, 0, 0], [7, 11, 12, 13, 0], [6, 2, 1, 10, 14]];
    let rows = [&[[1, 0, 0, 0, 0]][..], &sum(1), &sum(4), &sum(7), &choice].concat();
    made(&rows, b"WT\n")
}

/// A name, negated again and again.
pub fn negations(rows: u32) -> Made {
    let row = |row| if row == 1 { [1, 0, 0, 0, 0] } else { [5, 11, row - 1, 0, 0] };
    made(&(1..=rows).map(row).collect::<Vec<_>>(), b"W\n")
}

/// A name, negated again and again, where before each row stands a dead one that names the row before it: as many dead rows as live ones.
pub fn half_dead(rows: u32) -> Made {
    let row = |row| if row <= 2 { [1, 0, 0, 0, 0] } else { [5, 11, row - 1 - (row + 1) % 2, 0, 0] };
    made(&(1..=rows).map(row).collect::<Vec<_>>(), b"W\n")
}

/// A sheet with over 1,000 operators.
pub fn many_operators(rng: &mut Rng) -> Made {
    with_many_operators(heavy_sheet_of_wholes, rng)
}

/// Such a sheet without a for.
pub fn many_loopless_operators(rng: &mut Rng) -> Made {
    with_many_operators(heavy_loopless_sheet_of_wholes, rng)
}

fn with_many_operators(random: fn(&mut Rng) -> Made, rng: &mut Rng) -> Made {
    loop {
        let made = random(rng);
        if bytes::read(&made.bytes, &made.kinds).operators > 1000 {
            return made;
        }
    }
}
