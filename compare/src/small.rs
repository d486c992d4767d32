// All small sheets (document 02, Job 14), and the call for the next one. They are made from formulas: every tree of up to five parts, laid out in every order
// of rows in which the parts of a part stand before it. Each row but the last is then named once, by one field, so that no other sheet can pass tests 5 and 6;
// whether these pass 1 to 9 is the reader's to say. Nothing here knows where a small sheet's neighbour is: the list is sorted afterwards.

use crate::random::faults::naming_fields;
use crate::sheet::{input_names, read_lines, rows_of, write, ROW_BYTES};
use crate::value::CODES;

/// What `bench_next` answers.
#[repr(C)]
#[derive(Clone, Copy, PartialEq, Eq, Debug, Default)]
pub struct NextAnswer {
    pub refusal: u32,
    pub row: u32,
    pub rows: u32,
}

/// "with at most 5 rows".
pub const MOST_ROWS: usize = 5;

/// The memory that the call needs, whatever is handed in.
pub const ROOM: usize = MOST_ROWS * ROW_BYTES;

/// All small sheets, in their order.
pub struct SmallSheets(Vec<Vec<u8>>);

impl SmallSheets {
    /// "passes tests 1 to 9, kinds lines left aside".
    pub fn all() -> SmallSheets {
        let mut sheets = Vec::new();
        each_formula(&mut |rows| {
            let bytes = write(rows);
            if input_names(&bytes).is_ok() {
                sheets.push(bytes);
            }
        });
        sheets.sort_by(|one, other| order(one, other));
        SmallSheets(sheets)
    }

    pub fn list(&self) -> &[Vec<u8>] {
        &self.0
    }

    /// The place of a sheet in the list.
    pub fn find(&self, sheet: &[u8]) -> Option<usize> {
        self.0.binary_search_by(|one| order(one, sheet)).ok()
    }

    /// Refusals in the order 11, 22, 23; `out` is written on acceptance only, from its start, as far as the next sheet goes.
    pub fn next(&self, sheet: &[u8], out: &mut [u8]) -> NextAnswer {
        let refused = |refusal| NextAnswer { refusal, row: 0, rows: 0 };
        if out.len() < ROOM {
            return refused(11);
        }
        // "Starting from an empty memory"
        let place = if sheet.is_empty() { Some(0) } else { self.find(sheet).map(|place| place + 1) };
        match place {
            None => refused(22),
            Some(place) if place == self.0.len() => refused(23),
            Some(place) => {
                let next = &self.0[place];
                out[..next.len()].copy_from_slice(next);
                NextAnswer { refusal: 0, row: 0, rows: (next.len() / ROW_BYTES) as u32 }
            }
        }
    }
}

/// The same of one sheet, looked at by itself.
pub fn is_small(sheet: &[u8]) -> bool {
    let modest = |&[kind, a, b, ..]: &[u32; 5]| match kind {
        1..=3 => a <= 1,
        6 | 8 => a + b <= 2,
        _ => kind <= 9,
    };
    let rows = read_lines(sheet).map(|lines| rows_of(&lines)).unwrap_or_default();
    input_names(sheet).is_ok() && rows.len() <= MOST_ROWS && rows.iter().all(modest)
}

/// "Fewer rows come first, then rising bytes."
pub fn order(one: &[u8], other: &[u8]) -> std::cmp::Ordering {
    (one.len(), one).cmp(&(other.len(), other))
}

/// FNV-1a of 64 bits over the bytes of sheets one behind the other.
#[derive(Clone, Copy, PartialEq, Eq, Debug)]
pub struct Digest(pub u64);

impl Digest {
    pub const EMPTY: Digest = Digest(0xcbf2_9ce4_8422_2325);

    pub fn with(self, bytes: &[u8]) -> Digest {
        Digest(bytes.iter().fold(self.0, |sum, &byte| (sum ^ u64::from(byte)).wrapping_mul(0x0100_0000_01b3)))
    }
}

type Rows = Vec<[u32; 5]>;

/// "row kinds 1 to 9, identifiers and constants 0 and 1, and any code": the rows that name so many others, with 0 for each row named.
fn parts(tops: usize) -> Rows {
    let leaves = (1..=3).flat_map(|kind| [[kind, 0, 0, 0, 0], [kind, 1, 0, 0, 0]]);
    let operators = CODES.map(|code| [5, code, 0, 0, 0]);
    // The identifiers a to a+b-1 of a let or for are 0, 1 or both.
    let bindings = [6, 8].into_iter().flat_map(|kind| [(0, 1), (0, 2), (1, 1)].map(|(a, b)| [kind, a, b, 0, 0]));
    let others = [[4, 0, 0, 0, 0], [7, 0, 0, 0, 0], [9, 0, 0, 0, 0]];
    let all = leaves.chain(operators).chain(bindings).chain(others);
    all.filter(|row| naming_fields(row[0]).len() == tops).collect()
}

/// Rows in which some stand for themselves: every other row is named once, by one of these or by a row of theirs.
struct Forest {
    rows: Rows,
    /// The numbers of the rows that nobody names, in the order in which they are to be named.
    tops: Vec<u32>,
}

/// Hands over every formula of up to five rows, each once.
fn each_formula(found: &mut dyn FnMut(&[[u32; 5]])) {
    let mut smaller: Vec<Vec<Forest>> = vec![Vec::new()];
    for size in 1..=MOST_ROWS {
        let mut formulas = Vec::new();
        for tops in 0..=3 {
            let last = parts(tops);
            each_forest(tops, size - 1, &smaller, &mut |forest| {
                let mut rows = forest.rows.clone();
                rows.push([0; 5]);
                for &row in &last {
                    rows[size - 1] = naming(row, &forest.tops);
                    found(&rows);
                    if size < MOST_ROWS {
                        formulas.push(Forest { rows: rows.clone(), tops: vec![size as u32] });
                    }
                }
            });
        }
        smaller.push(formulas);
    }
}

/// A row with these rows named.
fn naming(mut row: [u32; 5], tops: &[u32]) -> [u32; 5] {
    naming_fields(row[0]).iter().zip(tops).for_each(|(&field, &top)| row[field] = top);
    row
}

/// So many formulas side by side, of so many rows in all, in every order of their rows.
fn each_forest(tops: usize, size: usize, smaller: &[Vec<Forest>], found: &mut dyn FnMut(&Forest)) {
    if tops == 0 {
        if size == 0 {
            found(&Forest { rows: Vec::new(), tops: Vec::new() });
        }
        return;
    }
    for first in 1..=size {
        each_forest(tops - 1, size - first, smaller, &mut |others| {
            for formula in &smaller[first] {
                for places in (0u32..1 << size).filter(|places| places.count_ones() as usize == first) {
                    found(&shuffled(formula, others, places));
                }
            }
        });
    }
}

/// The rows of both, those of the first at the places with a 1.
fn shuffled(first: &Forest, second: &Forest, places: u32) -> Forest {
    let size = (first.rows.len() + second.rows.len()) as u32;
    let numbers = |bit| (0..size).filter(move |place| places >> place & 1 == bit).map(|place| place + 1);
    let mut rows = vec![[0; 5]; size as usize];
    let mut tops = Vec::new();
    for (part, numbers) in [(first, numbers(1).collect::<Vec<_>>()), (second, numbers(0).collect())] {
        let new = |old: u32| numbers[old as usize - 1];
        for (mut row, &number) in part.rows.iter().copied().zip(&numbers) {
            naming_fields(row[0]).iter().for_each(|&field| row[field] = new(row[field]));
            rows[number as usize - 1] = row;
        }
        tops.extend(part.tops.iter().map(|&top| new(top)));
    }
    Forest { rows, tops }
}

#[cfg(test)]
mod tests {
    use super::*;

    #[test]
    fn they_rise_and_each_is_there_once() {
        let sheets = SmallSheets::all();
        let rows = |sheet: &Vec<u8>| sheet.len() / ROW_BYTES;
        let count = |number| sheets.list().iter().filter(|sheet| rows(sheet) == number).count();
        assert_eq!([1, 2, 3, 4, 5].map(count), [6, 12, 120, 2_616, 32_544]);
        assert!(sheets.list().windows(2).all(|pair| order(&pair[0], &pair[1]).is_lt()));
        let digest = |most| {
            sheets.list().iter().filter(|sheet| rows(sheet) <= most).fold(Digest::EMPTY, |sum, sheet| sum.with(sheet)).0
        };
        assert_eq!(
            [1, 2, 3, 4, 5].map(digest),
            [0x2c84458088fe3288, 0xd927e9ff42bc4ffc, 0x8747bcc61988521a, 0x5f3a894931b9c0e2, 0x16cc112cb3f28a12]
        );
        assert_eq!(sheets.list()[0], write(&[[1, 0, 0, 0, 0]]));
        assert_eq!(sheets.list()[6], write(&[[1, 0, 0, 0, 0], [5, 10, 1, 0, 0]]));
        let last = [[3, 1, 0, 0, 0], [5, 11, 1, 0, 0], [5, 11, 2, 0, 0], [5, 11, 3, 0, 0], [5, 11, 4, 0, 0]];
        assert_eq!(sheets.list()[35_297], write(&last));
    }

    #[test]
    fn the_next_one_is_written_or_refused() {
        let sheets = SmallSheets::all();
        let answer = |refusal, rows| NextAnswer { refusal, row: 0, rows };
        let next = |sheet: &[u8], room: usize| {
            let mut out = vec![0xa5; room];
            let answer = sheets.next(sheet, &mut out);
            assert!(out[ROW_BYTES * answer.rows as usize..].iter().all(|&byte| byte == 0xa5));
            (answer, out)
        };
        let (told, out) = next(b"", ROOM);
        assert_eq!((told, &out[..ROW_BYTES]), (answer(0, 1), &sheets.list()[0][..]));
        assert_eq!(next(&sheets.list()[5], ROOM).0, answer(0, 2));
        assert_eq!(next(&sheets.list()[35_297], ROOM).0, answer(23, 0));
        assert_eq!(next(b"\n", ROOM).0, answer(22, 0));
        assert_eq!(next(&write(&[[1, 2, 0, 0, 0]]), ROOM + 9).0, answer(22, 0));
        assert_eq!(next(b"\n", ROOM - 1).0, answer(11, 0));
    }
}
