// The next small sheet (document 02, Job 14) as a plain program looks for it, without a list: rows are counted up like an odometer's wheels, the last one first.
// A row that names others wrongly is passed over at once; everything else is left to the reader, for a whole sheet. It is there to be timed.

use crate::random::faults::naming_fields;
use crate::sheet::{input_names, read_lines, rows_of, write, ROW_BYTES};
use crate::small::{is_small, NextAnswer, MOST_ROWS, ROOM};

type Row = [u32; 5];

/// The rows that a small sheet can have, rising: what each wheel goes through.
pub struct Odometer(Vec<Row>);

impl Odometer {
    pub fn new() -> Odometer {
        let row = |fields: u32| [fields / 1500, fields / 125 % 12, fields / 25 % 5, fields / 5 % 5, fields % 5];
        Odometer((0..10 * 1500).map(row).filter(can_stand).collect())
    }

    /// As `SmallSheets::next`.
    pub fn next(&self, sheet: &[u8], out: &mut [u8]) -> NextAnswer {
        let refused = |refusal| NextAnswer { refusal, row: 0, rows: 0 };
        if out.len() < ROOM {
            return refused(11);
        }
        if !sheet.is_empty() && !is_small(sheet) {
            return refused(22);
        }
        match self.behind(sheet) {
            None => refused(23),
            Some(rows) => {
                out[..ROW_BYTES * rows.len()].copy_from_slice(&write(&rows));
                NextAnswer { refusal: 0, row: 0, rows: rows.len() as u32 }
            }
        }
    }

    fn behind(&self, sheet: &[u8]) -> Option<Vec<Row>> {
        let mut rows = read_lines(sheet).map(|lines| rows_of(&lines)).unwrap_or_default();
        let length = rows.len();
        while let Some(row) = rows.pop() {
            let place = self.0.binary_search(&row).expect("a small sheet's row");
            let named = rows.iter().fold(0, |named, row| named | names(row));
            if self.first(&mut rows, named, length, place + 1) {
                return Some(rows);
            }
        }
        (length + 1..=MOST_ROWS).find(|&longer| self.first(&mut rows, 0, longer, 0)).map(|_| rows)
    }

    /// Goes on to so many rows, the next of them at this place or behind it; where none will do, the rows are as before. A bit is set for each row named.
    fn first(&self, rows: &mut Vec<Row>, named: u32, length: usize, start: usize) -> bool {
        if rows.len() == length {
            return input_names(&write(rows)).is_ok();
        }
        for row in &self.0[start..] {
            let (before, own) = ((1 << rows.len()) - 1, names(row));
            let once = own.count_ones() as usize == naming_fields(row[0]).len() && own & (named | !before) == 0;
            // The last row leaves none unnamed.
            if once && (rows.len() + 1 < length || named | own == before) {
                rows.push(*row);
                if self.first(rows, named | own, length, 0) {
                    return true;
                }
                rows.pop();
            }
        }
        false
    }
}

/// Whether a row's kind, code, identifiers and constant are a small sheet's, and the rows that it names are 1 to 4.
fn can_stand(row: &Row) -> bool {
    let names_well = naming_fields(row[0]).iter().all(|&field| (1..MOST_ROWS as u32).contains(&row[field]));
    let fits = match row[0] {
        1..=3 => row[1] <= 1 && row[2..] == [0, 0, 0],
        4 => row[3..] == [0, 0],
        5 => (1..=11).contains(&row[1]) && row[3..] == [0, 0],
        6 | 8 => row[2] >= 1 && row[1] + row[2] <= 2,
        7 => row[4] == 0,
        9 => row[2..] == [0, 0, 0],
        _ => false,
    };
    names_well && fits
}

/// The rows that a row names.
fn names(row: &Row) -> u32 {
    naming_fields(row[0]).iter().fold(0, |named, &field| named | 1 << (row[field] - 1))
}

#[cfg(test)]
mod tests {
    use super::*;
    use crate::small::SmallSheets;

    #[test]
    fn it_finds_the_same_list() {
        let (sheets, odometer) = (SmallSheets::all(), Odometer::new());
        assert_eq!(odometer.0.len(), 230);
        let mut given = Vec::new();
        for sheet in sheets.list() {
            let mut out = [0; ROOM];
            let answer = odometer.next(&given, &mut out);
            given = out[..ROW_BYTES * answer.rows as usize].to_vec();
            assert!(answer.refusal == 0 && given == *sheet);
        }
        assert_eq!(odometer.next(&given, &mut [0; ROOM]).refusal, 23);
    }
}
