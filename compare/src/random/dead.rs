// Sheets to be tidied: dead rows between those of an accepted sheet, names doubled, rows that name any before them, and tests 1 to 5 broken in such rows.

use super::faults::{naming_fields, plant_in_rows};
use super::lines::likely_line;
use super::sheets::{accepted_sheet, loose_row, loose_sheet, Made, NAMED};
use super::turns::random_sheet;
use super::{mutate, Rng};
use crate::sheet::{self, MOST_ROWS};
use crate::tidy::TidyAnswer;

type Rows = Vec<[u32; 5]>;

/// A sheet, a kinds line for what is left of it and, where the way it was made tells it, how it is tidied.
pub struct Littered {
    pub made: Made,
    pub known: Option<(TidyAnswer, Vec<u8>)>,
}

/// The kinds of cases by turns.
pub fn littered_sheet(number: u64, rng: &mut Rng) -> (String, Littered) {
    let open = |made| Littered { made, known: None };
    match number % 12 {
        0..=3 => ("dead rows between".into(), with_dead_rows(rng)),
        4 | 5 => ("names doubled".into(), open(with_doubled_names(rng))),
        6 => ("rows that name any before".into(), open(any_rows(rng))),
        7 | 8 => with_fault(rng),
        9 => ("altered bytes".into(), open(with_altered_bytes(rng))),
        turn => {
            let (_, made) = random_sheet(number / 12 * 2 + turn - 10, rng);
            ("sheets as they are read".into(), open(made))
        }
    }
}

/// An accepted sheet with dead rows between its own: what is left is that sheet.
pub fn with_dead_rows(rng: &mut Rng) -> Littered {
    let live = loop {
        let made = accepted_sheet(rng);
        if made.bytes.len() < MOST_ROWS * sheet::ROW_BYTES || rng.chance(10) {
            break made;
        }
    };
    let rows = between(&rows_of(&live), rng);
    let answer = TidyAnswer { refusal: 0, row: 0, rows: rows_of(&live).len() as u32 };
    Littered { made: Made { bytes: sheet::write(&rows), kinds: live.kinds }, known: Some((answer, live.bytes)) }
}

fn rows_of(made: &Made) -> Rows {
    sheet::rows_of(&sheet::read_lines(&made.bytes).expect("tests 1 to 5 pass"))
}

/// Rows of a formula that go, in their order, into a sheet with others between them.
struct Part {
    rows: Rows,
    /// The numbers in the sheet of those that went in.
    numbers: Vec<u32>,
}

impl Part {
    fn new(rows: Rows) -> Part {
        Part { rows, numbers: Vec::new() }
    }

    fn left(&self) -> usize {
        self.rows.len() - self.numbers.len()
    }

    /// The next row, which gets this number.
    fn next(&mut self, number: u32) -> [u32; 5] {
        let mut row = self.rows[self.numbers.len()];
        naming_fields(row[0]).iter().for_each(|&field| row[field] = self.numbers[row[field] as usize - 1]);
        self.numbers.push(number);
        row
    }
}

/// These rows with dead ones between them: whole parts, of which no row names a live one, and single rows, which name any.
fn between(live: &[[u32; 5]], rng: &mut Rng) -> Rows {
    let (mut live, mut room) = (Part::new(live.to_vec()), MOST_ROWS - live.len());
    room = if rng.chance(20) { room } else { rng.below(room.min(40) + 1) };
    let mut parts = parts_within(room, rng);
    let mut single = room - parts.iter().map(Part::left).sum::<usize>();
    let (mut rows, mut last_dead) = (Rows::new(), None);
    loop {
        let number = rows.len() as u32 + 1;
        let (ahead, whole) = (live.left() - 1, parts.iter().map(Part::left).sum::<usize>());
        if ahead + whole + single == 0 {
            // The live part's last row is the sheet's.
            rows.push(live.next(number));
            return rows;
        }
        let chosen = rng.below(ahead + whole + single);
        if chosen < ahead {
            rows.push(live.next(number));
            continue;
        }
        rows.push(match parts.iter_mut().max_by_key(|part| part.left()) {
            Some(part) if chosen < ahead + whole => part.next(number),
            _ => {
                single -= 1;
                any_row(number, last_dead, rng)
            }
        });
        last_dead = Some(number);
    }
}

/// Up to two formulas that have no more rows than these together.
fn parts_within(mut room: usize, rng: &mut Rng) -> Vec<Part> {
    let mut parts = Vec::new();
    for _ in 0..rng.below(3) {
        let rows = rows_of(&if rng.chance(50) { accepted_sheet(rng) } else { loose_sheet(rng) });
        if rows.len() <= room {
            room -= rows.len();
            parts.push(Part::new(rows));
        }
    }
    parts
}

/// A row that gets this number: it names any before it, often one that is given.
fn any_row(number: u32, often: Option<u32>, rng: &mut Rng) -> [u32; 5] {
    let kind = if number == 1 { rng.pick(&[1, 2, 3, 10]) } else { rng.between(1, 10) as u32 };
    let mut name = || match often {
        Some(row) if rng.chance(40) => row,
        _ => rng.between(1, number as usize - 1) as u32,
    };
    let named: Vec<u32> = (0..NAMED[kind as usize]).map(|_| name()).collect();
    loose_row(kind, &named, rng)
}

/// Some names of a sheet with dead rows exchanged for others: rows are named twice, live ones die, dead ones live.
fn with_doubled_names(rng: &mut Rng) -> Made {
    let made = with_dead_rows(rng).made;
    let mut rows = rows_of(&made);
    for _ in 0..rng.between(1, 4) {
        let index = if rng.chance(30) { rows.len() - 1 } else { rng.below(rows.len()) };
        let fields = naming_fields(rows[index][0]);
        if !fields.is_empty() {
            rows[index][rng.pick(fields)] = rng.between(1, index) as u32;
        }
    }
    Made { bytes: sheet::write(&rows), kinds: made.kinds }
}

/// Rows of any kinds, each of which names any before it.
fn any_rows(rng: &mut Rng) -> Made {
    let wanted = rng.pick(&[1, 2, 3, 5, 10, 30, 100, MOST_ROWS]);
    let wanted = rng.between(1, wanted);
    let rows: Rows = (1..=wanted as u32).map(|number| any_row(number, Some(number - 1), rng)).collect();
    Made { bytes: sheet::write(&rows), kinds: b"\n".to_vec() }
}

/// A fault in a live row or a dead one.
fn with_fault(rng: &mut Rng) -> (String, Littered) {
    loop {
        let made = with_dead_rows(rng).made;
        let number = rng.between(1, 5) as u32;
        if let Some((bytes, row)) = plant_in_rows(number, &rows_of(&made), rng) {
            let answer = TidyAnswer { refusal: number, row, rows: 0 };
            let littered = Littered { made: Made { bytes, kinds: made.kinds }, known: Some((answer, Vec::new())) };
            return (format!("fault {number} planted"), littered);
        }
    }
}

fn with_altered_bytes(rng: &mut Rng) -> Made {
    let made = with_dead_rows(rng).made;
    let bytes = mutate(&made.bytes, rng);
    Made { kinds: likely_line(&bytes, &made.kinds, rng), bytes }
}

#[cfg(test)]
mod tests {
    use super::*;
    use crate::tidy::tidy;

    #[test]
    fn what_is_known_of_a_sheet_is_how_it_is_tidied() {
        let mut dropped = 0;
        for case in 0..2_000 {
            let mut rng = Rng::new(case);
            let (kind, Littered { made, known }) = littered_sheet(case, &mut rng);
            let Some((answer, left)) = known else { continue };
            let mut out = vec![0; made.bytes.len()];
            assert_eq!(tidy(&made.bytes, &mut out), answer, "{kind}\n{}", String::from_utf8_lossy(&made.bytes));
            assert!(out.starts_with(&left), "{kind}\n{}", String::from_utf8_lossy(&made.bytes));
            dropped += made.bytes.len().saturating_sub(left.len()) / sheet::ROW_BYTES;
        }
        assert!(dropped > 5_000, "{dropped}");
    }
}
