// The drift call (document 02, Job 13): how far each result can move where the inputs move within tolerances.
// An identifier's number is looked for where it is used, in the lets around, and not handed down to it.
// Assumes of a sheet that it is accepted.

use crate::kinds;
use crate::sheet::{self, refuse, Line, Refusal, Row, Sheet, MOST_ROWS};
use crate::value::PLACES;

/// What `bench_drift` answers.
#[repr(C)]
#[derive(Clone, Copy, PartialEq, Eq, Debug, Default)]
pub struct DriftAnswer {
    pub refusal: u32,
    pub row: u32,
    pub results: u32,
}

/// The bytes of a tolerance and of a number, lowest first.
pub const NUMBER_BYTES: usize = 4;

/// The memory that the numbers of as many results as there can be need.
pub const ROOM: usize = PLACES * NUMBER_BYTES;

/// "Tolerances are 0 to 2,147,483,647", and so are the numbers of rows.
pub const MOST: u32 = 2_147_483_647;

const WHOLE: u32 = 2;
const PAIR: u32 = 4;
const OPERATOR: u32 = 5;
const LET: u32 = 6;
const MULTIPLY: u32 = 3;
const DIVIDE: u32 = 4;

/// Refusals in the order 11, 1 to 9, 17, 18, 10, 20, 21; `out` is written on acceptance only, from its start, as far as the numbers go.
pub fn drift(sheet: &[u8], line: &[u8], tolerances: &[u8], out: &mut [u8]) -> DriftAnswer {
    match told(sheet, line, tolerances, out.len()) {
        Ok(numbers) => {
            for (place, number) in out.chunks_exact_mut(NUMBER_BYTES).zip(&numbers) {
                place.copy_from_slice(&number.to_le_bytes());
            }
            DriftAnswer { refusal: 0, row: 0, results: numbers.len() as u32 }
        }
        Err(Refusal { number, row }) => DriftAnswer { refusal: number, row, results: 0 },
    }
}

fn told(sheet: &[u8], line: &[u8], tolerances: &[u8], room: usize) -> Result<Vec<u32>, Refusal> {
    if room < ROOM {
        return refuse(11, 0);
    }
    let sheet = sheet::read(sheet, line)?;
    test_sorts(&sheet)?;
    numbers(&sheet, tolerances).map_or_else(|| refuse(21, 0), Ok)
}

/// 20 "when a row is of another sort or has a value not of kind W, lowest row given".
fn test_sorts(sheet: &Sheet) -> Result<(), Refusal> {
    let wholes = kinds::rows_of_wholes(&sheet.lines, sheet.inputs().zip(sheet.sorts.iter().copied()));
    let fits = |(line, whole): (&Line, bool)| whole && is_told(&line.row, &sheet.lines);
    match sheet.lines.iter().zip(wholes).position(|row| !fits(row)) {
        Some(index) => refuse(20, index + 1),
        None => Ok(()),
    }
}

/// "identifiers, whole constants, pairs, lets, add, subtract, negate, multiply .., and divide .."
fn is_told(row: &Row, lines: &[Line]) -> bool {
    match (row.kind, row.a) {
        (1 | WHOLE | PAIR | LET, _) | (OPERATOR, 1 | 2 | 11) => true,
        (OPERATOR, MULTIPLY | DIVIDE) => scale(row, lines).is_some(),
        _ => false,
    }
}

/// A multiply's or a divide's constant, and the place of its other operand.
struct Scale {
    constant: u32,
    moving: usize,
}

/// "multiply whose operand row is a pair that names a whole constant, and divide whose operand row is a pair with b naming one that is not 0".
fn scale(row: &Row, lines: &[Line]) -> Option<Scale> {
    let line = |number: u32| lines[number as usize - 1].row;
    let Row { kind: PAIR, a, b, .. } = line(row.b) else {
        return None;
    };
    let by = |number: u32, moving: usize| {
        let Row { kind, a: constant, .. } = line(number);
        (kind == WHOLE).then_some(Scale { constant, moving })
    };
    match row.a {
        DIVIDE => by(b, 0).filter(|scale| scale.constant != 0),
        _ => by(b, 0).or(by(a, 1)),
    }
}

/// The numbers of the results. None for 21, "when the tolerances are not as many as the inputs, one is out of range or any row's number passes 2,147,483,647".
fn numbers(sheet: &Sheet, tolerances: &[u8]) -> Option<Vec<u32>> {
    if tolerances.len() != NUMBER_BYTES * sheet.sorts.len() {
        return None;
    }
    let mut of_inputs = [0; 32];
    for (name, bytes) in sheet.inputs().zip(tolerances.chunks_exact(NUMBER_BYTES)) {
        let tolerance = u32::from_le_bytes([bytes[0], bytes[1], bytes[2], bytes[3]]);
        of_inputs[name as usize] = Some(tolerance).filter(|&tolerance| tolerance <= MOST)?;
    }
    let of_rows = vec![None; sheet.lines.len()];
    let mut movements = Movements { sheet, of_inputs, lets: lets_around(&sheet.lines), of_rows };
    // Every row is one of the formula's, and is met.
    let results = movements.of(sheet.last())?;
    Some(results[..sheet.figures.results as usize].to_vec())
}

/// The innermost let around each row, in whose row d it stands; 0 where there is none.
fn lets_around(lines: &[Line]) -> [u32; MOST_ROWS] {
    let mut lets = [0; MOST_ROWS];
    // A row is named by one that comes later, of which this is known by then.
    for (index, Line { row, .. }) in lines.iter().enumerate().rev() {
        let (named, count) = sheet::named_rows(row);
        named[..count].iter().for_each(|&number| lets[number as usize - 1] = lets[index]);
        if row.kind == LET {
            lets[row.d as usize - 1] = index as u32 + 1;
        }
    }
    lets
}

/// The numbers of a row's values, and zeros past them.
type Numbers = [u32; PLACES];

fn one(number: u32) -> Numbers {
    let mut numbers = [0; PLACES];
    numbers[0] = number;
    numbers
}

struct Movements<'a> {
    sheet: &'a Sheet,
    /// By their identifiers.
    of_inputs: [u32; 32],
    lets: [u32; MOST_ROWS],
    /// Those of the rows that were met.
    of_rows: Vec<Option<Numbers>>,
}

impl Movements<'_> {
    /// The numbers of a row; none where one of the row or of those that it rests on passes the greatest.
    fn of(&mut self, number: u32) -> Option<Numbers> {
        let index = number as usize - 1;
        if self.of_rows[index].is_none() {
            self.of_rows[index] = Some(self.found(number)?);
        }
        self.of_rows[index]
    }

    fn found(&mut self, number: u32) -> Option<Numbers> {
        let row = self.sheet.line(number).row;
        match row.kind {
            1 => self.used(row.a, number).map(one),
            WHOLE => Some(one(0)),
            PAIR => {
                let (mut numbers, right) = (self.of(row.a)?, self.of(row.b)?);
                let [left, right_width] = [row.a, row.b].map(|row| usize::from(self.sheet.line(row).width));
                numbers[left..left + right_width].copy_from_slice(&right[..right_width]);
                Some(numbers)
            }
            // Row c counts also where it moves further than what row d makes of it.
            LET => self.of(row.c).and_then(|_| self.of(row.d)),
            _ => self.operated(&row).map(one),
        }
    }

    /// The number of an identifier where this row uses it: that of the value of row c which the innermost let around binds it to, else the input's.
    fn used(&mut self, name: u32, number: u32) -> Option<u32> {
        let mut around = self.lets[number as usize - 1];
        while around != 0 {
            let row = self.sheet.line(around).row;
            if (row.a..row.a + row.b).contains(&name) {
                return self.of(row.c).map(|numbers| numbers[(name - row.a) as usize]);
            }
            around = self.lets[around as usize - 1];
        }
        Some(self.of_inputs[name as usize])
    }

    /// "Movements add; a constant multiplies them; a divide by c gives the movement over c, rounded up."
    fn operated(&mut self, row: &Row) -> Option<u32> {
        let operands = self.of(row.b)?;
        let exact = match (row.a, scale(row, &self.sheet.lines)) {
            (MULTIPLY, Some(scale)) => u64::from(operands[scale.moving]) * u64::from(scale.constant),
            (DIVIDE, Some(scale)) => operands[scale.moving].div_ceil(scale.constant).into(),
            _ => u64::from(operands[0]) + u64::from(operands[1]),
        };
        u32::try_from(exact).ok().filter(|&number| number <= MOST)
    }
}

#[cfg(test)]
mod tests {
    use super::*;
    use crate::random::movements::encoded;
    use crate::sheet::write;

    const X: [u32; 5] = [1, 0, 0, 0, 0];

    fn number(value: u32) -> [u32; 5] {
        [2, value, 0, 0, 0]
    }

    /// The numbers, or the refusal with its row.
    fn said(rows: &[[u32; 5]], line: &[u8], tolerances: &[u32]) -> Result<Vec<u32>, (u32, u32)> {
        let mut out = [0x55; ROOM + 1];
        let answer = drift(&write(rows), line, &encoded(tolerances), &mut out);
        let end = NUMBER_BYTES * answer.results as usize;
        assert!(out[end..].iter().all(|&byte| byte == 0x55));
        match answer.refusal {
            0 => Ok(out[..end].chunks(4).map(|bytes| u32::from_le_bytes(bytes.try_into().expect("four"))).collect()),
            refusal => Err((refusal, answer.row)),
        }
    }

    /// A code on x and a constant, in this order or the other.
    fn on(code: u32, constant: u32, behind: bool) -> [[u32; 5]; 4] {
        let pair = if behind { [4, 1, 2, 0, 0] } else { [4, 2, 1, 0, 0] };
        [X, number(constant), pair, [5, code, 3, 0, 0]]
    }

    #[test]
    fn movements_add_multiply_and_are_divided_rounded_up() {
        for (code, constant, numbers) in [(1, 9, [0, 7]), (2, 9, [0, 7]), (3, 9, [0, 63]), (3, 0, [0, 0])] {
            for behind in [false, true] {
                let [nothing, seven] = [0, 7].map(|tolerance| said(&on(code, constant, behind), b"W\n", &[tolerance]));
                assert_eq!([nothing, seven], numbers.map(|number| Ok(vec![number])));
            }
        }
        for (constant, result) in [(1, 7), (2, 4), (6, 2), (7, 1), (8, 1), (999_999, 1)] {
            assert_eq!(said(&on(4, constant, true), b"W\n", &[7]), Ok(vec![result]));
            assert_eq!(said(&on(4, constant, true), b"W\n", &[0]), Ok(vec![0]));
        }
        assert_eq!(said(&[X, [1, 9, 0, 0, 0], [4, 2, 1, 0, 0]], b"WW\n", &[3, 5]), Ok(vec![5, 3]));
    }

    #[test]
    fn the_row_of_another_sort_is_the_operators() {
        assert_eq!(said(&on(4, 3, false), b"W\n", &[7]), Err((20, 4)));
        assert_eq!(said(&on(4, 0, true), b"W\n", &[7]), Err((20, 4)));
        assert_eq!(said(&on(5, 3, true), b"W\n", &[7]), Err((20, 4)));
        assert_eq!(said(&[X, X, [4, 1, 2, 0, 0], [5, 3, 3, 0, 0]], b"W\n", &[7]), Err((20, 4)));
        assert_eq!(said(&[X, [5, 11, 1, 0, 0]], b"R\n", &[7]), Err((20, 1)));
        assert_eq!(said(&[[3, 1, 0, 0, 0]], b"\n", &[7]), Err((20, 1)));
    }

    /// let x = x / 2 in x * 6, where the row that uses the identifier stands above the one that it is bound to.
    #[test]
    fn a_bound_identifier_moves_as_its_row_c() {
        let rows = [X, number(6), [4, 1, 2, 0, 0], [5, 3, 3, 0, 0], X, number(2), [4, 5, 6, 0, 0], [5, 4, 7, 0, 0]];
        let rows = [&rows[..], &[[6, 0, 1, 8, 4]]].concat();
        assert_eq!(said(&rows, b"W\n", &[7]), Ok(vec![24]));
        assert_eq!(said(&rows, b"W\n", &[715_827_881]), Ok(vec![2_147_483_646]));
        assert_eq!(said(&rows, b"W\n", &[715_827_883]), Err((21, 0)));
    }

    #[test]
    fn tolerances_are_as_many_as_the_inputs_and_in_range() {
        assert_eq!(said(&[X], b"W\n", &[MOST]), Ok(vec![MOST]));
        assert_eq!(said(&[X], b"W\n", &[MOST + 1]), Err((21, 0)));
        assert_eq!(said(&[X], b"W\n", &[]), Err((21, 0)));
        assert_eq!(said(&[X], b"W\n", &[1, 1]), Err((21, 0)));
        assert_eq!(said(&[number(5)], b"\n", &[]), Ok(vec![0]));
        assert_eq!(said(&on(1, 5, true), b"W\n", &[MOST]), Ok(vec![MOST]));
        assert_eq!(drift(&write(&[X]), b"W\n", &[0; 3], &mut [0; ROOM]).refusal, 21);
        assert_eq!(drift(&[], b"", &[], &mut [0; ROOM - 1]).refusal, 11);
    }
}
