// Random sheets, sets and bytes for the comparison, from a seed, so that every case can be made again.
// The generator of numbers is Marsaglia's xorshift with a multiplied output.

pub mod altered;
pub mod dead;
pub mod endless;
pub mod faults;
pub mod floats;
pub mod folders;
pub mod formulas;
pub mod linear;
pub mod lines;
pub mod logs;
pub mod movements;
pub mod nearly_small;
pub mod quick;
pub mod sheets;
pub mod tree;
pub mod turns;

use crate::bytes::{self, VALUE_BYTES};
use crate::sheet::Sheet;
use crate::value::{Sort, Value};
pub use endless::endless_sheet;
pub use floats::{random_float, random_pattern};
pub use quick::quick_sheet;
pub use sheets::{
    accepted_sheet, heavy_loopless_sheet, heavy_loopless_sheet_of_wholes, heavy_sheet, heavy_sheet_of_wholes,
    loopless_sheet, loose_sheet, renamed_sheet, rows_text, unkinded_sheet, Made,
};

pub struct Rng(u64);

impl Rng {
    pub fn new(seed: u64) -> Rng {
        let mut rng = Rng((seed ^ 0x9e37_79b9_7f4a_7c15).max(1));
        // Near seeds give near states; a few steps part them.
        for _ in 0..8 {
            rng.number();
        }
        rng
    }

    pub fn number(&mut self) -> u64 {
        self.0 ^= self.0 >> 12;
        self.0 ^= self.0 << 25;
        self.0 ^= self.0 >> 27;
        self.0.wrapping_mul(0x2545_f491_4f6c_dd1d)
    }

    /// A number below the bound, which is not 0.
    pub fn below(&mut self, bound: usize) -> usize {
        (self.number() >> 32) as usize % bound
    }

    /// A number from the one to the other, both included.
    pub fn between(&mut self, least: usize, most: usize) -> usize {
        least + self.below(most - least + 1)
    }

    pub fn chance(&mut self, percent: usize) -> bool {
        self.below(100) < percent
    }

    pub fn pick<T: Copy>(&mut self, items: &[T]) -> T {
        items[self.below(items.len())]
    }
}

/// How many sets in a hundred have a value of another kind.
const OTHER_KINDS: usize = 6;

/// A set for a sheet, mostly of its inputs' kinds or errs.
pub fn random_set(sheet: &Sheet, rng: &mut Rng) -> Vec<Value> {
    let mut set = fitting_set(sheet, rng);
    if !set.is_empty() && rng.chance(OTHER_KINDS) {
        let place = rng.below(set.len());
        set[place] = value_of_another_kind(sheet.sorts[place], rng);
    }
    set
}

/// The bytes of a set as it is lent to a call, mostly one that a sheet takes.
pub fn lent_set(sheet: &Sheet, rng: &mut Rng) -> Vec<u8> {
    let mut values = random_set(sheet, rng);
    if rng.chance(3) {
        values.push(random_value(rng.pick(&[Sort::Whole, Sort::Real]), rng));
    }
    let mut set = bytes::encode_set(&values);
    if rng.chance(3) && !set.is_empty() {
        let at = rng.below(set.len());
        set[at] = rng.pick(&[0, 1, 2, 3, 4, 255]);
    }
    if rng.chance(5) && !values.is_empty() {
        let at = rng.below(values.len()) * VALUE_BYTES;
        let value = if rng.chance(50) { random_err(rng) } else { random_float_bytes(rng) };
        set[at..at + VALUE_BYTES].copy_from_slice(&value);
    }
    if rng.chance(2) {
        set.pop();
    }
    set
}

/// A set that a sheet takes.
pub fn fitting_set(sheet: &Sheet, rng: &mut Rng) -> Vec<Value> {
    sheet.sorts.iter().map(|&sort| random_value(sort, rng)).collect()
}

/// A value of this kind, now and then an err.
pub fn random_value(sort: Sort, rng: &mut Rng) -> Value {
    match (rng.below(100), sort) {
        (0..=4, _) => rng.pick(&Value::ERRS),
        (_, Sort::Truth) => Value::Truth(rng.chance(50)),
        (_, Sort::Real) => Value::Real(random_float(rng)),
        (5..=84, Sort::Whole) => Value::Whole(rng.between(0, 14) as i32 - 3),
        (85..=94, Sort::Whole) => Value::Whole(rng.pick(&[i32::MIN, i32::MIN + 1, i32::MAX, i32::MAX - 1, -1, 0])),
        _ => Value::Whole(rng.number() as i32),
    }
}

/// A value of one of the two other kinds, now and then an err.
pub fn value_of_another_kind(sort: Sort, rng: &mut Rng) -> Value {
    let other = rng.pick(&sort.others());
    random_value(other, rng)
}

/// The bytes of a float of any pattern; one that is not finite is no value.
pub fn random_float_bytes(rng: &mut Rng) -> [u8; VALUE_BYTES] {
    let [a, b, c, d] = random_pattern(rng).to_le_bytes();
    [4, a, b, c, d]
}

/// The bytes of an err of any reason, or of none, which is no value.
pub fn random_err(rng: &mut Rng) -> [u8; VALUE_BYTES] {
    [3, rng.pick(&[0, 1, 2, 3, 4, 255]), 0, 0, rng.pick(&[0, 0, 0, 1])]
}

/// One to three small changes anywhere in the bytes.
pub fn mutate(bytes: &[u8], rng: &mut Rng) -> Vec<u8> {
    let mut bytes = bytes.to_vec();
    for _ in 0..rng.between(1, 3) {
        mutate_once(&mut bytes, rng);
    }
    bytes
}

fn mutate_once(bytes: &mut Vec<u8>, rng: &mut Rng) {
    let rows = bytes.len() / 31;
    if rows == 0 {
        bytes.push(rng.number() as u8);
        return;
    }
    let (one, other) = (rng.below(rows) * 31, rng.below(rows) * 31);
    let place = rng.below(bytes.len());
    match rng.below(12) {
        0 => bytes[place] = rng.number() as u8,
        1 => bytes[place] = rng.pick(b" 0123456789\n\r\t+-"),
        2 => bytes.insert(place, rng.pick(b" 0123456789\n")),
        3 => drop(bytes.remove(place)),
        4 => bytes.truncate(one),
        5 => bytes.copy_within(one..one + 31, other),
        6 => (0..31).for_each(|byte| bytes.swap(one + byte, other + byte)),
        7 => drop(bytes.drain(one..one + 31)),
        _ => {
            let text = format!("{:6}", random_field(rows, rng));
            let field = one + rng.below(5) * 6;
            bytes[field..field + 6].copy_from_slice(text.as_bytes());
        }
    }
}

fn random_field(rows: usize, rng: &mut Rng) -> usize {
    match rng.below(10) {
        0..=5 => rng.below(rows + 2),
        6 | 7 => rng.below(13),
        8 => rng.between(30, 33),
        _ => rng.below(1_000_000),
    }
}

#[cfg(test)]
mod tests {
    use super::*;
    use crate::bytes::decode;

    #[test]
    fn errs_of_every_reason_occur() {
        let mut rng = Rng::new(5);
        let errs: Vec<Option<Value>> = (0..200).map(|_| decode(&random_err(&mut rng))).collect();
        for err in Value::ERRS.map(Some).into_iter().chain([None]) {
            assert!(errs.contains(&err), "{err:?}");
        }
        let values: Vec<Value> = (0..2_000).map(|_| random_value(Sort::Whole, &mut rng)).collect();
        for err in Value::ERRS {
            assert!(values.iter().filter(|&&value| value == err).count() > 10, "{err:?}");
        }
    }
}
