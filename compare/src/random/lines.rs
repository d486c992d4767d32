// Random kinds lines: such as a sheet may pass with, and such as are at fault.

use super::Rng;
use crate::kinds::write_line;
use crate::random::formulas::{random_sorts, WITHOUT_FLOATS, WITH_FLOATS};
use crate::sheet;
use crate::value::Sort;

/// How many lines are tried for one that the rows keep to.
const TRIES: usize = 12;

/// The most inputs that a sheet can have.
const MOST_INPUTS: usize = 32;

/// A line for bytes that may be no sheet: a given one where it is good, else one of as many letters as there are inputs, and of kinds that the rows keep
/// to where some tries find such.
pub fn likely_line(bytes: &[u8], given: &[u8], rng: &mut Rng) -> Vec<u8> {
    let Ok(names) = sheet::input_names(bytes) else {
        return if rng.chance(50) { given.to_vec() } else { random_line(rng.below(4), rng) };
    };
    let mut line = given.to_vec();
    for _ in 0..TRIES {
        if !sheet::read(bytes, &line).is_err_and(|refusal| matches!(refusal.number, 17 | 18)) {
            break;
        }
        line = random_line(names.len(), rng);
    }
    line
}

fn random_line(letters: usize, rng: &mut Rng) -> Vec<u8> {
    let palette = if rng.chance(50) { WITHOUT_FLOATS } else { WITH_FLOATS };
    write_line(&random_sorts(letters, palette, rng))
}

/// A line that is at fault for a sheet whose good line is given: of another length, with another letter, or not ended.
pub fn bad_line(good: &[u8], rng: &mut Rng) -> Vec<u8> {
    let mut line = good.to_vec();
    let letters = good.len().saturating_sub(1);
    match rng.below(9) {
        0 => line.clear(),
        1 => drop(line.pop()),
        2 => line.push(rng.pick(b"\n WTR\0")),
        3 => line.insert(rng.below(letters + 1), rng.pick(b"WTR")),
        4 if letters > 0 => drop(line.remove(rng.below(letters))),
        5 if letters > 0 => line[rng.below(letters)] = rng.pick(b"wtrFEVSUXQ \n\0\xd7\xd4\xd2"),
        6 => line = random_line(rng.pick(&[MOST_INPUTS, MOST_INPUTS + 1, 100, 70_000]), rng),
        7 => line.insert(letters, b'\r'),
        _ => line = vec![rng.pick(b" \r\0W"); good.len().max(1)],
    }
    if line == good {
        line.push(b'\n');
    }
    line
}

/// The line with one letter exchanged for another, where it has one.
pub fn with_other_letter(good: &[u8], rng: &mut Rng) -> Vec<u8> {
    let mut line = good.to_vec();
    if let Some(letters @ 1..) = good.len().checked_sub(1) {
        let letter = &mut line[rng.below(letters)];
        let sort = Sort::of_letter(*letter).expect("a good line");
        *letter = rng.pick(&sort.others()).letter();
    }
    line
}
