// The kinds of random sheets by turns, for comparing with the product.

use super::faults::plant;
use super::lines::{bad_line, likely_line};
use super::sheets::mixed_sheet;
use super::{accepted_sheet, heavy_sheet, loose_sheet, mutate, renamed_sheet, Made, Rng};

/// How many cases in a hundred get a kinds line at fault besides.
const BAD_LINES: usize = 3;

/// The kinds of cases by turns: over half of them accepted sheets, and each refusal planted.
pub fn random_sheet(number: u64, rng: &mut Rng) -> (String, Made) {
    let (kind, mut made) = by_turns(number, rng);
    if rng.chance(BAD_LINES) {
        made.kinds = bad_line(&made.kinds, rng);
    }
    (kind, made)
}

fn by_turns(number: u64, rng: &mut Rng) -> (String, Made) {
    let fault = |number: u32, rng: &mut Rng| (format!("sheet with fault {number:2}"), plant(number, rng).made);
    match number % 46 {
        0 | 1 => ("sheet with many operators".into(), heavy_sheet(rng)),
        turn @ 2..=11 => fault(turn as u32 - 1, rng),
        12 => fault(17, rng),
        13 | 14 => fault(18, rng),
        15..=18 => ("sheet with altered bytes".into(), altered_sheet(rng)),
        19..=20 => ("rows at random".into(), loose_sheet(rng)),
        21..=22 => ("sheet with other names".into(), renamed_sheet(rng)),
        23 => ("bytes at random".into(), Made { bytes: random_bytes(rng), kinds: b"W\n".to_vec() }),
        24 => ("operands of any kinds".into(), mixed_sheet(rng)),
        _ => ("accepted sheet".into(), accepted_sheet(rng)),
    }
}

/// An accepted sheet with altered bytes.
pub fn altered_sheet(rng: &mut Rng) -> Made {
    let made = accepted_sheet(rng);
    let bytes = mutate(&made.bytes, rng);
    Made { kinds: likely_line(&bytes, &made.kinds, rng), bytes }
}

fn random_bytes(rng: &mut Rng) -> Vec<u8> {
    let length = rng.pick(&[0, 1, 30, 31, 62, 93, 6200, 6231]);
    let mut bytes: Vec<u8> = (0..length).map(|_| rng.pick(b"       00123456789")).collect();
    bytes.iter_mut().skip(30).step_by(31).for_each(|byte| *byte = b'\n');
    if rng.chance(30) && length > 0 {
        bytes[rng.below(length)] = rng.number() as u8;
    }
    bytes
}

#[cfg(test)]
mod tests {
    use super::*;
    use std::collections::BTreeMap;

    #[test]
    fn each_refusal_occurs_and_half_are_accepted() {
        let mut seen: BTreeMap<u32, u32> = BTreeMap::new();
        for case in 0..4_600 {
            let (_, made) = random_sheet(case, &mut Rng::new(case));
            *seen.entry(made.refusal()).or_default() += 1;
        }
        for refusal in (0..=10).chain([17, 18]) {
            assert!(seen.get(&refusal).is_some_and(|&count| count >= 80), "{refusal}: {seen:?}");
        }
        assert!(seen[&0] > 2_300, "{seen:?}");
    }
}
