// Changes of one figure of a machine's memory to a value about its range, for either machine.

use super::{random_err, random_float_bytes, random_pattern, Rng};
use crate::bytes::VALUE_BYTES;
use crate::memory::{GREATEST_CONSTANT, LETTERS, MOST_LINKS, OPERATORS, REGISTERS};

/// Where a memory has its number of inputs.
const INPUTS_AT: usize = 5;

/// A change of one figure: header, letter, record, register, length or token, to a value about its range. `stretch` says where the stretch of a link begins.
pub fn alter(mem: &mut [u8], rng: &mut Rng, stretch: impl FnOnce(usize, &mut Rng) -> usize) {
    let word = |mem: &[u8], at: usize| usize::from(mem[at]) + 256 * usize::from(mem[at + 1]);
    let (operators, links) = (word(mem, 1).clamp(1, 1024), word(mem, 3).clamp(1, MOST_LINKS));
    let operator = rng.below(operators);
    // A changed capacity moves the stretches: the last place then stands for one past the end.
    let link = rng.below(links);
    let link = stretch(link, rng).min(mem.len() - 6);
    match rng.below(15) {
        0 => mem[rng.pick(&[0, 5, 6, 7])] = rng.pick(&[0, 1, 2, 15, 16, 17, 31, 32, 33, 255]),
        1 => write(
            mem,
            rng.pick(&[1, 3]),
            rng.pick(&[0, operators, operators + 1, links, links + 1, links - 1, 1024, 1025, 3105, 3106, 65_535]),
        ),
        2 => write(mem, rng.pick(&[8, 10, 12, 74, 76]), rng.pick(&[0, 1, links - 1, links, 65_535])),
        3 => mem[OPERATORS + 16 * operator] = rng.between(0, 22) as u8,
        4 | 5 => write(
            mem,
            OPERATORS + 16 * operator + 2 + 2 * rng.below(6),
            rng.pick(&[rng_link(links, 3), rng_link(links, 7), links, 65_535]),
        ),
        6 => mem[REGISTERS + 5 * operator + rng.below(5)] = rng.pick(&[0, 1, 2, 3, 4, 255]),
        7 | 8 => mem[link] = rng.pick(&[0, 1, 2, 15, 16, 17, 255]),
        9 | 10 => {
            let (err, float) = (random_err(rng), random_float_bytes(rng));
            let value = rng.pick(&[
                [1, 5, 0, 0, 0],
                [2, 0, 0, 0, 0],
                [2, 1, 0, 0, 0],
                [2, 2, 0, 0, 0],
                err,
                err,
                float,
                float,
                float,
                [0; 5],
                [5, 0, 0, 0, 0],
            ]);
            mem[link + 1..link + 6].copy_from_slice(&value);
            mem[link] = mem[link].max(1);
        }
        11 => mem[LETTERS + rng.below(usize::from(mem[INPUTS_AT]).clamp(1, 33))] = rng.pick(b"WTRRTTWwrF\0\x01\x02"),
        12 | 13 => alter_register(mem, operators, rng),
        _ => mem[rng.below(mem.len())] = rng.number() as u8,
    }
}

/// Another value in the register of a constant, an FM or an FS, about the ends of what a constant may be.
fn alter_register(mem: &mut [u8], operators: usize, rng: &mut Rng) {
    let holding: Vec<usize> = (0..operators).filter(|i| matches!(mem[OPERATORS + 16 * i], 12 | 19 | 20)).collect();
    if holding.is_empty() {
        return;
    }
    let at = REGISTERS + 5 * rng.pick(&holding);
    let (tag, bits) = match rng.below(8) {
        0 | 1 => (1, rng.pick(&[0, 1, 999_999, 1_000_000, u32::MAX, 1 << 31])),
        2 => (2, rng.pick(&[0, 1, 2])),
        3 => (3, rng.pick(&[0, 1, 2, 3])),
        4 => (4, random_pattern(rng)),
        _ => (4, rng.pick(&[0, 1, GREATEST_CONSTANT - 1, GREATEST_CONSTANT, GREATEST_CONSTANT + 1, 1 << 31])),
    };
    mem[at] = tag;
    mem[at + 1..at + VALUE_BYTES].copy_from_slice(&bits.to_le_bytes());
}

fn rng_link(links: usize, step: usize) -> usize {
    links * step % 11 * links / 11 % links
}

fn write(mem: &mut [u8], at: usize, number: usize) {
    mem[at..at + 2].copy_from_slice(&(number as u16).to_le_bytes());
}
