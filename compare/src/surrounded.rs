// Bytes with others on both sides, so that a call which reads or writes past its ends gives itself away.

use crate::random::Rng;

#[derive(Clone)]
pub struct Surrounded {
    memory: Vec<u8>,
    length: usize,
}

const MARGIN: usize = 64;

impl Surrounded {
    pub fn new(middle: &[u8], rng: &mut Rng) -> Surrounded {
        let mut margin = || (0..MARGIN).map(|_| rng.pick(b" 0123456789WTR\n\x01\x02\x03\x04")).collect::<Vec<u8>>();
        Surrounded { memory: [&margin(), middle, &margin()].concat(), length: middle.len() }
    }

    pub fn middle(&self) -> &[u8] {
        &self.memory[MARGIN..MARGIN + self.length]
    }

    pub fn middle_mut(&mut self) -> &mut [u8] {
        &mut self.memory[MARGIN..MARGIN + self.length]
    }

    pub fn margins_equal(&self, other: &Surrounded) -> bool {
        let margins = |one: &Surrounded| [&one.memory[..MARGIN], &one.memory[MARGIN + one.length..]].concat();
        margins(self) == margins(other)
    }
}
