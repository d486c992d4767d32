// The words behind a comparison's name: how many cases, from which seed, and the first of them; and the loop over them.

use crate::random::Rng;
use std::collections::BTreeMap;
use std::{env, process};

/// How often each thing was compared.
pub type Counts = BTreeMap<String, u64>;

pub struct Cases {
    pub count: u64,
    pub seed: u64,
    pub first: u64,
}

impl Cases {
    /// CASES SEED [FIRST]; anything else prints the usage and ends the program.
    pub fn from(words: &[String], usage: &str) -> Cases {
        let numbers: Option<Vec<u64>> = words.iter().map(|word| word.parse().ok()).collect();
        match numbers.as_deref() {
            Some(&[count, seed]) => Cases { count, seed, first: 0 },
            Some(&[count, seed, first]) => Cases { count, seed, first },
            _ => {
                eprintln!("usage: {usage} CASES SEED [FIRST]");
                process::exit(2)
            }
        }
    }

    /// Those of the program's own words.
    pub fn asked(usage: &str) -> Cases {
        Cases::from(&env::args().skip(1).collect::<Vec<_>>(), usage)
    }

    /// Compares case by case. The first difference is printed and ends the program; else what was compared is.
    pub fn compare(&self, mut case: impl FnMut(u64, &mut Counts, &mut Rng) -> Result<(), String>) {
        let mut counts = Counts::new();
        for number in self.numbers() {
            if let Err(difference) = case(number, &mut counts, &mut self.rng(number)) {
                println!("case {number} of seed {}, {difference}", self.seed);
                process::exit(1);
            }
        }
        let list: Vec<String> = counts.iter().map(|(kind, count)| format!("{kind} {count}")).collect();
        println!("no difference in {} cases; compared: {}", self.count, list.join(", "));
    }

    pub fn numbers(&self) -> std::ops::Range<u64> {
        self.first..self.first + self.count
    }

    /// A case is made from the seed and its number alone.
    pub fn rng(&self, number: u64) -> Rng {
        Rng::new(self.seed.wrapping_mul(1 << 32).wrapping_add(number))
    }
}
