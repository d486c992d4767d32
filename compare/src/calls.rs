// The calls on a machine's memory as a table, those here and the product's where it is linked, and the program's loop over them (document 01,
// "Program and readings"). Each is lent the record of document 02, Job 10, as its last, but for the check of a log, whose machine is its own.

use crate::bytes::{OUT_BYTES, VALUE_BYTES};
use crate::log::{self, Handed, LogAnswer};
use crate::memory::{self, Answer, RoundsAnswer, StartAnswer};
use crate::tag_memory;
use crate::tally::Tally;
use std::fmt::Debug;

#[derive(Clone, Copy)]
pub struct Calls {
    pub start: fn(&[u8], &[u8], u32, &mut [u8], &mut Tally) -> StartAnswer,
    pub push: fn(&mut [u8], &[u8], &mut Tally) -> Answer,
    pub push_tray: fn(&mut [u8], &[u8], u32, &mut Tally) -> Answer,
    pub fire: fn(&mut [u8], u32, &mut Tally) -> Answer,
    pub run: fn(&mut [u8], u32, &mut Tally) -> Answer,
    pub run_rounds: fn(&mut [u8], u32, &mut Tally) -> RoundsAnswer,
    pub take: fn(&mut [u8], &mut [u8], &mut Tally) -> Answer,
    pub check_log: fn(&Handed<'_>, &mut [u8], &mut [u8]) -> LogAnswer,
}

pub const PLAIN: Calls = Calls {
    start: memory::start,
    push: memory::push,
    push_tray: memory::push_tray,
    fire: memory::fire,
    run: memory::run,
    run_rounds: memory::run_rounds,
    take: memory::take,
    check_log: log::check,
};

/// The product's, where it is linked.
#[cfg(feature = "product")]
pub fn product() -> Option<Calls> {
    use crate::product::{check_log, fire, push, push_tray, run, run_rounds, start, take};
    Some(Calls { start, push, push_tray, fire, run, run_rounds, take, check_log })
}

#[cfg(not(feature = "product"))]
pub fn product() -> Option<Calls> {
    None
}

/// The calls on the memory of a machine with tags (document 02, Job 12), which has no record.
#[derive(Clone, Copy)]
pub struct TagCalls {
    pub start: fn(&[u8], &[u8], &mut [u8]) -> StartAnswer,
    pub push: fn(&mut [u8], &[u8]) -> Answer,
    pub fire: fn(&mut [u8], u32, u32) -> Answer,
    pub run: fn(&mut [u8], u32) -> Answer,
    pub take: fn(&mut [u8], u32, &mut [u8]) -> Answer,
}

pub const PLAIN_TAGS: TagCalls = TagCalls {
    start: tag_memory::start,
    push: tag_memory::push,
    fire: tag_memory::fire,
    run: tag_memory::run,
    take: tag_memory::take,
};

/// The product's, where it is linked.
#[cfg(feature = "product")]
pub fn product_tags() -> Option<TagCalls> {
    use crate::product::{tagged_fire, tagged_push, tagged_run, tagged_start, tagged_take};
    let (start, push, fire, run, take) = (tagged_start, tagged_push, tagged_fire, tagged_run, tagged_take);
    Some(TagCalls { start, push, fire, run, take })
}

#[cfg(not(feature = "product"))]
pub fn product_tags() -> Option<TagCalls> {
    None
}

impl Calls {
    /// "it pushes until refused or out of sets, runs with the firings left, takes until refused, and repeats until every set is taken", on a started
    /// machine, with one record for all calls. Hands each result's values on; gives the firings made, and the run's 36.
    pub fn session(&self, mem: &mut [u8], sets: &[Vec<u8>], firings: u32, each: &mut dyn FnMut(&[u8])) -> Answer {
        let (mut pushed, mut taken, mut count) = (0, 0, 0);
        let (mut out, mut tally) = ([0; OUT_BYTES], Tally::default());
        while taken < sets.len() {
            while pushed < sets.len() && (self.push)(mem, &sets[pushed], &mut tally).refusal == 0 {
                pushed += 1;
            }
            let ran = (self.run)(mem, firings - count, &mut tally);
            count += ran.count;
            loop {
                let result = (self.take)(mem, &mut out, &mut tally);
                if result.refusal != 0 {
                    break;
                }
                each(&out[..VALUE_BYTES * result.count as usize]);
                taken += 1;
            }
            if ran.refusal != 0 {
                return Answer { refusal: ran.refusal, count };
            }
        }
        Answer { refusal: 0, count }
    }
}

/// Two answers, and the places at which the bytes left behind them differ.
pub fn difference(ours: impl Debug, theirs: impl Debug, plain: &[u8], mem: &[u8]) -> String {
    let places: Vec<usize> = (0..mem.len()).filter(|&at| mem[at] != plain[at]).take(8).collect();
    format!("here {ours:?}, the product answers {theirs:?}; bytes differ at {places:?}")
}
