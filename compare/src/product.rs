// The product's functions from its static library, declared by hand and wrapped over slices.
// Assumes that the archive exports them with these C signatures (include/bench.h).

use crate::bytes::{EvaluateAnswer, ReadAnswer};
use crate::drift::DriftAnswer;
use crate::log::{Handed, LogAnswer};
use crate::memory::{Answer, RoundsAnswer, StartAnswer};
use crate::small::NextAnswer;
use crate::tally::Tally;
use crate::tidy::TidyAnswer;

extern "C" {
    fn bench_read(sheet: *const u8, sheet_len: usize, kinds: *const u8, kinds_len: usize) -> ReadAnswer;
    fn bench_tidy(sheet: *const u8, sheet_len: usize, out: *mut u8, out_len: usize) -> TidyAnswer;
    fn bench_drift(
        sheet: *const u8,
        sheet_len: usize,
        kinds: *const u8,
        kinds_len: usize,
        tolerances: *const u8,
        tolerances_len: usize,
        out: *mut u8,
        out_len: usize,
    ) -> DriftAnswer;
    fn bench_next(sheet: *const u8, sheet_len: usize, out: *mut u8, out_len: usize) -> NextAnswer;
    fn bench_evaluate(
        sheet: *const u8,
        sheet_len: usize,
        kinds: *const u8,
        kinds_len: usize,
        set: *const u8,
        set_len: usize,
        rounds: u32,
        out: *mut u8,
        out_len: usize,
    ) -> EvaluateAnswer;
    fn bench_start(
        sheet: *const u8,
        sheet_len: usize,
        kinds: *const u8,
        kinds_len: usize,
        capacity: u32,
        mem: *mut u8,
        mem_len: usize,
        tally: *mut Tally,
    ) -> StartAnswer;
    fn bench_push(mem: *mut u8, mem_len: usize, set: *const u8, set_len: usize, tally: *mut Tally) -> Answer;
    fn bench_push_tray(
        mem: *mut u8,
        mem_len: usize,
        sets: *const u8,
        sets_len: usize,
        number: u32,
        tally: *mut Tally,
    ) -> Answer;
    fn bench_fire(mem: *mut u8, mem_len: usize, operator: u32, tally: *mut Tally) -> Answer;
    fn bench_run(mem: *mut u8, mem_len: usize, firings: u32, tally: *mut Tally) -> Answer;
    fn bench_run_rounds(mem: *mut u8, mem_len: usize, rounds: u32, tally: *mut Tally) -> RoundsAnswer;
    fn bench_take(mem: *mut u8, mem_len: usize, out: *mut u8, out_len: usize, tally: *mut Tally) -> Answer;
    fn bench_check_log(
        sheet: *const u8,
        sheet_len: usize,
        kinds: *const u8,
        kinds_len: usize,
        capacity: u32,
        sets: *const u8,
        sets_len: usize,
        number: u32,
        log: *const u8,
        log_len: usize,
        mem: *mut u8,
        mem_len: usize,
        out: *mut u8,
        out_len: usize,
    ) -> LogAnswer;
    fn bench_tagged_start(
        sheet: *const u8,
        sheet_len: usize,
        kinds: *const u8,
        kinds_len: usize,
        mem: *mut u8,
        mem_len: usize,
    ) -> StartAnswer;
    fn bench_tagged_push(mem: *mut u8, mem_len: usize, set: *const u8, set_len: usize) -> Answer;
    fn bench_tagged_fire(mem: *mut u8, mem_len: usize, operator: u32, tag: u32) -> Answer;
    fn bench_tagged_run(mem: *mut u8, mem_len: usize, firings: u32) -> Answer;
    fn bench_tagged_take(mem: *mut u8, mem_len: usize, tag: u32, out: *mut u8, out_len: usize) -> Answer;
}

// In each function the pointers and lengths are slices', a record's pointer is a reference's, and what is written is lent to that call alone.

pub fn read(sheet: &[u8], kinds: &[u8]) -> ReadAnswer {
    unsafe { bench_read(sheet.as_ptr(), sheet.len(), kinds.as_ptr(), kinds.len()) }
}

pub fn tidy(sheet: &[u8], out: &mut [u8]) -> TidyAnswer {
    unsafe { bench_tidy(sheet.as_ptr(), sheet.len(), out.as_mut_ptr(), out.len()) }
}

pub fn drift(sheet: &[u8], kinds: &[u8], tolerances: &[u8], out: &mut [u8]) -> DriftAnswer {
    unsafe {
        bench_drift(
            sheet.as_ptr(),
            sheet.len(),
            kinds.as_ptr(),
            kinds.len(),
            tolerances.as_ptr(),
            tolerances.len(),
            out.as_mut_ptr(),
            out.len(),
        )
    }
}

pub fn next(sheet: &[u8], out: &mut [u8]) -> NextAnswer {
    unsafe { bench_next(sheet.as_ptr(), sheet.len(), out.as_mut_ptr(), out.len()) }
}

pub fn evaluate(sheet: &[u8], kinds: &[u8], set: &[u8], rounds: u32, out: &mut [u8]) -> EvaluateAnswer {
    unsafe {
        bench_evaluate(
            sheet.as_ptr(),
            sheet.len(),
            kinds.as_ptr(),
            kinds.len(),
            set.as_ptr(),
            set.len(),
            rounds,
            out.as_mut_ptr(),
            out.len(),
        )
    }
}

pub fn start(sheet: &[u8], kinds: &[u8], capacity: u32, mem: &mut [u8], tally: &mut Tally) -> StartAnswer {
    let (sheet_at, kinds_at) = (sheet.as_ptr(), kinds.as_ptr());
    unsafe { bench_start(sheet_at, sheet.len(), kinds_at, kinds.len(), capacity, mem.as_mut_ptr(), mem.len(), tally) }
}

pub fn push(mem: &mut [u8], set: &[u8], tally: &mut Tally) -> Answer {
    unsafe { bench_push(mem.as_mut_ptr(), mem.len(), set.as_ptr(), set.len(), tally) }
}

pub fn push_tray(mem: &mut [u8], sets: &[u8], number: u32, tally: &mut Tally) -> Answer {
    unsafe { bench_push_tray(mem.as_mut_ptr(), mem.len(), sets.as_ptr(), sets.len(), number, tally) }
}

pub fn fire(mem: &mut [u8], operator: u32, tally: &mut Tally) -> Answer {
    unsafe { bench_fire(mem.as_mut_ptr(), mem.len(), operator, tally) }
}

pub fn run(mem: &mut [u8], firings: u32, tally: &mut Tally) -> Answer {
    unsafe { bench_run(mem.as_mut_ptr(), mem.len(), firings, tally) }
}

pub fn run_rounds(mem: &mut [u8], rounds: u32, tally: &mut Tally) -> RoundsAnswer {
    unsafe { bench_run_rounds(mem.as_mut_ptr(), mem.len(), rounds, tally) }
}

pub fn take(mem: &mut [u8], out: &mut [u8], tally: &mut Tally) -> Answer {
    unsafe { bench_take(mem.as_mut_ptr(), mem.len(), out.as_mut_ptr(), out.len(), tally) }
}

pub fn check_log(handed: &Handed<'_>, mem: &mut [u8], out: &mut [u8]) -> LogAnswer {
    let Handed { sheet, kinds, capacity, sets, number, log } = *handed;
    unsafe {
        bench_check_log(
            sheet.as_ptr(),
            sheet.len(),
            kinds.as_ptr(),
            kinds.len(),
            capacity,
            sets.as_ptr(),
            sets.len(),
            number,
            log.as_ptr(),
            log.len(),
            mem.as_mut_ptr(),
            mem.len(),
            out.as_mut_ptr(),
            out.len(),
        )
    }
}

pub fn tagged_start(sheet: &[u8], kinds: &[u8], mem: &mut [u8]) -> StartAnswer {
    let (sheet_at, kinds_at) = (sheet.as_ptr(), kinds.as_ptr());
    unsafe { bench_tagged_start(sheet_at, sheet.len(), kinds_at, kinds.len(), mem.as_mut_ptr(), mem.len()) }
}

pub fn tagged_push(mem: &mut [u8], set: &[u8]) -> Answer {
    unsafe { bench_tagged_push(mem.as_mut_ptr(), mem.len(), set.as_ptr(), set.len()) }
}

pub fn tagged_fire(mem: &mut [u8], operator: u32, tag: u32) -> Answer {
    unsafe { bench_tagged_fire(mem.as_mut_ptr(), mem.len(), operator, tag) }
}

pub fn tagged_run(mem: &mut [u8], firings: u32) -> Answer {
    unsafe { bench_tagged_run(mem.as_mut_ptr(), mem.len(), firings) }
}

pub fn tagged_take(mem: &mut [u8], tag: u32, out: &mut [u8]) -> Answer {
    unsafe { bench_tagged_take(mem.as_mut_ptr(), mem.len(), tag, out.as_mut_ptr(), out.len()) }
}
