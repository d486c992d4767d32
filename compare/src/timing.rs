// Timing of calls side by side: the least time of each over many batches, where the batches of all take turns, so that all see the same machine.

use std::hint::black_box;
use std::time::{Duration, Instant};

/// The batches of a figure in the tables of single calls.
pub const BATCHES: usize = 200;
const BATCH: Duration = Duration::from_millis(1);

/// A call to be timed; the number it gives is looked at by nobody.
pub type Call<'a> = Box<dyn FnMut() -> u32 + 'a>;

/// Nanoseconds of each of the two, where the second is there.
pub fn side_by_side(ours: &mut dyn FnMut() -> u32, product: &mut Option<Call<'_>>) -> (f64, Option<f64>) {
    let times = match product {
        Some(call) => in_turns(&mut [ours, &mut **call], BATCHES, Duration::ZERO),
        None => in_turns(&mut [ours], BATCHES, Duration::ZERO),
    };
    (times[0], times.get(1).copied())
}

/// Nanoseconds of a call of each, the least of so many batches, or of more until so much time has passed.
pub fn in_turns(calls: &mut [&mut dyn FnMut() -> u32], batches: usize, duration: Duration) -> Vec<f64> {
    let repeats: Vec<u32> = calls.iter_mut().map(|call| repeats_for(*call)).collect();
    let mut least = vec![f64::MAX; calls.len()];
    let start = Instant::now();
    let mut made = 0;
    while made < batches || start.elapsed() < duration {
        for (place, call) in calls.iter_mut().enumerate() {
            least[place] = least[place].min(time(*call, repeats[place]));
        }
        made += 1;
    }
    least
}

/// Nanoseconds a call.
fn time(call: &mut dyn FnMut() -> u32, repeats: u32) -> f64 {
    let start = Instant::now();
    for _ in 0..repeats {
        black_box(call());
    }
    start.elapsed().as_nanos() as f64 / f64::from(repeats)
}

/// How many calls fill a batch.
fn repeats_for(call: &mut dyn FnMut() -> u32) -> u32 {
    let mut repeats = 1;
    while time(call, repeats) * f64::from(repeats) < BATCH.as_nanos() as f64 {
        repeats *= 2;
    }
    repeats
}
