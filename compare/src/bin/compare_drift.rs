// Asks the product and the drift here how far the results of random sheets can move, and stops at the first difference, which it prints. Answers and every byte of
// the lent memory must agree; bytes around it and what is lent for reading must be as they were. Then what document 02 says of the numbers: of two sets within
// tolerance, evaluated by the product, each result that is err in neither moves no further than its number.
// Usage: compare_drift CASES SEED [FIRST]. `compare_drift 1 SEED NUMBER` makes a case again.

use compare::arguments::{Cases, Counts};
use compare::bytes::{self, OUT_BYTES};
use compare::drift::{self, DriftAnswer, NUMBER_BYTES, ROOM};
use compare::product;
use compare::random::movements::{moving_sheet, near_sets, Moving};
use compare::random::{Made, Rng};
use compare::surrounded::Surrounded;
use compare::value::Value;
use std::cmp::Ordering;

/// How many sheets are looked at in a case.
const SHEETS: u64 = 10;

/// How many pairs of sets are evaluated for an accepted sheet.
const PAIRS: usize = 5;

fn main() {
    Cases::asked("compare_drift").compare(|number, counts, rng| {
        (SHEETS * number..SHEETS * (number + 1)).try_for_each(|sheet| {
            let (kind, moving) = moving_sheet(sheet, rng);
            *counts.entry(kind.into()).or_default() += 1;
            compare_sheet(&moving, counts, rng).map_err(|difference| {
                format!("{kind}\n{}, tolerances {:?}\n{difference}", moving.made, moving.tolerances)
            })
        })
    });
}

fn compare_sheet(moving: &Moving, counts: &mut Counts, rng: &mut Rng) -> Result<(), String> {
    let told = compare_drift(moving, rng)?;
    let refusal = told.answer.refusal;
    *counts.entry(format!("told with {refusal:2}")).or_default() += 1;
    if refusal != 11 && moving.known.is_some_and(|known| !known.contains(&refusal)) {
        return Err(format!("known is {:?}, the answer {:?}", moving.known, told.answer));
    }
    match refusal {
        0 => (0..PAIRS).try_for_each(|_| compare_sets(moving, &told.numbers(), counts, rng)),
        _ => Ok(()),
    }
}

/// What was answered, and the lent memory afterwards.
struct Told {
    answer: DriftAnswer,
    out: Vec<u8>,
}

impl Told {
    fn numbers(&self) -> Vec<u32> {
        let number = |bytes: &[u8]| u32::from_le_bytes(bytes.try_into().expect("four bytes"));
        self.out.chunks_exact(NUMBER_BYTES).take(self.answer.results as usize).map(number).collect()
    }
}

/// One call with memory of a random length and contents.
fn compare_drift(moving: &Moving, rng: &mut Rng) -> Result<Told, String> {
    let Moving { made: Made { bytes, kinds }, tolerances, .. } = moving;
    let room = match rng.below(40) {
        0 => ROOM - 1,
        1 => rng.below(ROOM),
        2..=9 => ROOM + rng.between(1, 100),
        _ => ROOM,
    };
    let held: Vec<u8> = (0..room).map(|_| rng.number() as u8).collect();
    let mut out = held.clone();
    let answer = drift::drift(bytes, kinds, tolerances, &mut out);
    let lent = [bytes, kinds, tolerances].map(|bytes| Surrounded::new(bytes, rng));
    let before = Surrounded::new(&held, rng);
    let mut after = before.clone();
    let theirs = product::drift(lent[0].middle(), lent[1].middle(), lent[2].middle(), after.middle_mut());
    if lent.each_ref().map(Surrounded::middle) != [bytes, kinds, tolerances] || !after.margins_equal(&before) {
        return Err("the product altered memory that it may not write".into());
    }
    if answer != theirs || out != after.middle() {
        let lent = after.middle();
        return Err(format!("here {answer:?} with\n{out:?}\nthe product answers {theirs:?} with\n{lent:?}"));
    }
    let written = NUMBER_BYTES * answer.results as usize;
    if out[written..] != held[written..] || (answer.refusal != 0 && answer.results != 0) {
        return Err(format!("answered {answer:?}, and not all else left"));
    }
    Ok(Told { answer, out })
}

/// Two sets within tolerance, and how far each result moves between them.
fn compare_sets(moving: &Moving, numbers: &[u32], counts: &mut Counts, rng: &mut Rng) -> Result<(), String> {
    let sets = near_sets(&moving.tolerances, rng);
    let results = [evaluated(&moving.made, &sets[0])?, evaluated(&moving.made, &sets[1])?];
    for (place, &number) in numbers.iter().enumerate() {
        let wrong = || Err(format!("{sets:?} give {results:?}: result {place} with the number {number}"));
        let found = match results.each_ref().map(|values| values[place]) {
            [Value::Whole(x), Value::Whole(y)] => match x.abs_diff(y).cmp(&number) {
                Ordering::Greater => return wrong(),
                Ordering::Equal if number > 0 => "results moved just as far",
                Ordering::Equal => "results that cannot move",
                Ordering::Less => "results moved less far",
            },
            [Value::Err(_), _] | [_, Value::Err(_)] => "results err in either set",
            _ => return wrong(),
        };
        *counts.entry(found.into()).or_default() += 1;
    }
    Ok(())
}

/// The product's results for a set.
fn evaluated(made: &Made, set: &[Value]) -> Result<Vec<Value>, String> {
    let mut out = [0; OUT_BYTES];
    // A sheet that is told has no loops, and needs no rounds.
    let answer = product::evaluate(&made.bytes, &made.kinds, &bytes::encode_set(set), 0, &mut out);
    match (answer.refusal, bytes::decode_set(&out)) {
        (0, Some(values)) => Ok(values),
        _ => Err(format!("{set:?} is evaluated as {answer:?} with {out:?}")),
    }
}
