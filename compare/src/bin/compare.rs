// Runs random cases through the product's reader and evaluator and through those here, and stops at the first
// difference, which it prints in full. Usage: compare CASES SEED [FIRST]. A case is made from the seed and its number
// alone, so that `compare 1 SEED NUMBER` makes it again.

use compare::arguments::{Cases, Counts};
use compare::bytes::{self, EvaluateAnswer, OUT_BYTES, VALUE_BYTES};
use compare::product;
use compare::random::turns::random_sheet;
use compare::random::{random_err, random_float_bytes, random_set, random_value, Made, Rng};
use compare::sheet;
use compare::surrounded::Surrounded;
use compare::value::{Sort, Value};

/// The rounds within which an evaluation is looked for; a loop that takes more is given fewer than it needs.
const ROUNDS: u32 = 2_000;

/// How many cases of each kind were compared.
fn main() {
    Cases::asked("compare").compare(|number, counts, rng| {
        let (kind, made) = random_sheet(number, rng);
        let compared = compare_read(&made, counts, rng).and_then(|()| {
            *counts.entry(kind.clone()).or_default() += 1;
            (0..3).try_for_each(|_| compare_evaluate(&made, counts, rng))
        });
        compared.map_err(|difference| format!("{kind}\n{made}\n{difference}"))
    });
}

fn compare_read(made: &Made, counts: &mut Counts, rng: &mut Rng) -> Result<(), String> {
    let ours = bytes::read(&made.bytes, &made.kinds);
    let (sheet, kinds) = (Surrounded::new(&made.bytes, rng), Surrounded::new(&made.kinds, rng));
    let theirs = product::read(sheet.middle(), kinds.middle());
    *counts.entry(format!("read with {:2}", ours.refusal)).or_default() += 1;
    if ours == theirs {
        return Ok(());
    }
    Err(format!("reading gives here    {ours:?}\nthe product answers   {theirs:?}"))
}

/// One evaluation with a random set, lent rounds and room.
fn compare_evaluate(made: &Made, counts: &mut Counts, rng: &mut Rng) -> Result<(), String> {
    let (sheet, kinds) = (&made.bytes, &made.kinds);
    let set = random_set_bytes(made, rng);
    let rounds = random_rounds(made, &set, rng);
    let room = if rng.chance(90) { OUT_BYTES } else { rng.pick(&[0, 1, 5, 79, 81, 160]) };
    let held: Vec<u8> = (0..room).map(|_| rng.number() as u8).collect();
    let mut our_out = held.clone();
    let ours = bytes::evaluate(sheet, kinds, &set, rounds, &mut our_out);
    let [lent_sheet, lent_kinds, lent_set] = [sheet, kinds, &set].map(|bytes| Surrounded::new(bytes, rng));
    let before = Surrounded::new(&held, rng);
    let mut after = before.clone();
    let theirs =
        product::evaluate(lent_sheet.middle(), lent_kinds.middle(), lent_set.middle(), rounds, after.middle_mut());
    let kept = lent_sheet.middle() == sheet && lent_kinds.middle() == kinds && lent_set.middle() == set;
    if !kept || !after.margins_equal(&before) {
        return Err("the product altered memory that it may not write".into());
    }
    let their_out = after.middle();
    *counts.entry(format!("evaluated with {:2}", ours.refusal)).or_default() += 1;
    if ours == theirs && our_out == their_out {
        count_results(&ours, &our_out, counts);
        return Ok(());
    }
    let lent = format!("set {set:02x?}\nrounds lent {rounds}, room {room} holding {held:02x?}");
    let show = |answer: EvaluateAnswer, out: &[u8]| format!("{answer:?}\nwith {out:02x?}");
    Err(format!(
        "{lent}\nevaluation gives here {}\nthe product answers   {}",
        show(ours, &our_out),
        show(theirs, their_out)
    ))
}

/// How many accepted evaluations have a result that is no err, and how many a Z, a V or a float.
fn count_results(answer: &EvaluateAnswer, out: &[u8], counts: &mut Counts) {
    let results = || out.chunks_exact(VALUE_BYTES).take(answer.width as usize).filter_map(bytes::decode);
    let mut count = |kind: &str, found: bool| *counts.entry(kind.into()).or_default() += u64::from(found);
    count("evaluated to more than errs", results().any(|value| !value.is_err()));
    count("evaluated to Z", results().any(|value| value == Value::Z));
    count("evaluated to V", results().any(|value| value == Value::V));
    count("evaluated to a float", results().any(|value| matches!(value, Value::Real(_))));
}

/// Mostly a set that fits the sheet; else one with a value of another kind, a value or a byte too many or too few, or with a bad value.
fn random_set_bytes(made: &Made, rng: &mut Rng) -> Vec<u8> {
    let mut values = match sheet::read(&made.bytes, &made.kinds) {
        Ok(sheet) => random_set(&sheet, rng),
        Err(_) => (0..rng.below(4)).map(|_| random_value(rng.pick(&[Sort::Whole, Sort::Real]), rng)).collect(),
    };
    let change = rng.below(40);
    match change {
        0 => values.push(random_value(Sort::Whole, rng)),
        1 => drop(values.pop()),
        _ => {}
    }
    let mut set = bytes::encode_set(&values);
    match change {
        2 => set.push(0),
        3 => drop(set.pop()),
        4 if !set.is_empty() => set[rng.below(values.len()) * VALUE_BYTES] = rng.pick(&[0, 4, 5, 128, 255]),
        5 if !set.is_empty() => {
            let place = rng.below(values.len()) * VALUE_BYTES;
            set[place] = 2;
            set[place + rng.between(1, 4)] = rng.pick(&[2, 3, 255]);
        }
        6 if !set.is_empty() => {
            let place = rng.below(values.len()) * VALUE_BYTES;
            set[place..place + VALUE_BYTES].copy_from_slice(&random_err(rng));
        }
        7 | 8 if !set.is_empty() => {
            let place = rng.below(values.len()) * VALUE_BYTES;
            set[place..place + VALUE_BYTES].copy_from_slice(&random_float_bytes(rng));
        }
        _ => {}
    }
    set
}

/// Where the evaluation ends: rounds about as many as it needs, or any greater number; else fewer than it needs.
fn random_rounds(made: &Made, set: &[u8], rng: &mut Rng) -> u32 {
    let answer = bytes::evaluate(&made.bytes, &made.kinds, set, ROUNDS, &mut [0; OUT_BYTES]);
    match answer.refusal {
        0 => rng.pick(&[0, answer.rounds.saturating_sub(1), answer.rounds, answer.rounds + 1, ROUNDS, u32::MAX]),
        _ => rng.below(ROUNDS as usize) as u32,
    }
}
