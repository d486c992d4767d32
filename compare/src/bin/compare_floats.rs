// Works each operator on floats through the product's evaluation, by a sheet of that one operator, and holds every byte it writes to Rust's own floats;
// then each constant of row kind 10, by a sheet of that one row. Stops at the first difference.
// Usage: compare_floats [PAIRS [SEED [STRIDE]]]: so many random pairs a code, and the constants by steps of STRIDE; a million pairs and all constants
// where nothing is said.

use compare::bytes::{encode_result, EvaluateAnswer, OUT_BYTES};
use compare::product;
use compare::random::floats::float_pair;
use compare::random::{random_pattern, Rng};
use compare::sheet::write;
use compare::value::{operands, operate, Float, ResultSet, Value};
use std::collections::BTreeMap;
use std::{env, process};

const PAIRS: u64 = 1_000_000;
const CONSTANTS: u32 = 1_000_000;

/// How many sets in a hundred may have a pattern that is not finite.
const ANY_PATTERN: usize = 2;

/// What an `out` holds that nothing was written to.
const HELD: [u8; OUT_BYTES] = [0x55; OUT_BYTES];

/// How many results of each sort there were.
type Counts = BTreeMap<&'static str, u64>;

fn main() {
    let words: Option<Vec<u64>> = env::args().skip(1).map(|word| word.parse().ok()).collect();
    let (pairs, seed, stride) = match words.as_deref() {
        Some([]) => (PAIRS, 1, 1),
        Some(&[pairs]) => (pairs, 1, 1),
        Some(&[pairs, seed]) => (pairs, seed, 1),
        Some(&[pairs, seed, stride]) if stride > 0 => (pairs, seed, stride),
        _ => {
            eprintln!("usage: compare_floats [PAIRS [SEED [STRIDE]]]");
            process::exit(2)
        }
    };
    let ended = [1, 2, 3, 4, 6, 7, 11].into_iter().try_for_each(|code| operator(code, pairs, seed));
    if let Err(difference) = ended.and_then(|()| constants(stride)) {
        println!("{difference}");
        process::exit(1);
    }
}

/// What the product answers, and what it writes out.
fn evaluated(sheet: &[u8], kinds: &[u8], set: &[u8]) -> (EvaluateAnswer, [u8; OUT_BYTES]) {
    let mut out = HELD;
    let answer = product::evaluate(sheet, kinds, set, 0, &mut out);
    (answer, out)
}

/// What must be answered and written: one value, or a refusal that leaves what was there.
fn wanted(value: Option<Value>) -> (EvaluateAnswer, [u8; OUT_BYTES]) {
    let answer = EvaluateAnswer::default();
    match value {
        Some(value) => (EvaluateAnswer { width: 1, ..answer }, encode_result(&ResultSet::of(&[value]))),
        None => (EvaluateAnswer { refusal: 12, ..answer }, HELD),
    }
}

fn operator(code: u32, pairs: u64, seed: u64) -> Result<(), String> {
    let mut rng = Rng::new(seed.wrapping_mul(1 << 32).wrapping_add(code.into()));
    let names = [[1, 0, 0, 0, 0], [1, 1, 0, 0, 0]];
    let (sheet, kinds) = match operands(code) {
        1 => (write(&[names[0], [5, code, 1, 0, 0]]), &b"R\n"[..]),
        _ => (write(&[names[0], names[1], [4, 1, 2, 0, 0], [5, code, 3, 0, 0]]), &b"RR\n"[..]),
    };
    let mut counts = Counts::new();
    for _ in 0..pairs {
        let patterns = random_patterns(&mut rng);
        let patterns = &patterns[..operands(code)];
        let set: Vec<u8> = patterns.iter().flat_map(|bits| [&[4][..], &bits.to_le_bytes()].concat()).collect();
        // "Patterns that are not finite are refused with 12"
        let floats: Option<Vec<Value>> = patterns.iter().map(|&bits| Float::of_bits(bits).map(Value::Real)).collect();
        let value = floats.map(|floats| operate(code, &floats));
        *counts.entry(sort_of(value)).or_default() += 1;
        let (ours, theirs) = (wanted(value), evaluated(&sheet, kinds, &set));
        if ours != theirs {
            return Err(format!(
                "code {code} of {patterns:?}: here {value:?} in {ours:02x?}\nthe product {theirs:02x?}"
            ));
        }
    }
    let list: Vec<String> = counts.iter().map(|(sort, count)| format!("{sort} {count}")).collect();
    println!("code {code:2}: no difference in {pairs}; {}", list.join(", "));
    Ok(())
}

fn random_patterns(rng: &mut Rng) -> [u32; 2] {
    match rng.chance(ANY_PATTERN) {
        true => [random_pattern(rng), random_pattern(rng)],
        false => float_pair(rng).map(Float::bits),
    }
}

fn sort_of(value: Option<Value>) -> &'static str {
    match value {
        None => "refused",
        Some(Value::Z) => "Z",
        Some(Value::V) => "V",
        Some(Value::Truth(true)) => "true",
        Some(Value::Truth(false)) => "false",
        Some(Value::Real(float)) => match float.number() {
            0.0 => "zeros",
            number if number.is_normal() => "normal",
            _ => "below normal",
        },
        Some(_) => "other",
    }
}

/// "a, 0 to 999,999, divided by 1000 with one rounding".
fn constants(stride: u64) -> Result<(), String> {
    let mut count = 0;
    for a in (0..CONSTANTS).filter(|&a| u64::from(a) % stride == 0 || a == CONSTANTS - 1) {
        let ours = wanted(Some(Value::real(a as f32 / 1000.0)));
        let theirs = evaluated(&write(&[[10, a, 0, 0, 0]]), b"\n", b"");
        if ours != theirs {
            return Err(format!("constant {a}: here {ours:02x?}\nthe product {theirs:02x?}"));
        }
        count += 1;
    }
    println!("no difference in {count} constants");
    Ok(())
}
