// The calls that the firmware makes, over byte memory: a value is a tag byte, 1 whole number, 2 truth, 3 err, 4 float,
// and 32 bits little-endian. Documents 01 and 02 leave this form free; it is the product's, and only this file knows it.
// A truth's bits are 0 or 1, an err's 0, 1 or 2 for E, Z or V, a float's its own, where they are finite.

use crate::eval;
use crate::sheet::{self, Refusal};
use crate::value::{Float, Reason, ResultSet, Value, PLACES};

pub const VALUE_BYTES: usize = 5;
pub const OUT_BYTES: usize = PLACES * VALUE_BYTES;

/// What `bench_read` answers.
#[repr(C)]
#[derive(Clone, Copy, PartialEq, Eq, Debug, Default)]
pub struct ReadAnswer {
    pub refusal: u32,
    pub row: u32,
    pub rows: u32,
    pub operators: u32,
    pub inputs: u32,
    pub results: u32,
}

/// What `bench_evaluate` answers.
#[repr(C)]
#[derive(Clone, Copy, PartialEq, Eq, Debug, Default)]
pub struct EvaluateAnswer {
    pub refusal: u32,
    pub row: u32,
    pub width: u32,
    pub rounds: u32,
}

pub fn read(bytes: &[u8], kinds: &[u8]) -> ReadAnswer {
    match sheet::read(bytes, kinds) {
        Ok(sheet) => {
            let sheet::Figures { rows, operators, inputs, results } = sheet.figures;
            ReadAnswer { refusal: 0, row: 0, rows, operators, inputs, results }
        }
        Err(Refusal { number, row }) => ReadAnswer { refusal: number, row, ..ReadAnswer::default() },
    }
}

/// Refusals in the order 11, 1 to 9, 17, 18, 10, 12, 36; `out` is written on acceptance only.
pub fn evaluate(sheet: &[u8], kinds: &[u8], set: &[u8], rounds: u32, out: &mut [u8]) -> EvaluateAnswer {
    match evaluated(sheet, kinds, set, rounds, out.len()) {
        Ok(done) => {
            out[..OUT_BYTES].copy_from_slice(&encode_result(&done.set));
            EvaluateAnswer { refusal: 0, row: 0, width: done.set.width as u32, rounds: done.rounds }
        }
        Err(Refusal { number, row }) => EvaluateAnswer { refusal: number, row, ..EvaluateAnswer::default() },
    }
}

fn evaluated(sheet: &[u8], kinds: &[u8], set: &[u8], rounds: u32, room: usize) -> Result<eval::Evaluated, Refusal> {
    if room < OUT_BYTES {
        return sheet::refuse(11, 0);
    }
    let sheet = sheet::read(sheet, kinds)?;
    match decode_set(set) {
        Some(values) => eval::evaluate(&sheet, &values, rounds),
        None => sheet::refuse(12, 0),
    }
}

pub fn encode(value: Value) -> [u8; VALUE_BYTES] {
    let (tag, bits) = match value {
        Value::Whole(number) => (1, number as u32),
        Value::Truth(truth) => (2, u32::from(truth)),
        Value::Err(reason) => (3, reason_bits(reason)),
        Value::Real(float) => (4, float.bits()),
    };
    let [a, b, c, d] = bits.to_le_bytes();
    [tag, a, b, c, d]
}

fn reason_bits(reason: Reason) -> u32 {
    match reason {
        Reason::Other => 0,
        Reason::ZeroDivisor => 1,
        Reason::OutOfRange => 2,
    }
}

pub fn encode_set(set: &[Value]) -> Vec<u8> {
    set.iter().flat_map(|&value| encode(value)).collect()
}

pub fn encode_result(set: &ResultSet) -> [u8; OUT_BYTES] {
    let mut out = [0; OUT_BYTES];
    for (place, &value) in out.chunks_exact_mut(VALUE_BYTES).zip(&set.values) {
        place.copy_from_slice(&encode(value));
    }
    out
}

pub fn decode(bytes: &[u8]) -> Option<Value> {
    let bits = u32::from_le_bytes([bytes[1], bytes[2], bytes[3], bytes[4]]);
    match (bytes[0], bits) {
        (1, _) => Some(Value::Whole(bits as i32)),
        (2, 0 | 1) => Some(Value::Truth(bits == 1)),
        (3, 0) => Some(Value::E),
        (3, 1) => Some(Value::Z),
        (3, 2) => Some(Value::V),
        (4, _) => Float::of_bits(bits).map(Value::Real),
        _ => None,
    }
}

/// The values of a set, if it is in whole and good ones.
pub fn decode_set(bytes: &[u8]) -> Option<Vec<Value>> {
    if !bytes.len().is_multiple_of(VALUE_BYTES) {
        return None;
    }
    bytes.chunks_exact(VALUE_BYTES).map(decode).collect()
}

#[cfg(test)]
mod tests {
    use super::*;

    #[test]
    fn a_value_is_read_back_as_it_was_written() {
        let others = [Value::Whole(i32::MIN), Value::Whole(-1), Value::Truth(true), Value::Truth(false)];
        let floats = [0.0, -0.0, 1.5, f32::MIN, f32::MAX, f32::MIN_POSITIVE, f32::from_bits(1)].map(Value::real);
        let values = [&others[..], &Value::ERRS, &floats].concat();
        assert_eq!(decode_set(&encode_set(&values)), Some(values));
        assert_eq!(encode(Value::Whole(-2)), [1, 0xfe, 0xff, 0xff, 0xff]);
        for (err, bits) in [(Value::E, 0), (Value::Z, 1), (Value::V, 2)] {
            assert_eq!(encode(err), [3, bits, 0, 0, 0]);
        }
        let bad_errs = [[3, 3, 0, 0, 0], [3, 255, 0, 0, 0], [3, 1, 1, 0, 0], [3, 0, 0, 0, 1]];
        assert_eq!(encode(Value::real(-1.0)), [4, 0, 0, 0x80, 0xbf]);
        assert_eq!(decode(&[4, 0, 0, 0, 0x80]), Some(Value::real(-0.0)));
        for bad in [[0, 0, 0, 0, 0], [5, 0, 0, 0, 0], [2, 2, 0, 0, 0], [2, 1, 0, 0, 1]].into_iter().chain(bad_errs) {
            assert_eq!(decode_set(&bad), None);
        }
        // Both infinities, the patterns next to them and the last of each sign.
        for [c, d] in [[0x80, 0x7f], [0x80, 0xff], [0xff, 0x7f], [0xff, 0xff], [0xc0, 0x7f]] {
            assert_eq!([[4, 0, 0, c, d], [4, 1, 0, c, d], [4, 0xff, 0xff, c, d]].map(|bad| decode(&bad)), [None; 3]);
        }
        assert_eq!(decode_set(&[1, 0, 0, 0]), None);
    }

    #[test]
    fn a_refused_evaluation_leaves_the_out_bytes() {
        let identity = sheet::write(&[[1, 4, 0, 0, 0]]);
        let mut out = [0x55; 90];
        assert_eq!(evaluate(&identity, b"T\n", &[], 0, &mut out).refusal, 12);
        assert_eq!(evaluate(&identity, b"W\n", &encode(Value::Truth(true)), 0, &mut out).refusal, 12);
        assert_eq!(evaluate(&identity, b"W", &[], 0, &mut out).refusal, 17);
        assert_eq!(evaluate(b"", b"", &[], 0, &mut out[..79]).refusal, 11);
        assert_eq!(evaluate(b"", b"", &[], 0, &mut out).refusal, 1);
        assert_eq!(out, [0x55; 90]);
        let answer = evaluate(&identity, b"T\n", &encode(Value::Truth(true)), 0, &mut out);
        assert_eq!(answer, EvaluateAnswer { refusal: 0, row: 0, width: 1, rounds: 0 });
        assert_eq!(out[..10], [2, 1, 0, 0, 0, 3, 0, 0, 0, 0]);
        assert_eq!(out[75..], [3, 0, 0, 0, 0, 0x55, 0x55, 0x55, 0x55, 0x55, 0x55, 0x55, 0x55, 0x55, 0x55]);
    }
}
