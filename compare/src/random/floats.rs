// Random floats: all exponents, numbers below the normal ones, both zeros, and those about which rounding and the end of the range are decided.
// Pairs of them are made for each of these besides, since two floats at random seldom have exponents near enough to round.

use super::Rng;
use crate::value::Float;

const SIGN: u32 = 1 << 31;
const FRACTION_BITS: u32 = 23;
const FRACTIONS: u32 = 1 << FRACTION_BITS;

/// The greatest exponent of a finite float, as it stands in the pattern, and that of 1.0.
const GREATEST: u32 = 254;
const ONE: u32 = 127;

/// 0, the least floats, both sides of the least normal one, of 1, 2, 2^23 and 2^24, a half, 0.1, 1000, and the greatest floats.
const EDGES: [u32; 21] = [
    0,
    0,
    1,
    2,
    3,
    FRACTIONS - 1,
    FRACTIONS,
    FRACTIONS + 1,
    1_065_353_215,
    1_065_353_216,
    1_065_353_217,
    1_073_741_823,
    1_073_741_824,
    1_258_291_200,
    1_266_679_808,
    1_266_679_809,
    1_056_964_608,
    1_036_831_949,
    1_148_846_080,
    2_139_095_038,
    2_139_095_039,
];

/// Patterns about those that are not finite: infinities, and what is no number.
const NOT_FINITE: [u32; 6] = [2_139_095_040, 2_139_095_041, 2_143_289_344, 2_147_483_647, 4_286_578_688, u32::MAX];

/// A float as a reading: mostly of a size that formulas go on with.
pub fn random_float(rng: &mut Rng) -> Float {
    match rng.below(100) {
        0..=34 => reading(rng),
        35..=44 => finite((rng.below(16) as f32 - 4.0).to_bits()),
        45..=59 => edge(rng),
        60..=69 => beside(reading(rng), rng),
        70..=79 => composed(rng.below(GREATEST as usize + 1) as u32, rng),
        _ => any(rng),
    }
}

/// Any pattern, one in three or so not finite.
pub fn random_pattern(rng: &mut Rng) -> u32 {
    match rng.below(6) {
        0 => rng.pick(&NOT_FINITE),
        1 => (rng.number() as u32) | 0x7f80_0000,
        _ => random_float(rng).bits(),
    }
}

/// Two floats for an operator.
pub fn float_pair(rng: &mut Rng) -> [Float; 2] {
    let pair = match rng.below(15) {
        0 => [any(rng), any(rng)],
        1 => [edge(rng), edge(rng)],
        2 => [edge(rng), any(rng)],
        3 => [reading(rng), reading(rng)],
        4 => [random_float(rng), random_float(rng)],
        5 => [below_normal(rng), below_normal(rng)],
        6 => neighbours(rng),
        7 => with_exponents(rng, 0),
        8 | 9 => with_exponents(rng, 26),
        10 => tie(rng),
        11 => short_fractions(rng),
        12 => product_at_an_end(rng),
        13 => [composed(GREATEST - rng.below(2) as u32, rng), composed(GREATEST - rng.below(27) as u32, rng)],
        _ => quotient_at_an_end(rng),
    };
    if rng.chance(50) {
        [pair[1], pair[0]]
    } else {
        pair
    }
}

fn finite(bits: u32) -> Float {
    Float::of_bits(bits).expect("a finite pattern")
}

fn signed(bits: u32, rng: &mut Rng) -> Float {
    finite(if rng.chance(50) { bits ^ SIGN } else { bits })
}

/// Any finite pattern, all of them alike.
fn any(rng: &mut Rng) -> Float {
    loop {
        if let Some(float) = Float::of_bits((rng.number() >> 32) as u32) {
            return float;
        }
    }
}

fn edge(rng: &mut Rng) -> Float {
    let bits = rng.pick(&EDGES);
    signed(bits, rng)
}

/// A number of at most three places behind the point, as a beacon shows it.
fn reading(rng: &mut Rng) -> Float {
    let most = rng.pick(&[10, 1_000, 20_000, 1_000_000]);
    let number = rng.below(most) as f32 / 1000.0;
    finite(if rng.chance(25) { -number } else { number }.to_bits())
}

fn below_normal(rng: &mut Rng) -> Float {
    let bits = fraction(rng);
    signed(bits, rng)
}

/// A float with this exponent, cut to those of finite ones.
fn composed(exponent: u32, rng: &mut Rng) -> Float {
    let bits = exponent.min(GREATEST) << FRACTION_BITS | fraction(rng);
    signed(bits, rng)
}

/// A fraction of any bits, of few high ones, of few low ones, or of nearly all.
fn fraction(rng: &mut Rng) -> u32 {
    let bits = (rng.number() >> 32) as u32 % FRACTIONS;
    match rng.below(6) {
        0 => bits & !((FRACTIONS - 1) >> rng.between(1, 14)),
        1 => bits >> rng.between(15, 23),
        2 => FRACTIONS - 1 - (bits >> rng.between(15, 23)),
        3 => 0,
        _ => bits,
    }
}

/// The float itself, or one a few steps away.
fn beside(float: Float, rng: &mut Rng) -> Float {
    let bits = float.bits().wrapping_add(rng.below(7) as u32).wrapping_sub(3);
    Float::of_bits(bits).unwrap_or(float)
}

/// Floats that are equal or nearly so, but for the sign.
fn neighbours(rng: &mut Rng) -> [Float; 2] {
    let float = random_float(rng);
    let near = beside(float, rng);
    [float, if rng.chance(50) { finite(near.bits() ^ SIGN) } else { near }]
}

/// Exponents that are no further apart than this.
fn with_exponents(rng: &mut Rng, apart: usize) -> [Float; 2] {
    let exponent = rng.below(GREATEST as usize + 1) as u32;
    let other = exponent + rng.below(apart + 1) as u32;
    [composed(exponent, rng), composed(other, rng)]
}

/// A float and an odd number of halves of its last place, so that their sum lies in the middle of two floats or beside it.
fn tie(rng: &mut Rng) -> [Float; 2] {
    let exponent = rng.between(FRACTION_BITS as usize + 2, GREATEST as usize) as u32;
    let half = f32::from_bits((exponent - FRACTION_BITS - 1) << FRACTION_BITS);
    let most = rng.pick(&[1, 2, 16, 256]);
    let halves = (2 * rng.below(most) + 1) as f32 * half;
    let addend = match halves.is_finite() {
        true => beside_or_at(finite(halves.to_bits()), rng),
        false => finite(half.to_bits()),
    };
    [composed(exponent, rng), finite(if rng.chance(50) { addend.bits() ^ SIGN } else { addend.bits() })]
}

fn beside_or_at(float: Float, rng: &mut Rng) -> Float {
    if rng.chance(60) {
        float
    } else {
        beside(float, rng)
    }
}

/// Fractions of together about as many bits as one more than a float has, whose product often lies in the middle of two floats.
fn short_fractions(rng: &mut Rng) -> [Float; 2] {
    let bits = rng.between(6, 18) as u32;
    let mut short = |bits: u32| {
        let fraction = ((rng.number() >> 32) as u32 % FRACTIONS) & !((FRACTIONS - 1) >> bits);
        let odd = 1 << (FRACTION_BITS - bits);
        let exponent = rng.between(ONE as usize - 50, ONE as usize + 50) as u32;
        exponent << FRACTION_BITS | fraction | odd
    };
    let (one, other) = (short(bits), short(24 - bits));
    [signed(one, rng), signed(other, rng)]
}

/// Exponents whose product is about the greatest, or about the least or half of it.
fn product_at_an_end(rng: &mut Rng) -> [Float; 2] {
    let sum = match rng.chance(50) {
        true => GREATEST + ONE - 3 + rng.below(6) as u32,
        false => ONE - 25 + rng.below(30) as u32,
    };
    let one = rng.between(sum.saturating_sub(GREATEST) as usize, sum.min(GREATEST) as usize) as u32;
    [composed(one, rng), composed(sum - one, rng)]
}

/// Exponents whose quotient, this way or the other, is about the greatest or the least.
fn quotient_at_an_end(rng: &mut Rng) -> [Float; 2] {
    let apart = rng.between(ONE as usize - 3, ONE as usize + 25) as u32;
    let less = rng.below((GREATEST - apart) as usize + 1) as u32;
    [composed(less, rng), composed(less + apart, rng)]
}

#[cfg(test)]
mod tests {
    use super::*;
    use crate::value::{operate, Value};

    /// The patterns that a value may have: an err's is no float's.
    fn bits_of(value: Value) -> Option<u32> {
        match value {
            Value::Real(float) => Some(float.bits()),
            _ => None,
        }
    }

    /// Whether a sum, difference or product of 64 bits lies in the middle of two normal floats, or, where it is itself rounded, very near to it.
    fn is_tie(exact: f64) -> bool {
        let size = exact.abs();
        size >= f64::from(f32::MIN_POSITIVE) && size <= f64::from(f32::MAX) && exact.to_bits() % (1 << 29) == 1 << 28
    }

    /// A 64-bit result rounded once more is the result of one rounding: 53 bits are more than twice 24 and two.
    fn in_64_bits(code: u32, x: f64, y: f64) -> f64 {
        match code {
            1 => x + y,
            2 => x - y,
            3 => x * y,
            _ => x / y,
        }
    }

    #[test]
    fn arithmetic_on_pairs_is_that_of_64_bits_rounded_and_meets_every_end() {
        let mut rng = Rng::new(754);
        for code in 1..=4 {
            let (mut ties, mut small, mut zeros, mut out) = (0, 0, 0, 0);
            for _ in 0..100_000 {
                let [x, y] = float_pair(&mut rng);
                let value = operate(code, &[Value::Real(x), Value::Real(y)]);
                let exact = in_64_bits(code, x.number().into(), y.number().into());
                match value {
                    Value::Z => assert!(code == 4 && y.number() == 0.0),
                    Value::V => assert!((exact as f32).is_infinite()),
                    value => assert_eq!(bits_of(value), Some((exact as f32).to_bits()), "{code} of {x:?} and {y:?}"),
                }
                ties += u32::from(is_tie(exact));
                small += u32::from(bits_of(value).is_some_and(|bits| (1..FRACTIONS).contains(&(bits % SIGN))));
                zeros += u32::from(bits_of(value) == Some(SIGN));
                out += u32::from(value == Value::V);
            }
            let seen = format!("code {code}: {ties} ties, {small} below normal, {zeros} of -0, {out} out of range");
            // The quotient of two floats never lies in the middle of two normal ones.
            assert!((code == 4 || ties > 2_000) && small > 2_000 && zeros > 50 && out > 400, "{seen}");
        }
    }

    #[test]
    fn pairs_are_often_equal_and_often_less() {
        let mut rng = Rng::new(7);
        for (code, least) in [(6, 30_000), (7, 1_000)] {
            let mut pair = || operate(code, &float_pair(&mut rng).map(Value::Real));
            let found = (0..100_000).filter(|_| pair() == Value::Truth(true)).count();
            assert!(found > least, "code {code}: {found}");
        }
    }

    #[test]
    fn readings_are_of_every_exponent_and_patterns_often_not_finite() {
        let mut rng = Rng::new(9);
        let mut seen = [0; 255];
        (0..100_000).for_each(|_| seen[((random_float(&mut rng).bits() % SIGN) >> FRACTION_BITS) as usize] += 1);
        assert!(seen.iter().all(|&count| count > 0), "{seen:?}");
        let found = (0..1_000).filter(|_| Float::of_bits(random_pattern(&mut rng)).is_none()).count();
        assert!((200..500).contains(&found), "{found}");
    }
}
