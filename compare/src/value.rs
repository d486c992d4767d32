// Values and the eleven operators (document 01, "Values and operators"; and, or beside an err: document 02, Job 2; which err: Job 5; kinds of values:
// Job 6; floats: Job 9).
// Arithmetic on whole numbers is exact in 64 bits and then held to the range; that on floats is Rust's own. Assumes nothing.

/// "An err now has a reason: Z zero divisor, V answer out of range, E all else".
#[derive(Clone, Copy, PartialEq, Eq, Debug)]
pub enum Reason {
    ZeroDivisor,
    OutOfRange,
    Other,
}

/// A finite 32-bit float. It is held as its bits, since values are compared bit for bit: -0 is another value than +0.
#[derive(Clone, Copy, PartialEq, Eq, Debug)]
pub struct Float(u32);

impl Float {
    /// Nothing where the pattern is not finite.
    pub fn of_bits(bits: u32) -> Option<Float> {
        f32::from_bits(bits).is_finite().then_some(Float(bits))
    }

    pub fn bits(self) -> u32 {
        self.0
    }

    pub fn number(self) -> f32 {
        f32::from_bits(self.0)
    }
}

/// A whole number of 32 bits, a truth, err, or a float.
#[derive(Clone, Copy, PartialEq, Eq, Debug)]
pub enum Value {
    Whole(i32),
    Truth(bool),
    Err(Reason),
    Real(Float),
}

impl Value {
    pub const Z: Value = Err(Reason::ZeroDivisor);
    pub const V: Value = Err(Reason::OutOfRange);
    pub const E: Value = Err(Reason::Other);

    /// The errs, one of each reason.
    pub const ERRS: [Value; 3] = [Value::Z, Value::V, Value::E];

    /// What an operator on floats gives for this number: "another result that is no finite number gives V".
    pub fn real(number: f32) -> Value {
        Float::of_bits(number.to_bits()).map_or(Value::V, Real)
    }

    /// Row kind 10: "a, 0 to 999,999, divided by 1000 with one rounding". Both are floats as they stand, so that the division alone rounds.
    pub fn thousandths(a: u32) -> Value {
        Value::real(a as f32 / 1000.0)
    }

    pub fn is_err(self) -> bool {
        matches!(self, Err(_))
    }

    /// "given inputs of their kinds or errs": an err may stand for a value of any kind.
    pub fn suits(self, sort: Sort) -> bool {
        match self {
            Whole(_) => sort == Sort::Whole,
            Truth(_) => sort == Sort::Truth,
            Real(_) => sort == Sort::Real,
            Err(_) => true,
        }
    }
}

/// The kind of a value that is no err, a letter of the kinds line. Rows and gates have kinds too, hence this name.
#[derive(Clone, Copy, PartialEq, Eq, Debug)]
pub enum Sort {
    Whole,
    Truth,
    Real,
}

impl Sort {
    pub fn of_letter(letter: u8) -> Option<Sort> {
        match letter {
            b'W' => Some(Sort::Whole),
            b'T' => Some(Sort::Truth),
            b'R' => Some(Sort::Real),
            _ => None,
        }
    }

    pub fn letter(self) -> u8 {
        match self {
            Sort::Whole => b'W',
            Sort::Truth => b'T',
            Sort::Real => b'R',
        }
    }

    /// The two other kinds.
    pub fn others(self) -> [Sort; 2] {
        match self {
            Sort::Whole => [Sort::Truth, Sort::Real],
            Sort::Truth => [Sort::Whole, Sort::Real],
            Sort::Real => [Sort::Whole, Sort::Truth],
        }
    }
}

/// Whether a set has a value for each input, of its kind or err; else it is refused with 12.
pub fn set_suits(set: &[Value], sorts: &[Sort]) -> bool {
    set.len() == sorts.len() && set.iter().zip(sorts).all(|(value, &sort)| value.suits(sort))
}

use Value::{Err, Real, Truth, Whole};

/// The greatest width, and the number of places in a result set.
pub const PLACES: usize = 16;

/// "A result set is sixteen values carried whole, with its width; places past the width hold err."
#[derive(Clone, Copy, PartialEq, Eq, Debug)]
pub struct ResultSet {
    pub values: [Value; PLACES],
    pub width: usize,
}

impl ResultSet {
    pub const EMPTY: ResultSet = ResultSet { values: [Value::E; PLACES], width: 0 };

    pub fn of(values: &[Value]) -> ResultSet {
        let mut set = ResultSet::EMPTY;
        for &value in values {
            set.push(value);
        }
        set
    }

    /// An err for each of so many values.
    pub fn errs(width: usize) -> ResultSet {
        ResultSet { values: [Value::E; PLACES], width }
    }

    pub fn push(&mut self, value: Value) {
        self.values[self.width] = value;
        self.width += 1;
    }

    pub fn used(&self) -> &[Value] {
        &self.values[..self.width]
    }
}

pub const CODES: std::ops::RangeInclusive<u32> = 1..=11;

/// "10 and 11 take one operand, the rest two."
pub fn operands(code: u32) -> usize {
    match code {
        10 | 11 => 1,
        _ => 2,
    }
}

/// The operator with this code, on as many operands as it takes.
pub fn operate(code: u32, operand: &[Value]) -> Value {
    match (code, operand) {
        (1..=7, &[Whole(x), Whole(y)]) => on_wholes(code, x.into(), y.into()),
        (8, &[Truth(x), Truth(y)]) => Truth(x && y),
        (9, &[Truth(x), Truth(y)]) => Truth(x || y),
        // Document 02, Job 2: "false and err is false, true or err is true, whichever side the err stands".
        (8, &[Truth(false), Err(_)] | &[Err(_), Truth(false)]) => Truth(false),
        (9, &[Truth(true), Err(_)] | &[Err(_), Truth(true)]) => Truth(true),
        (10, &[Truth(x)]) => Truth(!x),
        (11, &[Whole(x)]) => in_range(-i64::from(x)),
        // Job 9: "Codes 1 to 4, 6, 7 and 11 take two (or one) such values"; a remainder of floats is a wrong kind.
        (1..=4 | 6 | 7, &[Real(x), Real(y)]) => on_floats(code, x.number(), y.number()),
        (11, &[Real(x)]) => Value::real(-x.number()),
        // Job 5: "An operator with err operands hands on the leftmost err, also beside an operand of a wrong kind"; "a wrong kind gives E".
        _ => operand.iter().copied().find(|value| value.is_err()).unwrap_or(Value::E),
    }
}

fn on_wholes(code: u32, x: i64, y: i64) -> Value {
    match code {
        1 => in_range(x + y),
        2 => in_range(x - y),
        3 => in_range(x * y),
        4 | 5 if y == 0 => Value::Z,
        4 => in_range(x / y),
        5 => in_range(x % y),
        6 => Truth(x < y),
        _ => Truth(x == y),
    }
}

/// "as IEEE 754 does, to nearest even"; "a zero divisor, also -0, gives Z".
fn on_floats(code: u32, x: f32, y: f32) -> Value {
    match code {
        1 => Value::real(x + y),
        2 => Value::real(x - y),
        3 => Value::real(x * y),
        4 if y == 0.0 => Value::Z,
        4 => Value::real(x / y),
        6 => Truth(x < y),
        _ => Truth(x == y),
    }
}

fn in_range(exact: i64) -> Value {
    i32::try_from(exact).map_or(Value::V, Whole)
}

#[cfg(test)]
mod tests {
    use super::*;

    fn two(code: u32, x: i32, y: i32) -> Value {
        operate(code, &[Whole(x), Whole(y)])
    }

    #[test]
    fn sums_stay_in_the_range() {
        assert_eq!(two(1, 2, 3), Whole(5));
        assert_eq!(two(1, i32::MAX, 1), Value::V);
        assert_eq!(two(2, i32::MIN, 1), Value::V);
        assert_eq!(two(2, 3, 5), Whole(-2));
        assert_eq!(two(3, 65_536, 32_768), Value::V);
        assert_eq!(two(3, -65_536, 32_768), Whole(i32::MIN));
        assert_eq!(operate(11, &[Whole(i32::MIN)]), Value::V);
        assert_eq!(operate(11, &[Whole(7)]), Whole(-7));
    }

    #[test]
    fn division_cuts_toward_zero_and_remainder_has_the_dividends_sign() {
        assert_eq!(two(4, -7, 2), Whole(-3));
        assert_eq!(two(4, 7, -2), Whole(-3));
        assert_eq!(two(5, -7, 2), Whole(-1));
        assert_eq!(two(5, 7, -2), Whole(1));
        assert_eq!(two(4, 1, 0), Value::Z);
        assert_eq!(two(5, 0, 0), Value::Z);
        assert_eq!(two(4, i32::MIN, -1), Value::V);
        assert_eq!(two(5, i32::MIN, -1), Whole(0));
    }

    #[test]
    fn comparisons_want_wholes_and_give_truths() {
        assert_eq!(two(6, 1, 2), Truth(true));
        assert_eq!(two(6, 2, 2), Truth(false));
        assert_eq!(two(7, 2, 2), Truth(true));
        assert_eq!(operate(7, &[Truth(true), Truth(true)]), Value::E);
        assert_eq!(operate(6, &[Whole(1), Truth(true)]), Value::E);
    }

    #[test]
    fn truths_want_truths() {
        assert_eq!(operate(8, &[Truth(true), Truth(false)]), Truth(false));
        assert_eq!(operate(9, &[Truth(true), Truth(false)]), Truth(true));
        assert_eq!(operate(10, &[Truth(true)]), Truth(false));
        assert_eq!(operate(9, &[Truth(true), Whole(1)]), Value::E);
        assert_eq!(operate(10, &[Whole(1)]), Value::E);
        assert_eq!(operate(11, &[Truth(true)]), Value::E);
        assert_eq!(two(8, 1, 1), Value::E);
    }

    #[test]
    fn false_decides_and_and_true_decides_or_beside_an_err() {
        for (code, decides) in [(8, false), (9, true)] {
            for err in Value::ERRS {
                for (truth, gives) in [(decides, Truth(decides)), (!decides, err)] {
                    assert_eq!(operate(code, &[Truth(truth), err]), gives);
                    assert_eq!(operate(code, &[err, Truth(truth)]), gives);
                }
            }
        }
    }

    #[test]
    fn a_whole_number_in_and_or_gives_e() {
        for code in [8, 9] {
            for value in [Truth(false), Truth(true), Whole(0)] {
                assert_eq!(operate(code, &[Whole(1), value]), Value::E);
                assert_eq!(operate(code, &[value, Whole(1)]), Value::E);
            }
        }
    }

    #[test]
    fn a_wrong_kind_gives_e_beside_a_zero_divisor() {
        for code in [4, 5] {
            assert_eq!(operate(code, &[Truth(true), Whole(0)]), Value::E);
            assert_eq!(operate(code, &[Whole(0), Truth(false)]), Value::E);
        }
    }

    #[test]
    fn the_leftmost_err_is_handed_on_beside_every_kind() {
        for err in Value::ERRS {
            for code in 1..=9 {
                for other in Value::ERRS {
                    assert_eq!(operate(code, &[err, other]), err);
                }
                // Truths decide with codes 8 and 9 or not, as above.
                for value in [Whole(0), Whole(7), Truth(true), Truth(false), bits(0), bits(MINUS_ZERO), bits(ONE)] {
                    if code <= 7 || !matches!(value, Truth(_)) {
                        assert_eq!(operate(code, &[err, value]), err);
                        assert_eq!(operate(code, &[value, err]), err);
                    }
                }
            }
            assert_eq!(operate(10, &[err]), err);
            assert_eq!(operate(11, &[err]), err);
        }
    }
    /// Patterns by their names: 1.0, -0, the greatest float, the least above 0 and the least that is normal.
    const ONE: u32 = 1_065_353_216;
    const MINUS_ZERO: u32 = 2_147_483_648;
    const GREATEST: u32 = 2_139_095_039;
    const LEAST: u32 = 1;
    const LEAST_NORMAL: u32 = 8_388_608;

    fn bits(bits: u32) -> Value {
        Real(Float::of_bits(bits).expect("a finite pattern"))
    }

    fn float(number: f32) -> Value {
        bits(number.to_bits())
    }

    fn on_bits(code: u32, x: u32, y: u32) -> Value {
        operate(code, &[bits(x), bits(y)])
    }

    fn on_numbers(code: u32, x: f32, y: f32) -> Value {
        operate(code, &[float(x), float(y)])
    }

    fn minus(pattern: u32) -> u32 {
        pattern ^ MINUS_ZERO
    }

    #[test]
    fn only_finite_patterns_are_floats() {
        for pattern in [0, LEAST, ONE, GREATEST, MINUS_ZERO, minus(GREATEST)] {
            assert_eq!(Float::of_bits(pattern).map(Float::bits), Some(pattern));
        }
        for pattern in [GREATEST + 1, GREATEST + 2, 2_147_483_647, minus(GREATEST + 1), u32::MAX] {
            assert_eq!(Float::of_bits(pattern), None);
        }
    }

    #[test]
    fn floats_are_the_same_bit_for_bit_only() {
        assert_ne!(bits(0), bits(MINUS_ZERO));
        assert_eq!(float(-0.0), bits(MINUS_ZERO));
    }

    #[test]
    fn constants_are_rounded_once() {
        let patterns = [(0, 0), (1, 981_668_463), (100, 1_036_831_949), (1_000, ONE), (999_999, 1_148_846_064)];
        for (a, pattern) in patterns {
            assert_eq!(Value::thousandths(a), bits(pattern));
        }
        // The quotient in 53 bits is near enough that rounding it again gives the same.
        for a in 0..=999_999 {
            assert_eq!(Value::thousandths(a), float((f64::from(a) / 1000.0) as f32));
        }
    }

    #[test]
    fn floats_round_to_nearest_even() {
        assert_eq!(on_numbers(1, 0.1, 0.2), bits(1_050_253_722));
        let power = 16_777_216.0;
        for (addend, sum) in [(1.0, power), (2.0, power + 2.0), (3.0, power + 4.0)] {
            assert_eq!(on_numbers(1, power, addend), float(sum));
            assert_eq!(on_numbers(2, power, -addend), float(sum));
        }
        assert_eq!(on_numbers(2, 1.0, 1.0), bits(0));
        assert_eq!(on_numbers(3, 1.5, -2.5), float(-3.75));
        assert_eq!(on_numbers(4, 1.0, 3.0), bits(1_051_372_203));
        assert_eq!(on_numbers(4, -7.0, 2.0), float(-3.5));
    }

    #[test]
    fn small_floats_are_kept_below_the_normal_ones() {
        assert_eq!(on_bits(2, LEAST_NORMAL, LEAST), bits(LEAST_NORMAL - 1));
        assert_eq!(on_bits(1, LEAST_NORMAL - 1, LEAST), bits(LEAST_NORMAL));
        // Half the least is a tie, which goes to zero; half of three times the least goes to twice the least.
        assert_eq!(operate(4, &[bits(LEAST), float(2.0)]), bits(0));
        assert_eq!(operate(4, &[bits(LEAST), float(-2.0)]), bits(MINUS_ZERO));
        assert_eq!(operate(3, &[bits(3), float(0.5)]), bits(2));
        assert_eq!(on_bits(3, LEAST_NORMAL, minus(LEAST_NORMAL)), bits(MINUS_ZERO));
        assert_eq!(on_bits(4, LEAST, GREATEST), bits(0));
    }

    #[test]
    fn a_float_that_is_not_finite_gives_v() {
        assert_eq!(on_bits(1, GREATEST, GREATEST), Value::V);
        assert_eq!(on_bits(2, minus(GREATEST), GREATEST), Value::V);
        assert_eq!(on_bits(3, GREATEST, minus(GREATEST)), Value::V);
        assert_eq!(on_bits(4, GREATEST, LEAST), Value::V);
        // Half a step above the greatest is a tie, which goes to what is no number; anything less goes back.
        let half = f32::powi(2.0, 103);
        assert_eq!(operate(1, &[bits(GREATEST), float(half)]), Value::V);
        assert_eq!(operate(1, &[bits(GREATEST), float(f32::from_bits(half.to_bits() - 1))]), bits(GREATEST));
    }

    #[test]
    fn a_zero_divisor_of_either_sign_gives_z() {
        for zero in [0, MINUS_ZERO] {
            for dividend in [0, MINUS_ZERO, ONE, minus(GREATEST), LEAST] {
                assert_eq!(on_bits(4, dividend, zero), Value::Z);
            }
            assert_eq!(on_bits(4, zero, ONE), bits(zero));
            assert_eq!(on_bits(4, zero, minus(ONE)), bits(minus(zero)));
        }
    }

    #[test]
    fn both_zeros_are_equal_and_neither_is_less() {
        assert_eq!(on_bits(7, MINUS_ZERO, 0), Truth(true));
        assert_eq!(on_bits(6, MINUS_ZERO, 0), Truth(false));
        assert_eq!(on_bits(6, 0, MINUS_ZERO), Truth(false));
        assert_eq!(on_bits(6, minus(LEAST), MINUS_ZERO), Truth(true));
        assert_eq!(on_bits(6, minus(2), minus(1)), Truth(true));
        assert_eq!(on_bits(6, 1, 2), Truth(true));
        assert_eq!(on_bits(6, 1, 1), Truth(false));
        assert_eq!(on_bits(7, ONE, ONE + 1), Truth(false));
        assert_eq!(on_bits(1, MINUS_ZERO, MINUS_ZERO), bits(MINUS_ZERO));
        assert_eq!(on_bits(1, MINUS_ZERO, 0), bits(0));
        assert_eq!(on_bits(2, MINUS_ZERO, 0), bits(MINUS_ZERO));
    }

    #[test]
    fn negate_turns_the_sign() {
        for pattern in [0, LEAST, ONE, GREATEST, MINUS_ZERO, minus(ONE)] {
            assert_eq!(operate(11, &[bits(pattern)]), bits(minus(pattern)));
        }
    }

    #[test]
    fn wholes_and_floats_in_one_operator_are_a_wrong_kind() {
        for code in 1..=9 {
            for other in [Whole(1), Whole(0), Truth(true), Truth(false)] {
                assert_eq!(operate(code, &[bits(ONE), other]), Value::E);
                assert_eq!(operate(code, &[other, bits(ONE)]), Value::E);
                assert_eq!(operate(code, &[other, bits(0)]), Value::E);
            }
        }
        for code in [5, 8, 9] {
            assert_eq!(on_bits(code, ONE, ONE), Value::E);
            assert_eq!(on_bits(code, ONE, 0), Value::E);
        }
        assert_eq!(operate(10, &[bits(ONE)]), Value::E);
    }

    #[test]
    fn each_kind_has_its_letter() {
        for sort in [Sort::Whole, Sort::Truth, Sort::Real] {
            assert_eq!(Sort::of_letter(sort.letter()), Some(sort));
            assert!(!sort.others().contains(&sort));
            assert!(Value::ERRS.iter().all(|err| err.suits(sort)));
        }
        assert!(bits(0).suits(Sort::Real) && !bits(0).suits(Sort::Whole) && !bits(0).suits(Sort::Truth));
        assert!(!Whole(0).suits(Sort::Real) && !Truth(true).suits(Sort::Real));
    }
}
