//! The report of doubles, and doubles as exact fractions: what a double stands
//! for, taken from its bits, and the double that a fraction over 2^20 is, put
//! together from bits. Nothing here reckons with doubles, so that a conversion
//! or a division that loses something is seen.

use crate::sums::SCALE;

/// A double has a sign bit, 11 bits of exponent and 52 of fraction.
const FRACTION_BITS: u32 = 52;
const SIGN_BIT: u32 = 63;
/// The exponent field of what is infinite or not a number.
const ALL_ONES: u64 = 0x7ff;
/// The exponent field of 1.
const BIAS: i32 = 1_023;

/// What doubles gives.
#[derive(Clone, Copy, Debug)]
pub struct Report {
    pub mean: f64,
    pub pending: f64,
    pub largest: f64,
}

/// The same three as exact fractions, each by its numerator over 2^20.
#[derive(Clone, Copy, Debug, PartialEq, Eq)]
pub struct ExactReport {
    pub mean: i128,
    pub pending: i128,
    pub largest: i128,
}

/// A finite double: the significand times 2 to the exponent, with its sign.
#[derive(Clone, Copy, Debug, PartialEq, Eq)]
pub struct Parts {
    pub negative: bool,
    pub significand: u64,
    pub exponent: i32,
}

impl Report {
    /// In the order of the array that is lent for them.
    pub fn array(&self) -> [f64; 3] {
        [self.mean, self.pending, self.largest]
    }

    pub fn bits(&self) -> [u64; 3] {
        self.array().map(f64::to_bits)
    }

    /// None if one of the three is no fraction over 2^20.
    pub fn exact(&self) -> Option<ExactReport> {
        Some(ExactReport {
            mean: numerator(self.mean)?,
            pending: numerator(self.pending)?,
            largest: numerator(self.largest)?,
        })
    }
}

/// Bit by bit, so that -0 is not taken for 0, and so that anything whatever
/// equals itself.
impl PartialEq for Report {
    fn eq(&self, other: &Report) -> bool {
        self.bits() == other.bits()
    }
}

impl Eq for Report {}

impl ExactReport {
    /// The doubles that these fractions are.
    pub fn report(&self) -> Report {
        Report {
            mean: over_2_to_20(self.mean),
            pending: over_2_to_20(self.pending),
            largest: over_2_to_20(self.largest),
        }
    }
}

/// The parts of a double; none if it is infinite or not a number.
pub fn parts(double: f64) -> Option<Parts> {
    let bits = double.to_bits();
    let negative = bits >> SIGN_BIT == 1;
    let field = bits >> FRACTION_BITS & ALL_ONES;
    let fraction = bits & ((1 << FRACTION_BITS) - 1);
    // A 1 that isn't written stands before the fraction, but not if the field is
    // 0; those doubles have the exponent of field 1.
    let (significand, field) = match field {
        ALL_ONES => return None,
        0 => (fraction, 1),
        _ => (1 << FRACTION_BITS | fraction, field),
    };
    Some(Parts { negative, significand, exponent: field as i32 - BIAS - FRACTION_BITS as i32 })
}

/// The numerator over 2^20 of the fraction that a double is; none if it is
/// finer than 2^-20, too large for this type, or no fraction at all. Both zeros
/// have the numerator 0.
pub fn numerator(double: f64) -> Option<i128> {
    let Parts { negative, significand, exponent } = parts(double)?;
    if significand == 0 {
        return Some(0);
    }
    let shift = exponent + SCALE as i32;
    let places = shift.unsigned_abs();
    let size = i128::from(significand);
    let size = match shift {
        // The 53 bits of a significand and 73 more leave room for the sign.
        0..=73 => size << places,
        74.. => return None,
        _ if significand.trailing_zeros() < places => return None,
        _ => size >> places,
    };
    Some(if negative { -size } else { size })
}

/// The double that a fraction over 2^20 is; 0 is +0. It must have no more than
/// the 53 bits that a double can hold.
pub fn over_2_to_20(numerator: i128) -> f64 {
    if numerator == 0 {
        return f64::from_bits(0);
    }
    let size = numerator.unsigned_abs();
    let leading = size.ilog2();
    assert!(leading - size.trailing_zeros() <= FRACTION_BITS, "{numerator} has over 53 bits");
    // The leading bit comes to stand just above the fraction, and is left out.
    let significand = match leading <= FRACTION_BITS {
        true => size << (FRACTION_BITS - leading),
        false => size >> (leading - FRACTION_BITS),
    };
    let fraction = significand as u64 & ((1 << FRACTION_BITS) - 1);
    let field = (leading as i32 - SCALE as i32 + BIAS) as u64;
    let sign = u64::from(numerator < 0);
    f64::from_bits(sign << SIGN_BIT | field << FRACTION_BITS | fraction)
}
