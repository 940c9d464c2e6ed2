// SPDX-License-Identifier: Apache-2.0
//! Turns floats of three widths into numbers, and numbers into floats of the least width that keeps them.

use crate::Float;

/// The bits of a double's exponent, if the double is an infinity or not a number.
const EXPONENT: u64 = 0x7ff0 << 48;

/// The bit that a double has if it is not a number and raises no signal.
const QUIET: u64 = 0x0008 << 48;

/// Returns a float as a number. A float that is not a number becomes quiet.
pub(super) fn number_of(float: Float) -> f64 {
    match float {
        Float::Half(bits) => number_of_half(bits),
        Float::Single(bits) => f64::from(f32::from_bits(bits)),
        Float::Double(bits) => f64::from_bits(bits),
    }
}

fn number_of_half(bits: u16) -> f64 {
    let (sign, exponent) = (u64::from(bits >> 15) << 63, u64::from(bits >> 10 & 31));
    let fraction = u64::from(bits & 1023);
    let size = match (exponent, fraction) {
        (0, _) => (fraction as f64 * 2f64.powi(-24)).to_bits(),
        (31, 0) => EXPONENT,
        (31, _) => EXPONENT | QUIET | fraction << 42,
        _ => (exponent + 1023 - 15) << 52 | fraction << 42,
    };
    f64::from_bits(sign | size)
}

/// Returns the float of the least width that gives this number back, bit for bit.
pub(super) fn float_of(number: f64) -> Float {
    if let Some(bits) = half_of(number) {
        return Float::Half(bits);
    }
    let single = number as f32;
    if f64::from(single).to_bits() == number.to_bits() {
        Float::Single(single.to_bits())
    } else {
        Float::Double(number.to_bits())
    }
}

/// Returns the half that gives this number back, if there is one.
fn half_of(number: f64) -> Option<u16> {
    let bits = number.to_bits();
    let (sign, exponent) = (
        (bits >> 48) as u16 & 0x8000,
        (bits >> 52 & 0x7ff) as i32 - 1023,
    );
    let fraction = bits & ((1 << 52) - 1);
    let size = match exponent {
        1024 => 0x7c00 | fraction >> 42,
        -14..=15 => ((exponent + 15) as u64) << 10 | fraction >> 42,
        // Below the least half with a leading one, the bits are a count of the least half.
        -24..=-15 => (1 << 52 | fraction) >> (28 - exponent),
        _ => 0,
    };
    let half = sign | size as u16;
    (number_of_half(half).to_bits() == bits).then_some(half)
}
