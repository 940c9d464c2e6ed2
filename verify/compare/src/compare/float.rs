//! Floats by their bits, and the narrowest width that holds the same value.
//!
//! The arithmetic is on whole numbers alone, so that it has nothing in common with the conversions of the crate.

/// A float: how many bytes its bits have, and these bits.
#[derive(Clone, Copy, Debug, PartialEq)]
pub struct Float {
    /// 2, 4 or 8.
    pub width: usize,
    /// The bits, in the low bytes.
    pub bits: u64,
}

/// What the bits of a width mean: how many of them the fraction has, and the exponent's bias.
struct Layout {
    fraction: u32,
    bias: i64,
}

/// How many bits the fraction of a double has.
const DOUBLE_FRACTION: u32 = 52;

/// Returns the layout of a width of 2, 4 or 8 bytes.
fn layout_of(width: usize) -> Layout {
    match width {
        2 => Layout {
            fraction: 10,
            bias: 15,
        },
        4 => Layout {
            fraction: 23,
            bias: 127,
        },
        _ => Layout {
            fraction: DOUBLE_FRACTION,
            bias: 1023,
        },
    }
}

impl Float {
    /// Returns the bytes of the bits, the most significant one first.
    pub fn bytes(self) -> Vec<u8> {
        self.bits.to_be_bytes()[8 - self.width..].to_vec()
    }

    /// Returns the float that the crate writes after it read this one: the narrowest that gives the same double. A NaN
    /// that was read from less than a double becomes a quiet one.
    pub fn narrowed(self) -> Float {
        let double = self.widened();
        for width in [2, 4] {
            if let Some(bits) = narrow(double, width) {
                return Float { width, bits };
            }
        }
        Float {
            width: 8,
            bits: double,
        }
    }

    /// Returns the bits of the double of the same value.
    fn widened(self) -> u64 {
        if self.width == 8 {
            return self.bits;
        }
        let layout = layout_of(self.width);
        let sign = self.bits >> (8 * self.width - 1) << 63;
        let fraction = self.bits & ((1 << layout.fraction) - 1);
        let greatest = 2 * layout.bias + 1;
        let exponent = (self.bits >> layout.fraction) as i64 & greatest;
        let shift = DOUBLE_FRACTION - layout.fraction;
        if exponent == greatest {
            let quiet = if fraction == 0 { 0 } else { 1 << 51 };
            return sign | 0x7ff << 52 | quiet | fraction << shift;
        }
        if exponent == 0 {
            return sign | scaled(fraction, 1 - layout.bias - i64::from(layout.fraction));
        }
        sign | ((exponent - layout.bias + 1023) as u64) << 52 | fraction << shift
    }
}

/// Returns the bits of the double `number * 2^exponent`, whose number is below 2^52 and whose value is a normal double
/// or 0.
fn scaled(number: u64, exponent: i64) -> u64 {
    if number == 0 {
        return 0;
    }
    let highest = 63 - number.leading_zeros();
    let fraction = number << (DOUBLE_FRACTION - highest) & ((1 << 52) - 1);
    ((exponent + i64::from(highest) + 1023) as u64) << 52 | fraction
}

/// Returns the bits of the float of 2 or 4 bytes that has the value of this double, if there is one.
fn narrow(double: u64, width: usize) -> Option<u64> {
    let layout = layout_of(width);
    let shift = DOUBLE_FRACTION - layout.fraction;
    let sign = double >> 63 << (8 * width - 1);
    let fraction = double & ((1 << 52) - 1);
    let exponent = (double >> 52 & 0x7ff) as i64;
    let greatest = ((2 * layout.bias + 1) as u64) << layout.fraction;
    if exponent == 0x7ff {
        let is_held = fraction == 0 || fraction >> 51 == 1;
        return shifted(fraction, shift)
            .filter(|_| is_held)
            .map(|fraction| sign | greatest | fraction);
    }
    if exponent == 0 {
        return if fraction == 0 { Some(sign) } else { None };
    }
    let exponent = exponent - 1023 + layout.bias;
    if exponent > 2 * layout.bias {
        return None;
    }
    if exponent >= 1 {
        return shifted(fraction, shift)
            .map(|fraction| sign | (exponent as u64) << layout.fraction | fraction);
    }
    let shift = u32::try_from(1 - exponent).ok()?.checked_add(shift)?;
    shifted(fraction | 1 << 52, shift).map(|fraction| sign | fraction)
}

/// Returns the number without its low bits, if these are all 0.
fn shifted(number: u64, shift: u32) -> Option<u64> {
    let high = number.checked_shr(shift)?;
    if high << shift == number {
        Some(high)
    } else {
        None
    }
}

#[cfg(test)]
mod tests {
    use super::Float;

    /// Bits of a width, and those of the narrowest width of the same value, worked by hand from IEEE 754.
    const NARROWED: [(usize, u64, usize, u64); 20] = [
        (2, 0x3c00, 2, 0x3c00),
        (2, 0x0001, 2, 0x0001),
        (2, 0x8000, 2, 0x8000),
        (2, 0x7c01, 2, 0x7e01),
        (4, 0x3f80_0000, 2, 0x3c00),
        (4, 0x47c3_5000, 4, 0x47c3_5000),
        (4, 0x7f80_0000, 2, 0x7c00),
        (4, 0x7f80_0001, 4, 0x7fc0_0001),
        (4, 0x0000_0001, 4, 0x0000_0001),
        (4, 0x3380_0000, 2, 0x0001),
        (4, 0x3300_0000, 4, 0x3300_0000),
        (8, 0x3ff8_0000_0000_0000, 2, 0x3e00),
        (8, 0x3ff1_9999_9999_999a, 8, 0x3ff1_9999_9999_999a),
        (8, 0x40ef_fc00_0000_0000, 2, 0x7bff),
        (8, 0x40ef_fc20_0000_0000, 4, 0x477f_e100),
        (8, 0x40ef_fc00_0000_0001, 8, 0x40ef_fc00_0000_0001),
        (8, 0x7ff8_0000_0000_0000, 2, 0x7e00),
        (8, 0x7ff0_0000_0000_0001, 8, 0x7ff0_0000_0000_0001),
        (8, 0x7ff4_0000_0000_0000, 8, 0x7ff4_0000_0000_0000),
        (8, 0x0000_0000_0000_0001, 8, 0x0000_0000_0000_0001),
    ];

    #[test]
    fn the_narrowest_width_is_taken() {
        for (width, bits, narrow_width, narrow_bits) in NARROWED {
            let narrowed = Float { width, bits }.narrowed();
            assert_eq!(
                (narrowed.width, narrowed.bits),
                (narrow_width, narrow_bits),
                "{bits:x}"
            );
        }
    }

    #[test]
    fn singles_agree_with_the_machine() {
        for step in 0..1_000_000u32 {
            let bits = step.wrapping_mul(0x9e37_79b9);
            let single = f32::from_bits(bits);
            let double = f64::from(single);
            if single.is_nan() {
                continue;
            }
            let float = Float {
                width: 4,
                bits: u64::from(bits),
            };
            assert_eq!(float.widened(), double.to_bits(), "{bits:08x}");
            let wide = Float {
                width: 8,
                bits: double.to_bits(),
            };
            assert_eq!(wide.narrowed(), float.narrowed(), "{bits:08x}");
        }
    }
}
