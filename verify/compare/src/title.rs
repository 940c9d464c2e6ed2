//! Titles, by the standard's table (RFC 7049, 2.1).

/// Returns the shortest title of a number.
pub fn shortest(major: u8, number: u64) -> Vec<u8> {
    let bytes = number.to_be_bytes();
    let (minor, width) = match number {
        0..=23 => (number as u8, 0),
        24..=0xff => (24, 1),
        0x100..=0xffff => (25, 2),
        0x1_0000..=0xffff_ffff => (26, 4),
        _ => (27, 8),
    };
    [&[major << 5 | minor], &bytes[8 - width..]].concat()
}
