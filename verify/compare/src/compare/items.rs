//! Random CBOR, and random damage to it.

use compare::random::Random;

/// Arrays and maps nest at most this deep.
const MOST_DEPTH: usize = 4;

/// Bytes that are likely to change the meaning of the bytes around them.
const TELLING_BYTES: [u8; 16] = [
    0x00, 0x18, 0x1b, 0x1c, 0x1f, 0x5f, 0x7f, 0x61, 0x78, 0x9f, 0xc3, 0xe2, 0xed, 0xf0, 0xfb, 0xff,
];

/// Characters at the ends of the ranges that UTF-8 tells apart.
const CHARACTERS: [char; 12] = [
    '\u{0}',
    'a',
    '\u{7f}',
    '\u{80}',
    'é',
    '\u{7ff}',
    '\u{800}',
    '\u{d7ff}',
    '\u{e000}',
    '\u{ffff}',
    '\u{10000}',
    '\u{10ffff}',
];

/// Bits of doubles that fit into less, or barely do not.
const DOUBLES: [u64; 10] = [
    0,
    0x8000_0000_0000_0000,
    0x3ff0_0000_0000_0000,
    0x40ef_fc00_0000_0000,
    0x40ef_fc00_0000_0001,
    0x3e70_0000_0000_0000,
    0x3e60_0000_0000_0000,
    0x36a0_0000_0000_0000,
    0x7ff0_0000_0000_0000,
    0x7ff8_0000_0000_0000,
];

/// Adds a random item.
pub fn item(random: &mut Random, depth: usize, bytes: &mut Vec<u8>) {
    match random.below(12) {
        0 | 1 => number(random, 0, bytes),
        2 => number(random, 1, bytes),
        3 => {
            number(random, 6, bytes);
            item(random, depth + 1, bytes);
        }
        4 | 5 => string(random, 2, bytes),
        6 | 7 => string(random, 3, bytes),
        8 => float(random, bytes),
        9 => simple(random, bytes),
        _ if depth >= MOST_DEPTH => number(random, 0, bytes),
        10 => items(random, 4, 1, depth, bytes),
        _ => items(random, 5, 2, depth, bytes),
    }
}

/// Adds a title of a number of any size.
fn number(random: &mut Random, major: u8, bytes: &mut Vec<u8>) {
    let number = random.number() >> random.below(64);
    title(random, major, number, bytes);
}

/// Adds a title of this number, and sometimes a longer one than is needed.
fn title(random: &mut Random, major: u8, number: u64, bytes: &mut Vec<u8>) {
    let mut width = match number {
        0..=23 => 0,
        24..=0xff => 1,
        0x100..=0xffff => 2,
        0x1_0000..=0xffff_ffff => 3,
        _ => 4,
    };
    if random.one_in(4) {
        width += random.below(5 - width);
    }
    if width == 0 {
        bytes.push(major << 5 | number as u8);
        return;
    }
    bytes.push(major << 5 | (23 + width as u8));
    bytes.extend_from_slice(&number.to_be_bytes()[8 - (1 << (width - 1))..]);
}

/// Returns a length of a string: most are short, and some lie near a length at which something changes.
fn length(random: &mut Random) -> usize {
    match random.below(12) {
        0 => 60 + random.below(10),
        1 => 120 + random.below(20),
        2 => 250 + random.below(12),
        3 => random.below(600),
        _ => random.below(26),
    }
}

/// Returns text of about this length.
pub fn text(random: &mut Random, length: usize) -> String {
    let is_plain = random.one_in(3);
    let mut text = String::new();
    while text.len() < length {
        text.push(if is_plain {
            char::from(b' ' + random.below(95) as u8)
        } else {
            random.pick(&CHARACTERS)
        });
    }
    text
}

/// Adds a string of a definite length.
fn definite(random: &mut Random, major: u8, bytes: &mut Vec<u8>) {
    let length = length(random);
    let body = if major == 3 {
        text(random, length).into_bytes()
    } else {
        (0..length).map(|_| random.number() as u8).collect()
    };
    title(random, major, body.len() as u64, bytes);
    bytes.extend(body);
}

/// Adds a string of either form. One of indefinite length may have others inside it.
pub fn string(random: &mut Random, major: u8, bytes: &mut Vec<u8>) {
    if !random.one_in(3) {
        return definite(random, major, bytes);
    }
    bytes.push(major << 5 | 31);
    for _ in 0..random.below(4) {
        string(random, major, bytes);
    }
    bytes.push(0xff);
}

/// Adds a float of any width.
fn float(random: &mut Random, bytes: &mut Vec<u8>) {
    let double = if random.one_in(2) {
        random.pick(&DOUBLES)
    } else {
        random.number() & random.pick(&[u64::MAX, 0xffff_ffff_e000_0000, 0xffff_fc00_0000_0000])
    };
    match random.below(3) {
        0 => {
            bytes.push(0xf9);
            bytes.extend_from_slice(&(random.number() as u16).to_be_bytes());
        }
        1 => {
            let single = if random.one_in(2) {
                random.number() as u32 & random.pick(&[u32::MAX, 0xffff_e000, 0xff80_0001])
            } else {
                (f64::from_bits(double) as f32).to_bits()
            };
            bytes.push(0xfa);
            bytes.extend_from_slice(&single.to_be_bytes());
        }
        _ => {
            bytes.push(0xfb);
            bytes.extend_from_slice(&double.to_be_bytes());
        }
    }
}

/// Adds a simple value in one or two bytes, and seldom a break that closes nothing.
fn simple(random: &mut Random, bytes: &mut Vec<u8>) {
    match random.below(9) {
        0 => bytes.push(0xff),
        1..=4 => bytes.push(0xe0 | random.below(24) as u8),
        _ => bytes.extend_from_slice(&[0xf8, random.number() as u8]),
    }
}

/// Adds an array or a map, of either form.
fn items(random: &mut Random, major: u8, each: usize, depth: usize, bytes: &mut Vec<u8>) {
    let count = random.below(4);
    let is_open = random.one_in(3);
    if is_open {
        bytes.push(major << 5 | 31);
    } else {
        title(random, major, count as u64, bytes);
    }
    for _ in 0..count * each {
        item(random, depth + 1, bytes);
    }
    if is_open {
        bytes.push(0xff);
    }
}

/// Damages bytes at one place.
pub fn damage(random: &mut Random, bytes: &mut Vec<u8>) {
    let place = random.below(bytes.len() + 1);
    if place == bytes.len() {
        return bytes.push(random.pick(&TELLING_BYTES));
    }
    match random.below(6) {
        0 => bytes[place] ^= 1 << random.below(8),
        1 => bytes[place] = random.pick(&TELLING_BYTES),
        2 => bytes.insert(place, random.pick(&TELLING_BYTES)),
        3 => bytes.truncate(place),
        4 => bytes[place] = random.number() as u8,
        _ => {
            bytes.remove(place);
        }
    }
}

/// Damages bytes at no, one or a few places.
pub fn damage_some(random: &mut Random, bytes: &mut Vec<u8>) {
    if random.one_in(2) {
        return;
    }
    for _ in 0..=random.below(3) {
        damage(random, bytes);
    }
}
