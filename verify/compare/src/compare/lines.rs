//! Random lines.

use crate::batch::Comparison;
use crate::items;
use compare::random::Random;
use compare::word::word_of;
use std::io;

/// Sizes of buffers that random lines ask for.
const SIZES: [usize; 16] = [0, 1, 2, 3, 4, 5, 6, 7, 8, 9, 16, 63, 64, 65, 256, 65_536];

/// Limits that random lines ask for.
const LIMITS: [&str; 16] = [
    "*",
    "0",
    "1",
    "2",
    "3",
    "4",
    "5",
    "6",
    "7",
    "8",
    "23",
    "24",
    "64",
    "255",
    "256",
    "4294967295",
];

/// Bytes that are put into lines to damage them.
const LINE_BYTES: &[u8] = b"  0019afAFgx*-+\t\r\xff\xc3headschunkstextbytesrecode";

/// Makes a random line of one kind.
type MakeLine = fn(&mut Random) -> Vec<u8>;

/// Compares the answers to `count` random lines: each kind has its share of them.
pub fn compare(
    comparison: &mut Comparison<'_>,
    random: &mut Random,
    count: usize,
) -> io::Result<()> {
    let kinds: [(&'static str, usize, MakeLine); 6] = [
        ("random, heads", 20, heads),
        ("random, chunks", 34, chunks),
        ("random, bytes", 4, bytes),
        ("random, text", 8, text),
        ("random, recode", 30, recode),
        ("random, damaged lines", 4, damaged),
    ];
    for (kind, share, line) in kinds {
        comparison.begin(kind)?;
        for _ in 0..count * share / 100 {
            comparison.add(line(random))?;
        }
    }
    comparison.finish()
}

/// Returns a few items, some of them damaged.
fn some_items(random: &mut Random) -> Vec<u8> {
    let mut bytes = Vec::new();
    for _ in 0..=random.below(3) {
        items::item(random, 0, &mut bytes);
    }
    items::damage_some(random, &mut bytes);
    bytes
}

/// Returns a line `heads` of items.
fn heads(random: &mut Random) -> Vec<u8> {
    format!("heads {}", word_of(&some_items(random))).into_bytes()
}

/// Returns a line `chunks` of a string.
fn chunks(random: &mut Random) -> Vec<u8> {
    let mut bytes = Vec::new();
    let major = random.pick(&[2, 3, 3]);
    items::string(random, major, &mut bytes);
    items::damage_some(random, &mut bytes);
    format!("chunks {} {}", random.pick(&SIZES), word_of(&bytes)).into_bytes()
}

/// Returns a line `bytes`.
fn bytes(random: &mut Random) -> Vec<u8> {
    let length = random.below(300);
    let bytes: Vec<u8> = (0..length).map(|_| random.number() as u8).collect();
    format!("bytes {} {}", random.pick(&LIMITS), word_of(&bytes)).into_bytes()
}

/// Returns a line `text`. Some of these are no text.
fn text(random: &mut Random) -> Vec<u8> {
    let length = random.below(300);
    let mut bytes = items::text(random, length).into_bytes();
    if random.one_in(4) {
        items::damage(random, &mut bytes);
    }
    format!("text {} {}", random.pick(&LIMITS), word_of(&bytes)).into_bytes()
}

/// Returns a line `recode` of items.
fn recode(random: &mut Random) -> Vec<u8> {
    let bytes = some_items(random);
    let count = random.pick(&[0, 1, 1, 2, 3, 4, 5, 8, 4_294_967_295_u64]);
    format!("recode {count} {}", word_of(&bytes)).into_bytes()
}

/// Returns a line of any kind that is damaged as a line. It may still be one.
fn damaged(random: &mut Random) -> Vec<u8> {
    let mut line = random.pick(&[heads, chunks, bytes, text, recode] as &[MakeLine])(random);
    for _ in 0..=random.below(2) {
        // Most damage lies in the words before the digits.
        let most = if random.one_in(3) {
            line.len()
        } else {
            line.len().min(14)
        };
        let place = random.below(most);
        match random.below(4) {
            0 => line[place] = random.pick(LINE_BYTES),
            1 => line.insert(place, random.pick(LINE_BYTES)),
            2 => line.truncate(place),
            _ => {
                line.remove(place);
            }
        }
        if line.is_empty() {
            break;
        }
    }
    line
}
