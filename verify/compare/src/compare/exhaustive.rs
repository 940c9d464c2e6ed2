//! All inputs of up to two bytes, in lines of each kind.

use crate::batch::Comparison;
use compare::word::word_of;
use std::io;

/// The report's names of the kinds, and the beginnings of the lines that each input is asked with.
const BEGINNINGS: [(&str, &[&str]); 5] = [
    ("up to 2 bytes, heads", &["heads"]),
    (
        "up to 2 bytes, chunks",
        &["chunks 0", "chunks 1", "chunks 3", "chunks 4", "chunks 7"],
    ),
    (
        "up to 2 bytes, bytes",
        &["bytes *", "bytes 0", "bytes 1", "bytes 2"],
    ),
    (
        "up to 2 bytes, text",
        &["text *", "text 0", "text 1", "text 4"],
    ),
    (
        "up to 2 bytes, recode",
        &["recode 0", "recode 1", "recode 2", "recode 3"],
    ),
];

/// Compares the answers to all inputs of up to two bytes, in lines of each kind.
pub fn compare(comparison: &mut Comparison<'_>) -> io::Result<()> {
    let words = words();
    for (kind, beginnings) in BEGINNINGS {
        comparison.begin(kind)?;
        for beginning in beginnings {
            for word in &words {
                comparison.add(format!("{beginning} {word}").into_bytes())?;
            }
        }
    }
    comparison.finish()
}

/// Returns the words of all inputs of up to two bytes.
fn words() -> Vec<String> {
    let mut words = vec![word_of(&[])];
    for first in 0..=255 {
        words.push(word_of(&[first]));
    }
    for first in 0..=255 {
        for second in 0..=255 {
            words.push(word_of(&[first, second]));
        }
    }
    words
}
