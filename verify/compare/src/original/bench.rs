//! Works of this repository's bench, done by the calls of the Rust crate. For some of them it also does the least that
//! a program has to do.
//!
//! Each gives the same sum as in the bench, so that both can be held against each other.

use crate::copy::recode;
use crate::string::{read_bytes, read_text, Parts, Stop};
use ciborium_ll::{Decoder, Encoder, Error, Header};

/// The greatest buffer that bodies of strings are read through.
const MOST_SIZE: usize = 4096;

/// How many levels deep the items are that are skipped, at most.
const DEPTH: usize = 256;

/// How a work is done.
pub struct Task<'a> {
    /// The name of the work.
    pub work: &'a str,
    /// The size of the buffer that bodies of strings are read through, and the limit of the segments of `text`.
    pub size: usize,
    /// How many elements are copied, or items skipped.
    pub count: usize,
    /// How often it is done.
    pub rounds: usize,
}

impl Task<'_> {
    /// Does the work `rounds` times. Returns the sum of the results of all rounds, if there is such a work.
    pub fn rounds_over(&self, input: &[u8]) -> Option<u64> {
        let mut space = [0; MOST_SIZE];
        let buffer = &mut space[..self.size.clamp(4, MOST_SIZE)];
        let mut output = vec![0; input.len() * 2];
        let text = std::str::from_utf8(input).unwrap_or("");
        let mut sum = 0;
        for _ in 0..self.rounds {
            sum = match self.work {
                "pull" => pulled(input, sum),
                "push" => pushed(input, &mut output, sum),
                "recode" => recoded(input, &mut output, self.count, buffer, sum),
                "skip" => skipped(input, buffer, sum),
                "items" => items_skipped(input, self.count, buffer, sum),
                "text" => written(text, self.size, &mut output, sum),
                "walk" => walked(input, sum),
                "copy" => copied(input, &mut output, sum),
                _ => return None,
            };
        }
        Some(sum)
    }
}

/// Adds the numbers of the positive headers, and 1 for each other title.
#[inline(never)]
fn pulled(input: &[u8], before: u64) -> u64 {
    let mut decoder = Decoder::from(input);
    let mut sum = before;
    for _ in 0..input.len() {
        match decoder.pull() {
            Ok(Header::Positive(number)) => sum = sum.wrapping_add(number),
            Ok(_) | Err(Error::Syntax(_)) => sum = sum.wrapping_add(1),
            Err(_) => break,
        }
    }
    sum
}

/// Adds how many titles were written.
#[inline(never)]
fn pushed(input: &[u8], output: &mut [u8], before: u64) -> u64 {
    let mut decoder = Decoder::from(input);
    let mut encoder = Encoder::from(output);
    let mut sum = before;
    for _ in 0..input.len() {
        match decoder.pull() {
            Ok(header) => {
                if encoder.push(header).is_err() {
                    break;
                }
                sum = sum.wrapping_add(1);
            }
            Err(Error::Syntax(_)) => {}
            Err(_) => break,
        }
    }
    sum
}

/// Adds how many bytes the elements have, if they were copied.
#[inline(never)]
fn recoded(
    input: &[u8],
    output: &mut [u8],
    count: usize,
    buffer: &mut [u8],
    before: u64,
) -> u64 {
    let mut decoder = Decoder::from(input);
    match recode(&mut decoder, &mut Encoder::from(output), count, buffer) {
        Ok(()) => before.wrapping_add(decoder.offset() as u64),
        Err(_) => before,
    }
}

/// Drops the parts of a string.
struct Dropped;

impl Parts for Dropped {
    fn segment(&mut self, _length: usize) -> Result<(), Stop> {
        Ok(())
    }

    fn chunk(&mut self, _chunk: &[u8]) -> Result<(), Stop> {
        Ok(())
    }

    fn end(&mut self) -> Result<(), Stop> {
        Ok(())
    }
}

/// Adds how many bytes the string that comes first has, if it was read to its end.
#[inline(never)]
fn skipped(input: &[u8], buffer: &mut [u8], before: u64) -> u64 {
    let mut decoder = Decoder::from(input);
    let outcome = match decoder.pull() {
        Ok(Header::Bytes(length)) => read_bytes(&mut decoder, length, buffer, &mut Dropped),
        Ok(Header::Text(length)) => read_text(&mut decoder, length, buffer, &mut Dropped),
        _ => return before,
    };
    match outcome {
        Ok(()) => before.wrapping_add(decoder.offset() as u64),
        Err(_) => before,
    }
}

/// Adds how many bytes the items have, if all of them were skipped.
#[inline(never)]
fn items_skipped(input: &[u8], count: usize, buffer: &mut [u8], before: u64) -> u64 {
    let mut decoder = Decoder::from(input);
    for _ in 0..count {
        if skip_item(&mut decoder, DEPTH, buffer).is_none() {
            return before;
        }
    }
    before.wrapping_add(decoder.offset() as u64)
}

/// Skips one item, if one is there, with tags, arrays and maps at most `depth` levels deep.
fn skip_item(decoder: &mut Decoder<&[u8]>, depth: usize, buffer: &mut [u8]) -> Option<()> {
    let header = decoder.pull().ok()?;
    skip_behind(decoder, header, depth, buffer)
}

/// Skips the parts of an item after its header.
fn skip_behind(
    decoder: &mut Decoder<&[u8]>,
    header: Header,
    depth: usize,
    buffer: &mut [u8],
) -> Option<()> {
    match header {
        Header::Positive(_) | Header::Negative(_) | Header::Float(_) | Header::Simple(_) => Some(()),
        Header::Break => None,
        Header::Bytes(length) => read_bytes(decoder, length, buffer, &mut Dropped).ok(),
        Header::Text(length) => read_text(decoder, length, buffer, &mut Dropped).ok(),
        Header::Tag(_) => skip_item(decoder, depth.checked_sub(1)?, buffer),
        Header::Array(count) => skip_items(decoder, count, 1, depth.checked_sub(1)?, buffer),
        Header::Map(count) => skip_items(decoder, count, 2, depth.checked_sub(1)?, buffer),
    }
}

/// Skips `groups` groups of `size` items each. If their number is not known, it skips those before a break.
fn skip_items(
    decoder: &mut Decoder<&[u8]>,
    groups: Option<usize>,
    size: usize,
    depth: usize,
    buffer: &mut [u8],
) -> Option<()> {
    let mut left = groups;
    while left != Some(0) {
        let header = decoder.pull().ok()?;
        if left.is_none() && matches!(header, Header::Break) {
            break;
        }
        skip_behind(decoder, header, depth, buffer)?;
        for _ in 1..size {
            skip_item(decoder, depth, buffer)?;
        }
        left = left.map(|groups| groups - 1);
    }
    Some(())
}

/// Adds how many bytes the text has in segments.
#[inline(never)]
fn written(text: &str, limit: usize, output: &mut [u8], before: u64) -> u64 {
    let room = output.len();
    let mut rest = output;
    match Encoder::from(&mut rest).text(text, Some(limit)) {
        Ok(()) => before.wrapping_add((room - rest.len()) as u64),
        Err(_) => before,
    }
}

/// Does the least for `pull`: one branch for each title, by its length, with no answer but the sum. The input has
/// titles alone, and the last one is whole.
#[inline(never)]
fn walked(input: &[u8], before: u64) -> u64 {
    let mut rest = input;
    let mut sum = before;
    while let [first, behind @ ..] = rest {
        let size = match first % 32 {
            0..=23 | 31 => 0,
            minor => 1 << (minor - 24),
        };
        let (affix, behind) = behind.split_at(size);
        let number = match *affix {
            [a] => a.into(),
            [a, b] => u16::from_be_bytes([a, b]).into(),
            [a, b, c, d] => u32::from_be_bytes([a, b, c, d]).into(),
            [a, b, c, d, e, f, g, h] => u64::from_be_bytes([a, b, c, d, e, f, g, h]),
            _ => u64::from(first % 32),
        };
        sum = sum.wrapping_add(if *first < 32 { number } else { 1 });
        rest = behind;
    }
    sum
}

/// Does the least for `recode`: a copy of the memory.
#[inline(never)]
fn copied(input: &[u8], output: &mut [u8], before: u64) -> u64 {
    output[..input.len()].copy_from_slice(input);
    before.wrapping_add(input.len() as u64)
}
