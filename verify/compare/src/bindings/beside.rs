//! The work `decoder` of works.rs, done by the Rust crate ciborium-ll.
//!
//! usage: works_beside decoder COUNT TIMES
//!
//! It prints the same sum. It does not use COUNT.

use ciborium_ll::{Decoder, Header};
use std::error::Error as AnyError;
use std::hint::black_box;
use std::io::{self, Read};

/// Returns the sum of the titles. The crate tells the end of a slice by an error, so any error ends the sum.
fn by_decoder(bytes: &[u8]) -> u64 {
    let mut sum: u64 = 0;
    let mut decoder = Decoder::from(bytes);
    while let Ok(header) = decoder.pull() {
        sum = sum.wrapping_add(match header {
            Header::Positive(number) => number,
            Header::Text(length) => text_length(&mut decoder, length),
            _ => 1,
        });
    }
    sum
}

/// Reads the body of a text, and returns its length.
fn text_length(decoder: &mut Decoder<&[u8]>, length: Option<usize>) -> u64 {
    let mut sum = 0;
    let mut buffer = [0; 256];
    let mut segments = decoder.text(length);
    while let Ok(Some(mut segment)) = segments.pull() {
        while let Ok(Some(text)) = segment.pull(&mut buffer) {
            sum += text.len() as u64;
        }
    }
    sum
}

fn main() -> Result<(), Box<dyn AnyError>> {
    let words: Vec<String> = std::env::args().skip(1).collect();
    let times: u64 = match words.as_slice() {
        [work, _, times] if work == "decoder" => times.parse()?,
        _ => return Err("usage: works_beside decoder COUNT TIMES".into()),
    };
    let mut bytes = Vec::new();
    io::stdin().read_to_end(&mut bytes)?;
    let mut sum = 0;
    for _ in 0..times {
        sum = by_decoder(black_box(bytes.as_slice()));
    }
    println!("{sum}");
    Ok(())
}
