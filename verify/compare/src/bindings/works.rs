//! Works of the library, done by the crate for Rust.
//!
//! usage: works_rust headers|decoder|canonical|recode COUNT TIMES
//!
//! It reads standard input whole, does the work TIMES times, and prints the sum, as works.c does. `decoder` pulls the
//! titles one by one from a slice, and reads the bodies of texts.

use ciborium_ll_proved::{canonical_into, headers, recode, Decoder, Error, Header, Order, Span};
use std::error::Error as AnyError;
use std::hint::black_box;
use std::io::{self, Read};

/// Returns the part of a title in the sum.
fn part(header: Header) -> u64 {
    match header {
        Header::Positive(number) => number,
        Header::Text(Some(length)) => length as u64,
        _ => 1,
    }
}

fn by_headers(bytes: &[u8]) -> Result<u64, Error> {
    let mut sum: u64 = 0;
    for title in headers(bytes) {
        sum = sum.wrapping_add(part(title?.header));
    }
    Ok(sum)
}

fn by_decoder(bytes: &[u8]) -> Result<u64, Error> {
    let mut sum: u64 = 0;
    let mut decoder = Decoder::from(bytes);
    while !decoder.rest().is_empty() {
        sum = sum.wrapping_add(match decoder.pull()? {
            Header::Text(length) => decoder.text(length)?.map(|segment| segment.len() as u64).sum(),
            header => part(header),
        });
    }
    Ok(sum)
}

fn main() -> Result<(), Box<dyn AnyError>> {
    let words: Vec<String> = std::env::args().skip(1).collect();
    let [work, count, times] = words.as_slice() else {
        return Err("usage: works_rust WORK COUNT TIMES".into());
    };
    let count: u64 = count.parse()?;
    let mut bytes = Vec::new();
    io::stdin().read_to_end(&mut bytes)?;
    let mut out = vec![0; bytes.len() + bytes.len() / 256 + 16];
    let mut spans = vec![Span::default(); count as usize + 1];
    let mut sum = 0;
    for _ in 0..times.parse()? {
        let bytes = black_box(bytes.as_slice());
        sum = match work.as_str() {
            "headers" => by_headers(bytes)?,
            "decoder" => by_decoder(bytes)?,
            "canonical" => canonical_into(bytes, 64, Order::Bytewise, &mut out, &mut spans)?.written as u64,
            "recode" => recode(bytes, count, &mut out)?.written as u64,
            _ => return Err("there is no such work".into()),
        };
    }
    println!("{sum}");
    Ok(())
}
