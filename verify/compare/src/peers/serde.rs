// SPDX-License-Identifier: Apache-2.0

//! The works of the calls for C, done by the Rust crate serde_cbor.
//!
//! usage: serde check|copy SIZE COUNT ROUNDS
//!
//! It reads standard input whole, and does a work on it ROUNDS times. `check` reads the one item in it and keeps
//! nothing. `copy` reads it as a value, and writes the value. It prints the sum of the lengths.

use serde::de::IgnoredAny;
use serde_cbor::Value;
use std::error::Error;
use std::io::{self, Read};

fn worked(work: &str, bytes: &[u8]) -> Result<usize, Box<dyn Error>> {
    match work {
        "check" => serde_cbor::from_slice::<IgnoredAny>(bytes).map(|_| bytes.len()).map_err(Into::into),
        "copy" => Ok(serde_cbor::to_vec(&serde_cbor::from_slice::<Value>(bytes)?)?.len()),
        _ => Err("no such work".into()),
    }
}

fn main() -> Result<(), Box<dyn Error>> {
    let words: Vec<String> = std::env::args().skip(1).collect();
    let [work, _, _, rounds] = words.as_slice() else {
        return Err("usage: serde check|copy SIZE COUNT ROUNDS".into());
    };
    let mut bytes = Vec::new();
    io::stdin().read_to_end(&mut bytes)?;
    let mut sum = 0;
    for _ in 0..rounds.parse::<usize>()? {
        sum += worked(work, &bytes)?;
    }
    println!("{sum}");
    Ok(())
}
