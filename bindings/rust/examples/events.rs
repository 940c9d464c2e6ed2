// SPDX-License-Identifier: Apache-2.0
//! Reads a file of CBOR in pieces of 16 bytes, and prints each header and each part of a text as it comes.
//!
//! usage: events FILE
//!
//! A header is a line `OFFSET KIND VALUE`, with `*` for an indefinite form, and a close is a line `OFFSET close`. A part
//! of a text is a line `text PART`, and a part of a byte string is `bytes COUNT`. The last line is `end`. If there is a
//! fault, the program says it on standard error, and the status is 1.
use ciborium_ll_proved::{Event, Float, Header, Parser};
use std::error::Error;
use std::fs::File;
use std::io::Read;

/// Returns the kind and the value of a header.
fn named(header: Header) -> String {
    let long = |kind, length: Option<usize>| match length {
        Some(length) => format!("{kind} {length}"),
        None => format!("{kind} *"),
    };
    match header {
        Header::Positive(n) => format!("positive {n}"),
        Header::Negative(n) => format!("negative {n}"),
        Header::Bytes(length) => long("bytes", length),
        Header::Text(length) => long("text", length),
        Header::Array(length) => long("array", length),
        Header::Map(length) => long("map", length),
        Header::Tag(n) => format!("tag {n}"),
        Header::Simple(n) => format!("simple {n}"),
        Header::Float(Float::Half(bits)) => format!("half {bits}"),
        Header::Float(Float::Single(bits)) => format!("single {bits}"),
        Header::Float(Float::Double(bits)) => format!("double {bits}"),
        Header::Break => "break 0".to_string(),
    }
}

fn main() -> Result<(), Box<dyn Error>> {
    let name = std::env::args_os().nth(1).ok_or("usage: events FILE")?;
    let mut file = File::open(name)?;
    let mut parser = Parser::new();
    let mut piece = [0; 16];
    loop {
        let came = file.read(&mut piece)?;
        if came == 0 {
            break;
        }
        for event in parser.push(&piece[..came]) {
            match event.map_err(|error| error.to_string())? {
                Event::Header { header, place } => println!("{place} {}", named(header)),
                Event::Close { place } => println!("{place} close"),
                Event::Bytes { part, .. } => println!("bytes {}", part.len()),
                Event::Text { first, rest, .. } => {
                    println!("text {}{rest}", first.map(String::from).unwrap_or_default());
                }
            }
        }
    }
    parser.end().map_err(|error| error.to_string())?;
    println!("end");
    Ok(())
}
