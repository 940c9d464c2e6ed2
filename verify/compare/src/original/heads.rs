//! Headers, one after the other.

use ciborium_ll::{Decoder, Encoder, Error, Header};
use compare::word::digits_of;
use std::fmt::Write;

/// Answers `heads`: a line for each title, and one for the end.
pub fn answer(bytes: &[u8]) -> String {
    let mut answer = String::new();
    let mut decoder = Decoder::from(bytes);
    loop {
        let offset = decoder.offset();
        let last = match decoder.pull() {
            Ok(header) => {
                let _ = writeln!(answer, "{offset} {}", name_of(header));
                continue;
            }
            Err(Error::Syntax(place)) => format!("syntax {place}\n"),
            Err(Error::Io(_)) if decoder.offset() == offset => format!("end {offset}\n"),
            Err(Error::Io(_)) => format!("short {}\n", decoder.offset()),
        };
        return answer + &last;
    }
}

/// Returns the name of a header, and its value if it has one.
fn name_of(header: Header) -> String {
    match header {
        Header::Positive(n) => format!("positive {n}"),
        Header::Negative(n) => format!("negative {n}"),
        Header::Float(_) => float_of(header),
        Header::Simple(n) => format!("simple {n}"),
        Header::Tag(n) => format!("tag {n}"),
        Header::Break => "break".to_string(),
        Header::Bytes(length) => format!("bytes {}", length_of(length)),
        Header::Text(length) => format!("text {}", length_of(length)),
        Header::Array(length) => format!("array {}", length_of(length)),
        Header::Map(length) => format!("map {}", length_of(length)),
    }
}

/// Returns a length, or `*` for the indefinite form.
fn length_of(length: Option<usize>) -> String {
    match length {
        Some(length) => length.to_string(),
        None => "*".to_string(),
    }
}

/// Returns a float in the width in which the crate writes it. The header holds no width: it is one of a double.
fn float_of(header: Header) -> String {
    let mut title = Vec::new();
    let written = Encoder::from(&mut title).push(header);
    let width = match (written, title.len()) {
        (Ok(()), 3) => "half",
        (Ok(()), 5) => "single",
        (Ok(()), 9) => "double",
        _ => "float of no width",
    };
    format!("{width} {}", digits_of(&title[1..]))
}
