//! Elements that are copied to their shortest spelling.

use crate::string::{read_bytes, read_text, Parts, Stop};
use ciborium_io::{Read, Write};
use ciborium_ll::{Decoder, Encoder, Header};
use compare::word::word_of;
use std::fmt;

/// A raw copy and a line copy at most this many bytes of a string at a time. Our program has the same number, since the
/// bytes written before a fault depend on it.
const BUFFER_SIZE: usize = 64;

/// Why a copy of raw bytes failed, printed as one line.
pub enum RawFault {
    /// The bytes at this offset can't stand there.
    Syntax(usize),
    /// Standard input can't be read, or ends too early.
    Read,
    /// Standard output can't be written.
    Write,
}

impl fmt::Display for RawFault {
    fn fmt(&self, f: &mut fmt::Formatter<'_>) -> fmt::Result {
        match self {
            RawFault::Syntax(place) => write!(f, "syntax {place}"),
            RawFault::Read => f.write_str("read"),
            RawFault::Write => f.write_str("write"),
        }
    }
}

/// Writes the parts of a string, each segment as a definite string.
struct Written<'a, W: Write> {
    encoder: &'a mut Encoder<W>,
    header: fn(Option<usize>) -> Header,
}

impl<W: Write> Parts for Written<'_, W> {
    fn segment(&mut self, length: usize) -> Result<(), Stop> {
        write_header(self.encoder, (self.header)(Some(length)))
    }

    fn chunk(&mut self, chunk: &[u8]) -> Result<(), Stop> {
        self.encoder.write_all(chunk).map_err(|_| Stop::Write)
    }

    fn end(&mut self) -> Result<(), Stop> {
        Ok(())
    }
}

/// Writes a header.
fn write_header<W: Write>(encoder: &mut Encoder<W>, header: Header) -> Result<(), Stop> {
    encoder.push(header).map_err(|_| Stop::Write)
}

/// Copies `count` elements. An element is a header that begins no string, or a whole string.
pub fn recode<R: Read, W: Write>(
    decoder: &mut Decoder<R>,
    encoder: &mut Encoder<W>,
    count: usize,
    buffer: &mut [u8],
) -> Result<(), Stop> {
    for _ in 0..count {
        match decoder.pull()? {
            Header::Bytes(length) => {
                let parts = open(encoder, length, Header::Bytes)?;
                copy_string(length, parts, |parts| {
                    read_bytes(decoder, length, buffer, parts)
                })?;
            }
            Header::Text(length) => {
                let parts = open(encoder, length, Header::Text)?;
                copy_string(length, parts, |parts| {
                    read_text(decoder, length, buffer, parts)
                })?;
            }
            header => write_header(encoder, header)?,
        }
    }
    Ok(())
}

/// Writes the open of a string of indefinite length, which comes before its segments.
fn open<W: Write>(
    encoder: &mut Encoder<W>,
    length: Option<usize>,
    header: fn(Option<usize>) -> Header,
) -> Result<Written<'_, W>, Stop> {
    if length.is_none() {
        write_header(encoder, header(None))?;
    }
    Ok(Written { encoder, header })
}

/// Copies the segments of a string, and the break of one of indefinite length.
fn copy_string<W: Write>(
    length: Option<usize>,
    mut parts: Written<'_, W>,
    read: impl FnOnce(&mut Written<'_, W>) -> Result<(), Stop>,
) -> Result<(), Stop> {
    read(&mut parts)?;
    match length {
        Some(_) => Ok(()),
        None => write_header(parts.encoder, Header::Break),
    }
}

/// Answers `recode`: the bytes that the copy wrote, and the bytes that are left, or why the copy stopped.
pub fn answer(count: usize, bytes: &[u8]) -> String {
    let mut rest = bytes;
    let mut output = Vec::new();
    let mut decoder = Decoder::from(&mut rest);
    let mut encoder = Encoder::from(&mut output);
    let outcome = recode(&mut decoder, &mut encoder, count, &mut [0; BUFFER_SIZE]);
    let offset = decoder.offset();
    let output = word_of(&output);
    match outcome {
        Ok(()) => format!("{output} rest {}\n", word_of(rest)),
        Err(Stop::Syntax(place)) => format!("{output} syntax {place}\n"),
        Err(Stop::Short) => format!("{output} short {offset}\n"),
        Err(Stop::Stuck | Stop::Write) => "error: room\n".to_string(),
    }
}

/// Copies `count` elements from a reader to a writer, and flushes the writer after a fault too.
pub fn raw<R: std::io::Read, W: std::io::Write>(
    reader: R,
    mut writer: W,
    count: usize,
) -> Result<(), RawFault> {
    let mut decoder = Decoder::from(reader);
    let mut encoder = Encoder::from(&mut writer);
    let copied = recode(&mut decoder, &mut encoder, count, &mut [0; BUFFER_SIZE]);
    let flushed = std::io::Write::flush(&mut writer);
    match copied {
        Ok(()) => flushed.map_err(|_| RawFault::Write),
        Err(Stop::Syntax(place)) => Err(RawFault::Syntax(place)),
        Err(Stop::Short) => Err(RawFault::Read),
        Err(Stop::Stuck | Stop::Write) => Err(RawFault::Write),
    }
}
