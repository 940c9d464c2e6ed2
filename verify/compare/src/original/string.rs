//! Strings that are read chunk by chunk.

use ciborium_io::Read;
use ciborium_ll::{Decoder, Error, Header};
use compare::word::word_of;
use std::fmt::Write;

/// Why the reading of a string stopped.
pub enum Stop {
    /// The bytes at this offset are no part of it.
    Syntax(usize),
    /// Bytes are missing.
    Short,
    /// The buffer is too small for the next character.
    Stuck,
    /// The answer cannot be written.
    Write,
}

impl<E> From<Error<E>> for Stop {
    fn from(error: Error<E>) -> Stop {
        match error {
            Error::Syntax(place) => Stop::Syntax(place),
            Error::Io(_) => Stop::Short,
        }
    }
}

/// Takes the parts of a string as they are read.
pub trait Parts {
    /// Takes the beginning of a segment of this length.
    fn segment(&mut self, length: usize) -> Result<(), Stop>;

    /// Takes a chunk of the segment that was read.
    fn chunk(&mut self, chunk: &[u8]) -> Result<(), Stop>;

    /// Takes the end of the segment.
    fn end(&mut self) -> Result<(), Stop>;
}

/// Defines a function that reads a whole string of one kind, after its header. The crate has no name for the common
/// part of the two kinds.
macro_rules! define_reader {
    ($name:ident, $kind:ident, $comment:literal) => {
        #[doc = $comment]
        pub fn $name<R: Read, P: Parts>(
            decoder: &mut Decoder<R>,
            length: Option<usize>,
            buffer: &mut [u8],
            parts: &mut P,
        ) -> Result<(), Stop> {
            let mut segments = decoder.$kind(length);
            while let Some(mut segment) = segments.pull()? {
                parts.segment(segment.left())?;
                while let Some(chunk) = segment.pull(buffer)? {
                    parts.chunk(AsRef::<[u8]>::as_ref(chunk))?;
                }
                parts.end()?;
            }
            Ok(())
        }
    };
}

define_reader!(read_bytes, bytes, "Reads a byte string to its end.");
define_reader!(read_text, text, "Reads a text string to its end.");

/// Prints the parts of a string as lines.
struct Printed {
    lines: String,
    was_empty: bool,
}

impl Parts for Printed {
    fn segment(&mut self, length: usize) -> Result<(), Stop> {
        self.was_empty = false;
        writeln!(self.lines, "segment {length}").map_err(|_| Stop::Write)
    }

    fn chunk(&mut self, chunk: &[u8]) -> Result<(), Stop> {
        if self.was_empty && chunk.is_empty() {
            return Err(Stop::Stuck);
        }
        self.was_empty = chunk.is_empty();
        writeln!(self.lines, "chunk {}", word_of(chunk)).map_err(|_| Stop::Write)
    }

    fn end(&mut self) -> Result<(), Stop> {
        writeln!(self.lines, "stop").map_err(|_| Stop::Write)
    }
}

/// Answers `chunks`: a line for each segment, chunk and end of a segment, and one for the end of the string.
pub fn answer(size: usize, bytes: &[u8]) -> String {
    let mut buffer = vec![0; size];
    let mut decoder = Decoder::from(bytes);
    let mut parts = Printed {
        lines: String::new(),
        was_empty: false,
    };
    let outcome = match decoder.pull() {
        Ok(Header::Bytes(length)) => read_bytes(&mut decoder, length, &mut buffer, &mut parts),
        Ok(Header::Text(length)) => read_text(&mut decoder, length, &mut buffer, &mut parts),
        Ok(_) => return "other\n".to_string(),
        Err(error) => Err(Stop::from(error)),
    };
    let last = match outcome {
        Ok(()) => format!("end {}\n", decoder.offset()),
        Err(Stop::Syntax(place)) => format!("syntax {place}\n"),
        Err(Stop::Short) => format!("short {}\n", decoder.offset()),
        Err(Stop::Stuck) => "stuck\n".to_string(),
        Err(Stop::Write) => "error: room\n".to_string(),
    };
    parts.lines + &last
}
