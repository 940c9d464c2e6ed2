// SPDX-License-Identifier: Apache-2.0
//! The names of the crate `ciborium-ll`, over any [`Read`] and [`Write`] of `std`.
//!
//! A program calls the same names here as there, so another `use` is the one change. Floats are numbers, and strings
//! come in chunks of a buffer.
//!
//! Two things differ. The errors of a reader and a writer are those of `std::io`. A text that is not UTF-8 is a fault
//! of the chunk in which it goes wrong.
//!
//! ```
//! use ciborium_ll_proved::stream::{Decoder, Encoder, Header};
//!
//! let mut out = Vec::new();
//! let mut encoder = Encoder::from(&mut out);
//! encoder.push(Header::Array(Some(2)))?;
//! encoder.push(Header::Float(1.5))?;
//! encoder.text("one", None)?;
//!
//! let mut decoder = Decoder::from(&out[..]);
//! assert_eq!(decoder.pull()?, Header::Array(Some(2)));
//! assert_eq!(decoder.pull()?, Header::Float(1.5));
//! assert_eq!(decoder.pull()?, Header::Text(Some(3)));
//! let (mut buffer, mut text) = ([0; 16], String::new());
//! let mut segments = decoder.text(Some(3));
//! while let Some(mut segment) = segments.pull()? {
//!     while let Some(chunk) = segment.pull(&mut buffer)? {
//!         text.push_str(chunk);
//!     }
//! }
//! assert_eq!(text, "one");
//! # Ok::<(), Box<dyn std::error::Error>>(())
//! ```
//!
//! [`Read`]: std::io::Read
//! [`Write`]: std::io::Write

mod decoder;
mod encoder;
mod float;
mod header;
mod segments;

use std::fmt;

pub use decoder::Decoder;
pub use encoder::Encoder;
pub use header::Header;
pub use segments::{Bytes, Kind, Segment, Segments, Text};

/// The simple values that have a name (RFC 7049, 2.3).
pub mod simple {
    /// The truth value `false`.
    pub const FALSE: u8 = 20;
    /// The truth value `true`.
    pub const TRUE: u8 = 21;
    /// The value `null`.
    pub const NULL: u8 = 22;
    /// The value `undefined`.
    pub const UNDEFINED: u8 = 23;
}

/// The tags of numbers that do not fit into an integer of CBOR (RFC 7049, 2.4.2).
pub mod tag {
    /// A positive number.
    pub const BIGPOS: u64 = 2;
    /// A negative number.
    pub const BIGNEG: u64 = 3;
}

/// Why a read failed.
#[derive(Debug)]
pub enum Error<T> {
    /// The reader failed, or its bytes end too early.
    Io(T),
    /// At this offset begins no title, or a title that may not stand there, or the title of a text that is not UTF-8.
    Syntax(usize),
}

impl<T> From<T> for Error<T> {
    fn from(error: T) -> Self {
        Error::Io(error)
    }
}

impl<T: fmt::Display> fmt::Display for Error<T> {
    fn fmt(&self, f: &mut fmt::Formatter<'_>) -> fmt::Result {
        match self {
            Error::Io(error) => error.fmt(f),
            Error::Syntax(place) => write!(f, "syntax at {place}"),
        }
    }
}

impl<T: std::error::Error + 'static> std::error::Error for Error<T> {
    fn source(&self) -> Option<&(dyn std::error::Error + 'static)> {
        match self {
            Error::Io(error) => Some(error),
            Error::Syntax(_) => None,
        }
    }
}
