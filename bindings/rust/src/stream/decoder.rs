// SPDX-License-Identifier: Apache-2.0
use super::header::length_of;
use super::{Bytes, Error, Header, Segments, Text};
use crate::calls;
use std::io::{self, Read};

/// Gives the headers in the bytes of a reader, one after the other.
#[derive(Debug)]
pub struct Decoder<R> {
    reader: R,
    offset: usize,
    /// A header that was given back.
    given_back: Option<Header>,
}

impl<R: Read> From<R> for Decoder<R> {
    fn from(reader: R) -> Self {
        Decoder {
            reader,
            offset: 0,
            given_back: None,
        }
    }
}

impl<R: Read> Decoder<R> {
    /// Returns the next header.
    ///
    /// # Errors
    ///
    /// - `Io` if the reader fails, or its bytes end before a title or inside it.
    /// - `Syntax` if no title begins with the first byte.
    pub fn pull(&mut self) -> Result<Header, Error<io::Error>> {
        if let Some(header) = self.given_back.take() {
            self.offset = self.offset.wrapping_add(length_of(header));
            return Ok(header);
        }
        let (start, mut title) = (self.offset, [0; 9]);
        self.read_exact(&mut title[..1])?;
        // How many bytes follow the first one. Each read is of a known length, which a reader over a slice does at once.
        let width = match title[0] & 31 {
            24 => self.read_exact(&mut title[1..2]).map(|()| 1),
            25 => self.read_exact(&mut title[1..3]).map(|()| 2),
            26 => self.read_exact(&mut title[1..5]).map(|()| 4),
            27 => self.read_exact(&mut title[1..9]).map(|()| 8),
            _ => Ok(0),
        }?;
        match calls::pull(&title[..=width], 0) {
            Ok((header, _)) => Ok(header.into()),
            Err(_) => Err(Error::Syntax(start)),
        }
    }

    /// Gives back a header, which `pull` then returns next. The offset goes back by the length of its shortest title.
    ///
    /// # Panics
    ///
    /// It panics if another header was given back, and not pulled again.
    pub fn push(&mut self, header: Header) {
        assert!(self.given_back.is_none(), "a header was given back");
        self.offset = self.offset.wrapping_sub(length_of(header));
        self.given_back = Some(header);
    }

    /// Reads bytes as they are, as many as the slice has.
    ///
    /// # Panics
    ///
    /// It panics if a header was given back, and not pulled again.
    pub fn read_exact(&mut self, bytes: &mut [u8]) -> io::Result<()> {
        assert!(self.given_back.is_none(), "a header was given back");
        self.reader.read_exact(bytes)?;
        self.offset += bytes.len();
        Ok(())
    }

    /// Returns how many bytes were read so far.
    pub fn offset(&mut self) -> usize {
        self.offset
    }

    /// Returns the segments of the byte string whose header, with that length, was pulled last.
    pub fn bytes(&mut self, length: Option<usize>) -> Segments<'_, R, Bytes> {
        self.push(Header::Bytes(length));
        Segments::of(self)
    }

    /// Returns the segments of a text string as `bytes` does. Each segment is UTF-8 by itself.
    pub fn text(&mut self, length: Option<usize>) -> Segments<'_, R, Text> {
        self.push(Header::Text(length));
        Segments::of(self)
    }
}
