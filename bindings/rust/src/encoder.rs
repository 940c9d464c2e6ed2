// SPDX-License-Identifier: Apache-2.0
use crate::calls::{push, push_wide};
use crate::{Error, Header};

/// Writes headers and strings into a slice. The only error is `Room`, except for `push_wide`.
#[derive(Debug)]
pub struct Encoder<'a> {
    out: &'a mut [u8],
    length: usize,
}

impl<'a> From<&'a mut [u8]> for Encoder<'a> {
    fn from(out: &'a mut [u8]) -> Self {
        Encoder { out, length: 0 }
    }
}

impl<'a> Encoder<'a> {
    /// Writes a header by its shortest title, whole or not at all.
    pub fn push(&mut self, header: Header) -> Result<(), Error> {
        self.length += push(header, &mut self.out[self.length..])?;
        Ok(())
    }

    /// Writes the title of a header that has `width` bytes after its first one. A width is 0, 1, 2, 4 or 8, as the
    /// header's kind has them. So a program may reserve the place of a length before it knows the length.
    ///
    /// # Errors
    ///
    /// - `Argument` if the header has no title of that width.
    /// - `Room` if the title does not fit.
    pub fn push_wide(&mut self, header: Header, width: u32) -> Result<(), Error> {
        self.length += push_wide(header, width, &mut self.out[self.length..])?;
        Ok(())
    }

    /// Writes bytes as they are, all or none.
    pub fn write_all(&mut self, bytes: &[u8]) -> Result<(), Error> {
        let there = self.out[self.length..]
            .get_mut(..bytes.len())
            .ok_or(Error::Room)?;
        there.copy_from_slice(bytes);
        self.length += bytes.len();
        Ok(())
    }

    /// Writes a byte string in one piece, or in pieces if it is longer than the limit `segment`. A limit of 0 counts
    /// as 1. After an error the output holds a beginning of the string.
    pub fn bytes(&mut self, value: &[u8], segment: Option<usize>) -> Result<(), Error> {
        let limit = segment.unwrap_or(usize::MAX).max(1);
        if value.len() <= limit {
            return self.piece(Header::Bytes(Some(value.len())), value);
        }
        self.push(Header::Bytes(None))?;
        for piece in value.chunks(limit) {
            self.piece(Header::Bytes(Some(piece.len())), piece)?;
        }
        self.push(Header::Break)
    }

    /// Writes a text string as `bytes` writes a byte string, in pieces of whole characters. A limit below 4 counts as
    /// 4, so that each character fits.
    pub fn text(&mut self, value: &str, segment: Option<usize>) -> Result<(), Error> {
        let limit = segment.unwrap_or(usize::MAX).max(4);
        if value.len() <= limit {
            return self.piece(Header::Text(Some(value.len())), value.as_bytes());
        }
        self.push(Header::Text(None))?;
        let mut rest = value;
        while !rest.is_empty() {
            let (piece, behind) = split_at_most(rest, limit);
            self.piece(Header::Text(Some(piece.len())), piece.as_bytes())?;
            rest = behind;
        }
        self.push(Header::Break)
    }

    /// Returns the bytes written so far.
    #[must_use]
    pub fn written(&self) -> &[u8] {
        &self.out[..self.length]
    }

    /// Writes a header and the body after it.
    fn piece(&mut self, header: Header, body: &[u8]) -> Result<(), Error> {
        self.push(header)?;
        self.write_all(body)
    }
}

/// Splits a text after its longest front of at most `limit` bytes. The limit is at least 4.
pub(crate) fn split_at_most(text: &str, limit: usize) -> (&str, &str) {
    let most = limit.min(text.len());
    let end = (0..=most)
        .rev()
        .find(|&end| text.is_char_boundary(end))
        .unwrap_or(most);
    text.split_at(end)
}
