// SPDX-License-Identifier: Apache-2.0
use super::header::title_of;
use super::Header;
use std::io::{self, Write};

/// Writes headers and strings into a writer.
#[derive(Debug)]
pub struct Encoder<W>(W);

impl<W: Write> From<W> for Encoder<W> {
    fn from(writer: W) -> Self {
        Encoder(writer)
    }
}

impl<W: Write> Encoder<W> {
    /// Writes a header by its shortest title.
    pub fn push(&mut self, header: Header) -> io::Result<()> {
        let (title, length) = title_of(header);
        self.0.write_all(&title[..length])
    }

    /// Writes bytes as they are.
    pub fn write_all(&mut self, bytes: &[u8]) -> io::Result<()> {
        self.0.write_all(bytes)
    }

    /// Hands on the bytes that the writer holds back.
    pub fn flush(&mut self) -> io::Result<()> {
        self.0.flush()
    }

    /// Writes a byte string in one piece, or in pieces if it is longer than the limit `segment`. A limit of 0 counts
    /// as 1.
    pub fn bytes(&mut self, value: &[u8], segment: impl Into<Option<usize>>) -> io::Result<()> {
        let limit = segment.into().unwrap_or(usize::MAX).max(1);
        if value.len() <= limit {
            return self.piece(Header::Bytes(Some(value.len())), value);
        }
        self.push(Header::Bytes(None))?;
        for piece in value.chunks(limit) {
            self.piece(Header::Bytes(Some(piece.len())), piece)?;
        }
        self.push(Header::Break)
    }

    /// Writes a text string as `bytes` writes a byte string, in pieces of whole characters. A limit below 4 counts as
    /// 4, so that each character fits.
    pub fn text(&mut self, value: &str, segment: impl Into<Option<usize>>) -> io::Result<()> {
        let limit = segment.into().unwrap_or(usize::MAX).max(4);
        if value.len() <= limit {
            return self.piece(Header::Text(Some(value.len())), value.as_bytes());
        }
        self.push(Header::Text(None))?;
        let mut rest = value;
        while !rest.is_empty() {
            let (piece, behind) = crate::encoder::split_at_most(rest, limit);
            self.piece(Header::Text(Some(piece.len())), piece.as_bytes())?;
            rest = behind;
        }
        self.push(Header::Break)
    }

    /// Writes a header and the body after it.
    fn piece(&mut self, header: Header, body: &[u8]) -> io::Result<()> {
        self.push(header)?;
        self.0.write_all(body)
    }
}
