// SPDX-License-Identifier: Apache-2.0
use super::{Decoder, Error, Header};
use crate::calls::utf8_in_front;
use std::io::{self, Read};
use std::marker::PhantomData;

mod sealed {
    /// Turns a chunk into its value, and tells how many bytes at its end are kept for the next one. `None` is a fault.
    pub trait Chunks {
        type Item: ?Sized;
        fn length_in(header: super::Header) -> Option<Option<usize>>;
        fn of(bytes: &[u8]) -> Option<(&Self::Item, usize)>;
    }
}

/// A kind of string: [`Bytes`] or [`Text`].
pub trait Kind: sealed::Chunks {}

/// Byte strings, whose chunks are bytes.
#[derive(Debug)]
pub enum Bytes {}

/// Text strings, whose chunks are texts.
#[derive(Debug)]
pub enum Text {}

impl Kind for Bytes {}
impl Kind for Text {}

impl sealed::Chunks for Bytes {
    type Item = [u8];

    fn length_in(header: Header) -> Option<Option<usize>> {
        match header {
            Header::Bytes(length) => Some(length),
            _ => None,
        }
    }

    fn of(bytes: &[u8]) -> Option<(&[u8], usize)> {
        Some((bytes, 0))
    }
}

impl sealed::Chunks for Text {
    type Item = str;

    fn length_in(header: Header) -> Option<Option<usize>> {
        match header {
            Header::Text(length) => Some(length),
            _ => None,
        }
    }

    fn of(bytes: &[u8]) -> Option<(&str, usize)> {
        let (text, may_go_on) = utf8_in_front(bytes);
        may_go_on.then_some((text, bytes.len() - text.len()))
    }
}

/// The segments of a string: the one of a definite length, or those inside an indefinite one.
#[derive(Debug)]
#[must_use = "the segments are read one by one"]
pub struct Segments<'r, R, K> {
    decoder: &'r mut Decoder<R>,
    /// How many titles of an indefinite length are open.
    open: usize,
    ended: bool,
    kind: PhantomData<K>,
}

impl<'r, R: Read, K: Kind> Segments<'r, R, K> {
    pub(super) fn of(decoder: &'r mut Decoder<R>) -> Self {
        Segments {
            decoder,
            open: 0,
            ended: false,
            kind: PhantomData,
        }
    }

    /// Returns the next segment, or `None` after the last one. The caller has to read the one before whole.
    ///
    /// # Errors
    ///
    /// - `Io` if the reader fails, or its bytes end too early.
    /// - `Syntax` if no title begins there, or the string may not contain the title.
    pub fn pull(&mut self) -> Result<Option<Segment<'_, R, K>>, Error<io::Error>> {
        while !self.ended {
            let offset = self.decoder.offset();
            let header = self.decoder.pull()?;
            match K::length_in(header) {
                Some(None) => self.open += 1,
                Some(Some(left)) => {
                    self.ended = self.open == 0;
                    return Ok(Some(Segment {
                        decoder: self.decoder,
                        offset,
                        left,
                        kept: ([0; 3], 0),
                        kind: PhantomData,
                    }));
                }
                None if header == Header::Break && self.open > 0 => {
                    self.open -= 1;
                    self.ended = self.open == 0;
                }
                None => return Err(Error::Syntax(offset)),
            }
        }
        Ok(None)
    }
}

/// A segment, which is read in chunks.
#[derive(Debug)]
#[must_use = "the chunks are read one by one"]
pub struct Segment<'r, R, K> {
    decoder: &'r mut Decoder<R>,
    /// The offset at which its title starts.
    offset: usize,
    /// How many of its bytes were not read.
    left: usize,
    /// Bytes that begin a character, and how many there are. The next chunk begins with them.
    kept: ([u8; 3], usize),
    kind: PhantomData<K>,
}

impl<'r, R: Read, K: Kind> Segment<'r, R, K> {
    /// Returns how many bytes no chunk has given yet.
    #[must_use]
    pub fn left(&self) -> usize {
        self.left + self.kept.1
    }

    /// Reads the next chunk into the start of the buffer. Returns it, or `None` after the last one. A text needs a
    /// buffer of 4 bytes to get on.
    ///
    /// # Errors
    ///
    /// - `Io` if the reader fails, or its bytes end too early.
    /// - `Syntax`, with the offset of the segment's title, if a text is not UTF-8.
    pub fn pull<'a>(
        &mut self,
        buffer: &'a mut [u8],
    ) -> Result<Option<&'a K::Item>, Error<io::Error>> {
        let (kept, count) = self.kept;
        if self.left == 0 {
            return if count == 0 {
                Ok(None)
            } else {
                Err(Error::Syntax(self.offset))
            };
        }
        let size = buffer.len().min(self.left());
        let front = count.min(size);
        let (chunk, _) = buffer.split_at_mut(size);
        chunk[..front].copy_from_slice(&kept[..front]);
        self.decoder.read_exact(&mut chunk[front..])?;
        self.left -= size - front;
        // If no new byte came, all kept bytes stay.
        let chunk: &'a [u8] = if size > count { chunk } else { &[] };
        let (value, more) = K::of(chunk).ok_or(Error::Syntax(self.offset))?;
        if size > count {
            self.kept.1 = more;
            self.kept.0[..more].copy_from_slice(&chunk[chunk.len() - more..]);
        }
        Ok(Some(value))
    }
}
