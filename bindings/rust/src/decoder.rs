// SPDX-License-Identifier: Apache-2.0
use crate::calls::{header_of, pull, pull_parts, skip, utf8, Titles, MOST};
use crate::sys::{cll_header, cll_title};
use crate::{Error, Header};
use core::{fmt, str};

/// Gives the headers of a slice, one after the other. A call that fails does not move the decoder.
#[derive(Clone)]
pub struct Decoder<'a> {
    bytes: &'a [u8],
    offset: usize,
    /// The header that was pulled last, and the offset of its title.
    last: Option<(Header, usize)>,
    ahead: Ahead<'a>,
}

/// Titles that were read ahead. A decoder that pulls header after header reads more of them by each call, up to a
/// limit. If it turns elsewhere, it begins with one again. So it reads few titles in vain.
#[derive(Clone)]
struct Ahead<'a> {
    titles: Titles<'a>,
    /// The offset from which they count theirs.
    base: usize,
    /// The place among them of the title that comes next.
    next: usize,
    /// How many titles the next call reads.
    most: usize,
}

impl<'a> Ahead<'a> {
    #[inline]
    fn none() -> Ahead<'a> {
        Ahead {
            titles: Titles::none(),
            base: 0,
            next: 0,
            most: 1,
        }
    }

    /// Takes the title at this offset, if it was read. Returns the parts of its header, and the offset of its end.
    #[inline]
    fn take(&mut self, offset: usize) -> Option<(cll_header, usize)> {
        let title = self.titles.get(self.next)?;
        if self.base + title.start as usize != offset {
            return None;
        }
        self.next += 1;
        Some((header_of(title), self.base + title.end as usize))
    }

    /// Reads titles of the bytes that stand at this offset, unless one is to be read by itself.
    fn read(&mut self, bytes: &'a [u8], offset: usize) {
        if self.next < self.titles.count() {
            self.most = 1;
        }
        self.base = offset;
        self.next = 0;
        if self.most > 1 && !bytes.is_empty() {
            self.titles.read(bytes, self.most);
        } else {
            self.titles.clear();
        }
        self.most = MOST.min(2 * self.most);
    }

    /// Returns the place of the title that was taken last, if it starts at this offset.
    #[inline]
    fn last(&self, offset: usize) -> Option<usize> {
        let last = self.next.checked_sub(1)?;
        let start = self.titles.get(last)?.start as usize;
        (self.base + start == offset).then_some(last)
    }

    /// Makes the title that was taken last the next one again, if it starts at this offset.
    fn give_back(&mut self, offset: usize) {
        self.next = self.last(offset).unwrap_or(self.next);
    }

    /// Passes over the titles before this offset. If these are all, the next call reads one title.
    fn pass_to(&mut self, offset: usize) {
        let passed = |title: &cll_title| self.base + (title.start as usize) < offset;
        if self.next < self.titles.count() {
            while self.titles.get(self.next).map_or(false, passed) {
                self.next += 1;
            }
            if self.next == self.titles.count() {
                self.most = 1;
            }
        }
    }
}

impl<'a> From<&'a [u8]> for Decoder<'a> {
    #[inline]
    fn from(bytes: &'a [u8]) -> Self {
        Decoder {
            bytes,
            offset: 0,
            last: None,
            ahead: Ahead::none(),
        }
    }
}

impl fmt::Debug for Decoder<'_> {
    fn fmt(&self, f: &mut fmt::Formatter<'_>) -> fmt::Result {
        f.debug_struct("Decoder")
            .field("bytes", &self.bytes)
            .field("offset", &self.offset)
            .field("last", &self.last)
            .finish()
    }
}

impl<'a> Decoder<'a> {
    /// Returns the next header.
    #[inline]
    pub fn pull(&mut self) -> Result<Header, Error> {
        let (parts, end) = match self.ahead.take(self.offset) {
            Some(taken) => taken,
            None => self.read()?,
        };
        let header = Header::of(&parts);
        self.last = Some((header, self.offset));
        self.offset = end;
        Ok(header)
    }

    /// Reads titles, and takes the first one.
    fn read(&mut self) -> Result<(cll_header, usize), Error> {
        let (rest, offset) = (self.rest(), self.offset);
        self.ahead.read(rest, offset);
        if let Some(taken) = self.ahead.take(offset) {
            return Ok(taken);
        }
        // The call for one title does not read the body.
        let (parts, length) = pull_parts(rest, offset)?;
        Ok((parts, offset + length))
    }

    /// Gives back the header that was pulled last. The next `pull` returns it again.
    ///
    /// # Panics
    ///
    /// It panics if another header was pulled last, or if the header is gone. It is gone after it was given back, and
    /// after its string or an item after it was taken.
    pub fn push(&mut self, header: Header) {
        match self.last.take() {
            Some((last, start)) if last == header => {
                self.offset = start;
                self.ahead.give_back(start);
            }
            _ => panic!("this header was not pulled last"),
        }
    }

    /// Returns how many bytes were taken so far.
    #[must_use]
    pub fn offset(&self) -> usize {
        self.offset
    }

    /// Returns the bytes that were not taken.
    #[must_use]
    pub fn rest(&self) -> &'a [u8] {
        &self.bytes[self.offset..]
    }

    /// Takes the byte string whose header, with that length, was pulled last. Returns its segments. The call has read
    /// them, so an error in them comes here.
    ///
    /// # Errors
    ///
    /// - `Argument` if another header was pulled last.
    pub fn bytes(&mut self, length: Option<usize>) -> Result<Segments<'a, [u8]>, Error> {
        self.string(Header::Bytes(length), length, Titles::body, Some)
    }

    /// Takes a text string as `bytes` takes a byte string. Each segment is UTF-8 by itself.
    pub fn text(&mut self, length: Option<usize>) -> Result<Segments<'a, str>, Error> {
        self.string(Header::Text(length), length, Titles::text, |body| {
            utf8(body).ok()
        })
    }

    /// Takes the next item, with all that it contains, and returns its bytes. Tags, arrays and maps may nest at most
    /// `depth` levels deep, and at most 256.
    pub fn skip_item(&mut self, depth: u32) -> Result<&'a [u8], Error> {
        let item = &self.rest()[..skip(self.rest(), depth, self.offset)?];
        self.last = None;
        self.offset += item.len();
        self.ahead.pass_to(self.offset);
        Ok(item)
    }

    /// Takes the string whose header was pulled last.
    #[inline]
    fn string<T: ?Sized>(
        &mut self,
        header: Header,
        length: Option<usize>,
        body_ahead: fn(&Titles<'a>, usize) -> Option<&'a T>,
        body_of: fn(&'a [u8]) -> Option<&'a T>,
    ) -> Result<Segments<'a, T>, Error> {
        let start = match self.last {
            Some((last, start)) if last == header => start,
            _ => return Err(Error::Argument),
        };
        // The body of a title that was read ahead is there, and fits its kind. Otherwise the call reads a body of a
        // definite length once. If that is missing, or is not UTF-8, a skip says why.
        let at = self.ahead.last(start);
        let whole = at
            .and_then(|at| body_ahead(&self.ahead.titles, at))
            .or_else(|| body_of(self.rest().get(..length?)?));
        if whole.is_some() {
            self.last = None;
            self.offset += length.unwrap_or(0);
            return Ok(Segments { whole, string: &[] });
        }
        // A string has no levels.
        let length = skip(&self.bytes[start..], 0, start)?;
        self.last = None;
        self.offset = start + length;
        self.ahead.pass_to(self.offset);
        Ok(Segments {
            whole: None,
            string: &self.bytes[start..self.offset],
        })
    }
}

/// The segments of a string: the one body of a definite length, or those inside an indefinite one.
#[derive(Debug)]
#[must_use = "the segments come one by one"]
pub struct Segments<'a, T: ?Sized> {
    /// The one body of a definite length.
    whole: Option<&'a T>,
    /// The rest of another string, which has been read whole.
    string: &'a [u8],
}

impl<T: ?Sized> Clone for Segments<'_, T> {
    fn clone(&self) -> Self {
        Segments { ..*self }
    }
}

impl<'a, T: ?Sized> Segments<'a, T> {
    /// Returns the body of the next title that has one.
    fn body(&mut self) -> Option<&'a [u8]> {
        loop {
            let (header, length) = pull(self.string, 0).ok()?;
            let behind = &self.string[length..];
            if let Header::Bytes(Some(length)) | Header::Text(Some(length)) = header {
                let (body, rest) = behind.split_at(length);
                self.string = rest;
                return Some(body);
            }
            self.string = behind;
        }
    }
}

impl<'a> Iterator for Segments<'a, [u8]> {
    type Item = &'a [u8];

    fn next(&mut self) -> Option<&'a [u8]> {
        self.whole.take().or_else(|| self.body())
    }
}

impl<'a> Iterator for Segments<'a, str> {
    type Item = &'a str;

    fn next(&mut self) -> Option<&'a str> {
        self.whole.take().or_else(|| {
            self.body()
                .map(|body| str::from_utf8(body).expect("a text that was read is UTF-8"))
        })
    }
}
