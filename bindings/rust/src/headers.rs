// SPDX-License-Identifier: Apache-2.0
use crate::calls::{header_of, pull, skip, Titles, MOST};
use crate::{Error, Header};
use core::fmt;
use core::iter::FusedIterator;

/// A header, and the place of its title.
#[derive(Clone, Copy, Debug, PartialEq, Eq, Hash)]
#[non_exhaustive]
pub struct Title<'a> {
    /// What the title means.
    pub header: Header,
    /// The offset at which the title starts.
    pub start: usize,
    /// The offset at which the title ends.
    pub end: usize,
    /// The body of a string of a definite length, which follows the title.
    pub body: Option<&'a [u8]>,
    /// The body as text, if it is the body of a text.
    text: Option<&'a str>,
}

impl<'a> Title<'a> {
    /// Returns the body of a text of a definite length.
    #[must_use]
    pub fn text(&self) -> Option<&'a str> {
        self.text
    }
}

/// Goes over the titles of a slice, up to its end. An error is the last answer. The iterator reads a string of a
/// definite length whole, and the body of a text is UTF-8. It says nothing about how the titles nest.
///
/// ```
/// use ciborium_ll_proved::{headers, Error, Header};
///
/// let mut titles = headers(b"\x82\x61a\x1c");
/// assert_eq!(titles.next().unwrap()?.header, Header::Array(Some(2)));
/// let text = titles.next().unwrap()?;
/// assert_eq!((text.start, text.end, text.text()), (1, 2, Some("a")));
/// assert_eq!(titles.next(), Some(Err(Error::Syntax(3))));
/// assert_eq!(titles.next(), None);
/// # Ok::<(), Error>(())
/// ```
#[inline]
pub fn headers(bytes: &[u8]) -> Headers<'_> {
    Headers {
        bytes,
        offset: 0,
        titles: Titles::none(),
        base: 0,
        next: 0,
    }
}

/// The titles of a slice, as [`headers`] gives them.
#[derive(Clone)]
#[must_use = "the titles come one by one"]
pub struct Headers<'a> {
    bytes: &'a [u8],
    /// How many of the bytes were taken. After an error it is all of them.
    offset: usize,
    /// Titles that one call read, and the offset from which they count theirs.
    titles: Titles<'a>,
    base: usize,
    /// The place among them of the title that comes next.
    next: usize,
}

impl<'a> Headers<'a> {
    /// Returns the title that comes next, if it was read.
    #[inline]
    fn take(&mut self) -> Option<Title<'a>> {
        let title = self.titles.get(self.next)?;
        let (start, end) = (title.start as usize, title.end as usize);
        let body = self.titles.body(self.next);
        let taken = Title {
            header: Header::of(&header_of(title)),
            start: self.base + start,
            end: self.base + end,
            body,
            text: self.titles.text(self.next),
        };
        self.next += 1;
        self.offset = taken.end + body.map_or(0, <[u8]>::len);
        Some(taken)
    }

    /// Reads the titles that come next. If there are none, the calls for one title tell why.
    fn read(&mut self) -> Result<(), Error> {
        let (start, rest) = (self.offset, &self.bytes[self.offset..]);
        self.base = start;
        self.next = 0;
        self.titles.read(rest, MOST);
        if self.titles.count() == 0 {
            pull(rest, start)?;
            // A string has no levels.
            skip(rest, 0, start)?;
        }
        Ok(())
    }
}

impl<'a> Iterator for Headers<'a> {
    type Item = Result<Title<'a>, Error>;

    #[inline]
    fn next(&mut self) -> Option<Self::Item> {
        if let Some(title) = self.take() {
            return Some(Ok(title));
        }
        if self.offset == self.bytes.len() {
            return None;
        }
        match self.read() {
            Ok(()) => self.take().map(Ok),
            Err(error) => {
                self.offset = self.bytes.len();
                Some(Err(error))
            }
        }
    }
}

impl FusedIterator for Headers<'_> {}

impl fmt::Debug for Headers<'_> {
    fn fmt(&self, f: &mut fmt::Formatter<'_>) -> fmt::Result {
        f.debug_struct("Headers")
            .field("bytes", &self.bytes)
            .field("offset", &self.offset)
            .finish()
    }
}
