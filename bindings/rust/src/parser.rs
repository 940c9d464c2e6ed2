// SPDX-License-Identifier: Apache-2.0
use crate::calls;
use crate::sys::{cll_event, cll_parser, cll_report};
use crate::{Error, Header};
use core::{fmt, str};

/// What a parser found in the bytes that it took.
#[derive(Clone, Copy, Debug, PartialEq, Eq, Hash)]
pub enum Event<'a> {
    /// A title ended. A break within a string of indefinite length is a `Close`.
    Header {
        /// The meaning of the title.
        header: Header,
        /// The offset of the title in the bytes of all pieces.
        place: usize,
    },
    /// A break ended the innermost string of indefinite length.
    Close {
        /// The offset of the break in the bytes of all pieces.
        place: usize,
    },
    /// The next part of the body of a byte string. A body without bytes has no part.
    Bytes {
        /// The bytes of the part.
        part: &'a [u8],
        /// How many bytes the body still lacks.
        left: usize,
    },
    /// The next part of the body of a text: a character that an earlier piece began, if there is one, and then the
    /// rest.
    Text {
        /// The character that an earlier piece began.
        first: Option<char>,
        /// The text after it.
        rest: &'a str,
        /// How many bytes the body still lacks.
        left: usize,
    },
}

impl<'a> Event<'a> {
    /// Returns the event of an answer, with the bytes that it took.
    fn of(event: &cll_event, taken: &'a [u8]) -> Event<'a> {
        let (place, left) = (event.place as usize, event.left as usize);
        match event.kind {
            1 => Event::Header {
                header: Header::of(&event.header),
                place,
            },
            2 => Event::Close { place },
            3 => Event::Bytes { part: taken, left },
            _ => {
                let (first, rest) = parted(&event.carried[..event.carried_len.into()], taken);
                Event::Text { first, rest, left }
            }
        }
    }
}

/// Returns the bytes of whole characters as a text.
fn text(bytes: &[u8]) -> &str {
    str::from_utf8(bytes).expect("a text that was read is UTF-8")
}

/// Returns the character that these carried bytes begin, and the text after it. Together they are whole characters.
fn parted<'a>(carried: &[u8], taken: &'a [u8]) -> (Option<char>, &'a str) {
    let lead = match carried.first() {
        Some(&lead) => lead,
        None => return (None, text(taken)),
    };
    // The first byte of a character has as many ones at its top as the character has bytes.
    let len = lead.leading_ones() as usize;
    let mut bytes = [0; 4];
    let (begun, ended) = bytes[..len].split_at_mut(carried.len());
    begun.copy_from_slice(carried);
    ended.copy_from_slice(&taken[..len - carried.len()]);
    let rest = &taken[len - carried.len()..];
    (text(&bytes[..len]).chars().next(), text(rest))
}

/// Finds headers, and the bodies of strings, in bytes that come in pieces, as from a socket. It does not matter how
/// they are cut. A parser takes no memory but its own. It does not count the items in arrays and maps.
///
/// ```
/// use ciborium_ll_proved::{Event, Header, Parser};
///
/// let mut parser = Parser::new();
/// let mut events = parser.push(b"\x82\x19");
/// let header = Header::Array(Some(2));
/// assert_eq!(events.next(), Some(Ok(Event::Header { header, place: 0 })));
/// assert_eq!(events.next(), None);
/// let mut events = parser.push(b"\x03\xe8\x61z");
/// let header = Header::Positive(1000);
/// assert_eq!(events.next(), Some(Ok(Event::Header { header, place: 1 })));
/// let header = Header::Text(Some(1));
/// assert_eq!(events.next(), Some(Ok(Event::Header { header, place: 4 })));
/// let (first, rest, left) = (None, "z", 0);
/// assert_eq!(events.next(), Some(Ok(Event::Text { first, rest, left })));
/// assert!(parser.is_between());
/// ```
#[derive(Clone)]
pub struct Parser {
    kept: cll_parser,
    taken: usize,
}

impl Default for Parser {
    fn default() -> Parser {
        Parser::new()
    }
}

impl Parser {
    /// Returns a parser of any spelling, to which no byte came.
    #[must_use]
    pub fn new() -> Parser {
        let kept = calls::new_parser(false);
        Parser { kept, taken: 0 }
    }

    /// Returns a parser of the shortest spelling alone (RFC 7049, 3.9), to which no byte came.
    #[must_use]
    pub fn strict() -> Parser {
        let kept = calls::new_parser(true);
        Parser { kept, taken: 0 }
    }

    /// Goes over the events of the next piece. An error is the last one. It comes with the first byte after which no
    /// titles and bodies go on, and names an offset in the bytes of all pieces.
    ///
    /// Each step takes the bytes of its event. So a loop that ends early leaves the rest of the piece to a further
    /// call, and `taken` tells how many bytes came before it. After an error a further call takes nothing, and gives
    /// the same error.
    pub fn push<'p, 'a>(&'p mut self, bytes: &'a [u8]) -> Events<'p, 'a> {
        Events {
            parser: self,
            rest: bytes,
        }
    }

    /// Returns how many bytes of all pieces the parser took.
    #[must_use]
    pub fn taken(&self) -> usize {
        self.taken
    }

    /// Tells whether the bytes may end here: no title, no body and no string of indefinite length is under way. An
    /// array or a map may go on.
    #[must_use]
    pub fn is_between(&self) -> bool {
        self.end().is_ok()
    }

    /// Says that no more bytes come. It returns `Ok` if `is_between` does.
    ///
    /// # Errors
    ///
    /// - `Short` if a title, a body or a string of indefinite length is cut off. It says how many bytes came, and how
    ///   many more bytes of a title or of a body were due.
    /// - Any other error is one of `push`.
    pub fn end(&self) -> Result<(), Error> {
        match calls::end_parser(&self.kept) {
            (0, _) => Ok(()),
            (1, report) => Err(Error::Short {
                place: self.taken,
                due: report.place as usize,
            }),
            (answer, report) => Err(Error::of(answer, &report, 0)),
        }
    }
}

impl fmt::Debug for Parser {
    fn fmt(&self, f: &mut fmt::Formatter<'_>) -> fmt::Result {
        let mut shown = f.debug_struct("Parser");
        shown.field("taken", &self.taken);
        shown
            .field("is_between", &self.is_between())
            .finish_non_exhaustive()
    }
}

/// The events of a piece, as [`Parser::push`] gives them.
#[derive(Debug)]
#[must_use = "the parser takes no byte before the events are asked for"]
pub struct Events<'p, 'a> {
    parser: &'p mut Parser,
    rest: &'a [u8],
}

impl<'a> Iterator for Events<'_, 'a> {
    type Item = Result<Event<'a>, Error>;

    fn next(&mut self) -> Option<Result<Event<'a>, Error>> {
        if self.rest.is_empty() {
            return None;
        }
        let (answer, event) = calls::push_parser(&mut self.parser.kept, self.rest);
        let (taken, rest) = self.rest.split_at(event.consumed as usize);
        self.parser.taken += taken.len();
        self.rest = if answer == 0 { rest } else { &[] };
        match answer {
            0 => Some(Ok(Event::of(&event, taken))),
            1 => None,
            answer => {
                let (consumed, place) = (event.consumed, event.place);
                let report = cll_report {
                    consumed,
                    place,
                    ..cll_report::default()
                };
                Some(Err(Error::of(answer, &report, 0)))
            }
        }
    }
}

impl core::iter::FusedIterator for Events<'_, '_> {}
