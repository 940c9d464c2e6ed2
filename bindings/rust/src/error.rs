// SPDX-License-Identifier: Apache-2.0
use crate::calls::Stopped;
use crate::sys::cll_report;
use core::fmt;

/// Why a call failed. Each number is an offset in the bytes, except `due`.
#[derive(Clone, Copy, Debug, PartialEq, Eq, Hash)]
#[non_exhaustive]
pub enum Error {
    /// The bytes end too early.
    Short {
        /// The offset at which the read stopped.
        place: usize,
        /// How many more bytes `recode`, `strict`, `skip_item`, a checker and a copier of an item need at least. It is
        /// 0 if no bytes that may follow complete the input, and for other calls.
        due: usize,
    },
    /// At this offset stands no CBOR, or for `utf8` no UTF-8, that may stand there.
    Syntax(usize),
    /// The output is full.
    Room,
    /// At this offset a break stands in place of an item.
    BreakDue(usize),
    /// At this offset a tag, an array or a map stands deeper than the caller allows.
    TooDeep(usize),
    /// An argument is out of its range, and the call did nothing.
    Argument,
    /// At this offset stands a title that is longer than need be, or a float that fits a smaller width.
    NotShortest(usize),
    /// At this offset stands the title of an indefinite form, or a break.
    Indefinite(usize),
    /// At this offset stands a key that comes before the key of the pair before it.
    KeyOrder(usize),
    /// At this offset stands a key that its map has before it.
    DuplicateKey(usize),
}

impl Error {
    /// Returns the error of an answer other than success, over bytes that begin at an offset.
    pub(crate) fn of(answer: u32, report: &cll_report, offset: usize) -> Error {
        let place = offset + report.place as usize;
        match answer {
            1 => Error::Short {
                place: offset + report.consumed as usize,
                due: report.place as usize,
            },
            2 => Error::Syntax(place),
            3 => Error::Room,
            5 => Error::BreakDue(place),
            6 => Error::TooDeep(place),
            8 => Error::NotShortest(place),
            9 => Error::Indefinite(place),
            10 => Error::KeyOrder(place),
            11 => Error::DuplicateKey(place),
            // The library never answers 4 for bytes in memory.
            _ => Error::Argument,
        }
    }

    /// Returns the name of the answer.
    #[must_use]
    pub fn name(&self) -> &'static str {
        match self {
            Error::Short { .. } => "short",
            Error::Syntax(_) => "syntax",
            Error::Room => "room",
            Error::BreakDue(_) => "break_due",
            Error::TooDeep(_) => "too_deep",
            Error::Argument => "argument",
            Error::NotShortest(_) => "not_shortest",
            Error::Indefinite(_) => "indefinite",
            Error::KeyOrder(_) => "key_order",
            Error::DuplicateKey(_) => "duplicate_key",
        }
    }

    /// Returns the offset that the error names, if it names one.
    #[must_use]
    pub fn place(&self) -> Option<usize> {
        match *self {
            Error::Short { place, .. }
            | Error::Syntax(place)
            | Error::BreakDue(place)
            | Error::TooDeep(place)
            | Error::NotShortest(place)
            | Error::Indefinite(place)
            | Error::KeyOrder(place)
            | Error::DuplicateKey(place) => Some(place),
            Error::Room | Error::Argument => None,
        }
    }

    /// Returns how many more bytes are due at least. It is 0 for each error but `Short`.
    #[must_use]
    pub fn due(&self) -> usize {
        match *self {
            Error::Short { due, .. } => due,
            _ => 0,
        }
    }
}

impl fmt::Display for Error {
    fn fmt(&self, f: &mut fmt::Formatter<'_>) -> fmt::Result {
        f.write_str(self.name())?;
        self.place()
            .map_or(Ok(()), |place| write!(f, " at {place}"))
    }
}

#[cfg(feature = "std")]
impl std::error::Error for Error {}

impl fmt::Display for Stopped {
    fn fmt(&self, f: &mut fmt::Formatter<'_>) -> fmt::Result {
        let (read, written) = (self.copied.consumed, self.copied.written);
        write!(
            f,
            "{}, with {read} bytes read and {written} written",
            self.error
        )
    }
}

#[cfg(feature = "std")]
impl std::error::Error for Stopped {
    fn source(&self) -> Option<&(dyn std::error::Error + 'static)> {
        Some(&self.error)
    }
}

impl From<Stopped> for Error {
    fn from(stopped: Stopped) -> Error {
        stopped.error
    }
}
