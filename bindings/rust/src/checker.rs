// SPDX-License-Identifier: Apache-2.0
use crate::calls;
use crate::sys::cll_checker;
use crate::Error;
use core::fmt;

/// How far an item has come.
#[derive(Clone, Copy, Debug, PartialEq, Eq, Hash)]
pub enum Progress {
    /// At least this many more bytes are due.
    More(usize),
    /// The item has ended. It has this many bytes.
    Ended(usize),
}

/// The answer to a piece.
#[derive(Clone, Copy, Debug, PartialEq, Eq, Hash)]
#[non_exhaustive]
#[must_use = "it says how many bytes were taken, and whether the item has ended"]
pub struct Feed {
    /// How many bytes of the piece the checker took: all of them, or those up to the end of the item.
    pub taken: usize,
    /// How far the item has come.
    pub progress: Progress,
}

/// Checks one item whose bytes come in pieces, as from a socket. It does not matter how they are cut. A checker takes
/// no memory but its own.
///
/// ```
/// use ciborium_ll_proved::{Checker, Progress};
///
/// let mut checker = Checker::new(64).unwrap();
/// assert_eq!(checker.feed(b"\x82\x19").unwrap().progress, Progress::More(2));
/// let feed = checker.feed(b"\x03\xe8\x05\x06").unwrap();
/// assert_eq!((feed.taken, feed.progress), (3, Progress::Ended(5)));
/// ```
#[derive(Clone)]
pub struct Checker {
    kept: cll_checker,
    taken: usize,
}

impl Checker {
    /// Returns a checker of an item that contains at most `depth` levels of tags, arrays and maps.
    ///
    /// # Errors
    ///
    /// - `Argument` if `depth` is above 256.
    pub fn new(depth: u32) -> Result<Checker, Error> {
        let kept = calls::new_checker(depth, false)?;
        Ok(Checker { kept, taken: 0 })
    }

    /// Returns a checker as `new` does, of an item in its shortest spelling (RFC 7049, 3.9).
    ///
    /// # Errors
    ///
    /// - `Argument` if `depth` is above 256.
    pub fn strict(depth: u32) -> Result<Checker, Error> {
        let kept = calls::new_checker(depth, true)?;
        Ok(Checker { kept, taken: 0 })
    }

    /// Takes the next bytes: all of them, or those up to the end of the item. After the end and after an error a
    /// further call takes nothing, and answers the same.
    ///
    /// # Errors
    ///
    /// An error comes with the first byte after which no item goes on. It names an offset in the item.
    pub fn feed(&mut self, bytes: &[u8]) -> Result<Feed, Error> {
        let (answer, report) = calls::feed(&mut self.kept, bytes);
        let (taken, place) = (report.consumed as usize, report.place as usize);
        self.taken += taken;
        let progress = match answer {
            0 => Progress::Ended(place),
            1 => Progress::More(place),
            answer => return Err(Error::of(answer, &report, 0)),
        };
        Ok(Feed { taken, progress })
    }

    /// Returns how many bytes of all pieces the checker took.
    #[must_use]
    pub fn taken(&self) -> usize {
        self.taken
    }

    /// Tells whether the item has ended. It has not before its first byte, nor after an error.
    #[must_use]
    pub fn is_ended(&self) -> bool {
        self.taken > 0 && self.end().is_ok()
    }

    /// Says that no more bytes come. It returns `Ok` if no byte came or the item has ended, and `is_ended` tells which.
    ///
    /// # Errors
    ///
    /// - `Short` if the item is cut off. It says how many bytes came, and how many more were due.
    /// - Any other error is one of `feed`.
    pub fn end(&self) -> Result<(), Error> {
        match calls::end(&self.kept) {
            (0, _) => Ok(()),
            (1, report) => Err(Error::Short {
                place: self.taken,
                due: report.place as usize,
            }),
            (answer, report) => Err(Error::of(answer, &report, 0)),
        }
    }
}

impl fmt::Debug for Checker {
    fn fmt(&self, f: &mut fmt::Formatter<'_>) -> fmt::Result {
        let mut shown = f.debug_struct("Checker");
        shown.field("taken", &self.taken);
        shown
            .field("is_ended", &self.is_ended())
            .finish_non_exhaustive()
    }
}
