// SPDX-License-Identifier: Apache-2.0
use crate::calls;
use crate::sys::{cll_copier, cll_item_copier, cll_report};
use crate::Error;
use core::fmt;

/// How far the elements, or an item, have come.
#[derive(Clone, Copy, Debug, PartialEq, Eq, Hash)]
pub enum Copying {
    /// More bytes are due. The copier wrote all that it can write before they come.
    More,
    /// There is more to write, and no room for it. The caller has to give the bytes that were not taken again.
    Room,
    /// All elements have come, or the item has ended, and all is written.
    Ended,
}

/// The answer to a piece.
#[derive(Clone, Copy, Debug, PartialEq, Eq, Hash)]
#[non_exhaustive]
#[must_use = "it says how many bytes were taken and written, and whether that is all"]
pub struct Fed {
    /// How many bytes of the piece the copier took.
    pub taken: usize,
    /// How many bytes the copier wrote.
    pub written: usize,
    /// How far the elements have come.
    pub progress: Copying,
}

impl Fed {
    /// Returns the answer of a copier.
    fn of(answer: u32, report: &cll_report) -> Result<Fed, Error> {
        let progress = match answer {
            0 => Copying::Ended,
            1 => Copying::More,
            3 => Copying::Room,
            answer => return Err(Error::of(answer, report, 0)),
        };
        Ok(Fed {
            taken: report.consumed as usize,
            written: report.written as usize,
            progress,
        })
    }
}

/// Copies elements whose bytes come in pieces to their shortest spelling. It does not matter how the bytes are cut and
/// how long the outputs are. A copier takes no memory but its own.
///
/// ```
/// use ciborium_ll_proved::{Copier, Copying};
///
/// let mut copier = Copier::new(2);
/// let mut out = [0; 8];
/// let fed = copier.feed(b"\x19\x00", &mut out).unwrap();
/// assert_eq!((fed.taken, fed.written, fed.progress), (2, 0, Copying::More));
/// let fed = copier.feed(b"\x05\x61a\x07", &mut out).unwrap();
/// assert_eq!((fed.taken, fed.written, fed.progress), (3, 3, Copying::Ended));
/// assert_eq!(&out[..3], b"\x05\x61a");
/// ```
#[derive(Clone)]
pub struct Copier {
    kept: cll_copier,
    taken: usize,
}

impl Copier {
    /// Returns a copier of `count` elements.
    pub fn new(count: u64) -> Copier {
        let kept = calls::new_copier(count, false);
        Copier { kept, taken: 0 }
    }

    /// Returns a copier as `new` does, of elements that are in their shortest spelling (RFC 7049, 3.9).
    pub fn strict(count: u64) -> Copier {
        let kept = calls::new_copier(count, true);
        Copier { kept, taken: 0 }
    }

    /// Takes the next bytes, and writes to the start of the output as much as it can write of all bytes so far. After
    /// the end and after an error a further call takes and writes nothing, and answers the same.
    ///
    /// # Errors
    ///
    /// An error comes with the first byte after which no such elements go on. It names an offset in all of them.
    pub fn feed(&mut self, bytes: &[u8], out: &mut [u8]) -> Result<Fed, Error> {
        let (answer, report) = calls::feed_copier(&mut self.kept, bytes, out);
        self.taken += report.consumed as usize;
        Fed::of(answer, &report)
    }

    /// Returns how many bytes of all pieces the copier took.
    #[must_use]
    pub fn taken(&self) -> usize {
        self.taken
    }

    /// Tells whether all elements have come and are written. A copier of no elements has ended before the first byte.
    #[must_use]
    pub fn is_ended(&self) -> bool {
        self.end().is_ok()
    }

    /// Says that no more bytes come. It returns `Ok` if all elements have come and are written.
    ///
    /// # Errors
    ///
    /// - `Short` if the elements are cut off. It says how many bytes came.
    /// - `Room` if there is more to write.
    /// - Any other error is one of `feed`.
    pub fn end(&self) -> Result<(), Error> {
        match calls::end_copier(&self.kept) {
            (0, _) => Ok(()),
            (1, _) => Err(Error::Short {
                place: self.taken,
                due: 0,
            }),
            (answer, report) => Err(Error::of(answer, &report, 0)),
        }
    }
}

/// Copies one item whose bytes come in pieces to its shortest spelling, and ends with the item. A copier takes no
/// memory but its own.
///
/// ```
/// use ciborium_ll_proved::{Copying, ItemCopier};
///
/// let mut copier = ItemCopier::new(64).unwrap();
/// let mut out = [0; 8];
/// let fed = copier.feed(b"\x82\x19\x00", &mut out).unwrap();
/// assert_eq!((fed.taken, fed.written, fed.progress), (3, 1, Copying::More));
/// let fed = copier.feed(b"\x05\x61a\x07", &mut out[1..]).unwrap();
/// assert_eq!((fed.taken, fed.written, fed.progress), (3, 3, Copying::Ended));
/// assert_eq!(&out[..4], b"\x82\x05\x61a");
/// ```
#[derive(Clone)]
pub struct ItemCopier {
    kept: cll_item_copier,
    taken: usize,
}

impl ItemCopier {
    /// Returns a copier of an item that contains at most `depth` levels of tags, arrays and maps.
    ///
    /// # Errors
    ///
    /// - `Argument` if `depth` is above 256.
    pub fn new(depth: u32) -> Result<ItemCopier, Error> {
        let kept = calls::new_item_copier(depth, false)?;
        Ok(ItemCopier { kept, taken: 0 })
    }

    /// Returns a copier as `new` does, of an item that is in its shortest spelling (RFC 7049, 3.9).
    ///
    /// # Errors
    ///
    /// - `Argument` if `depth` is above 256.
    pub fn strict(depth: u32) -> Result<ItemCopier, Error> {
        let kept = calls::new_item_copier(depth, true)?;
        Ok(ItemCopier { kept, taken: 0 })
    }

    /// Takes the next bytes up to the end of the item. It writes to the start of the output as much as it can write of
    /// all bytes so far. After the end and after an error a further call takes and writes nothing, and answers the
    /// same.
    ///
    /// # Errors
    ///
    /// An error comes with the first byte after which no item goes on. The call writes nothing of that byte. The error
    /// names an offset in the item.
    pub fn feed(&mut self, bytes: &[u8], out: &mut [u8]) -> Result<Fed, Error> {
        let (answer, report) = calls::feed_item_copier(&mut self.kept, bytes, out);
        self.taken += report.consumed as usize;
        Fed::of(answer, &report)
    }

    /// Returns how many bytes of all pieces the copier took.
    #[must_use]
    pub fn taken(&self) -> usize {
        self.taken
    }

    /// Tells whether the item has ended and is written. It has not before its first byte, nor after an error.
    #[must_use]
    pub fn is_ended(&self) -> bool {
        self.taken > 0 && self.end().is_ok()
    }

    /// Says that no more bytes come. It returns `Ok` if no byte came, or if the item has ended and is written.
    /// `is_ended` tells which.
    ///
    /// # Errors
    ///
    /// - `Short` if the item is cut off. It says how many bytes came, and how many more were due.
    /// - `Room` if there is more to write.
    /// - Any other error is one of `feed`.
    pub fn end(&self) -> Result<(), Error> {
        match calls::end_item_copier(&self.kept) {
            (0, _) => Ok(()),
            (1, report) => Err(Error::Short {
                place: self.taken,
                due: report.place as usize,
            }),
            (answer, report) => Err(Error::of(answer, &report, 0)),
        }
    }
}

impl fmt::Debug for Copier {
    fn fmt(&self, f: &mut fmt::Formatter<'_>) -> fmt::Result {
        let mut shown = f.debug_struct("Copier");
        shown.field("taken", &self.taken);
        shown
            .field("is_ended", &self.is_ended())
            .finish_non_exhaustive()
    }
}

impl fmt::Debug for ItemCopier {
    fn fmt(&self, f: &mut fmt::Formatter<'_>) -> fmt::Result {
        let mut shown = f.debug_struct("ItemCopier");
        shown.field("taken", &self.taken);
        shown
            .field("is_ended", &self.is_ended())
            .finish_non_exhaustive()
    }
}
