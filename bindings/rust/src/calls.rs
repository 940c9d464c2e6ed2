// SPDX-License-Identifier: Apache-2.0
//! The calls over slices. Only this file calls functions that are not safe by their types. Each pointer is that of a
//! slice or of a value. No pointer that is written overlaps another one.

use crate::sys::{
    self, cll_body, cll_checker, cll_copier, cll_event, cll_header, cll_item, cll_item_copier,
    cll_items, cll_parser, cll_report, cll_span, cll_title,
};
use crate::{Error, Header};
use core::mem::MaybeUninit;
use core::{slice, str};

/// How many bytes a call consumed and wrote, and how many elements it did.
#[derive(Clone, Copy, Debug, PartialEq, Eq, Hash)]
#[non_exhaustive]
pub struct Copied {
    /// How many bytes the call read.
    pub consumed: usize,
    /// How many bytes the call wrote to the start of the output.
    pub written: usize,
    /// How many elements the call did whole.
    pub elements: u64,
    /// How many bytes these elements have.
    pub whole: usize,
    /// How many of the written bytes are the spelling of these elements.
    pub spelled: usize,
}

impl Copied {
    /// Returns the numbers of a report.
    fn of(report: &cll_report) -> Copied {
        Copied {
            consumed: report.consumed as usize,
            written: report.written as usize,
            elements: report.elements,
            whole: report.whole as usize,
            spelled: report.spelled as usize,
        }
    }
}

/// Why a copy stopped, and how far it came.
#[derive(Clone, Copy, Debug, PartialEq, Eq, Hash)]
#[non_exhaustive]
pub struct Stopped {
    /// Why.
    pub error: Error,
    /// How far.
    pub copied: Copied,
}

/// Reads the title with which the bytes begin. Returns its header and its length. An error counts its offset from
/// `offset` on.
#[inline]
pub(crate) fn pull(bytes: &[u8], offset: usize) -> Result<(Header, usize), Error> {
    pull_parts(bytes, offset).map(|(parts, length)| (Header::of(&parts), length))
}

/// Reads a title as [`pull`] does, and returns the parts of its header.
#[inline]
pub(crate) fn pull_parts(bytes: &[u8], offset: usize) -> Result<(cll_header, usize), Error> {
    let (mut parts, mut consumed) = (cll_header::default(), 0);
    // SAFETY: as this file says.
    match unsafe { sys::cll_pull(bytes.as_ptr(), bytes.len(), &mut parts, &mut consumed) } {
        0 => Ok((parts, consumed)),
        answer => {
            let report = cll_report {
                consumed: consumed as u64,
                ..cll_report::default()
            };
            Err(Error::of(answer, &report, offset))
        }
    }
}

/// Returns the parts of the header of a title.
#[inline]
pub(crate) fn header_of(title: &cll_title) -> cll_header {
    cll_header {
        value: title.value,
        kind: title.kind,
        indefinite: title.indefinite,
    }
}

/// How many titles one call reads at most.
pub(crate) const MOST: usize = 16;

/// The titles with which some bytes begin, as one call read them. The body of each string of a definite length is there
/// whole, and that of a text is UTF-8.
#[derive(Clone)]
pub(crate) struct Titles<'a> {
    bytes: &'a [u8],
    titles: MaybeUninit<[cll_title; MOST]>,
    /// How many titles were read. Those after them were never written.
    count: usize,
}

impl<'a> Titles<'a> {
    /// Returns no titles.
    #[inline]
    pub(crate) fn none() -> Titles<'a> {
        Titles {
            bytes: &[],
            titles: MaybeUninit::uninit(),
            count: 0,
        }
    }

    /// Reads up to `most` of the titles that come first, in place of those that were read before.
    pub(crate) fn read(&mut self, bytes: &'a [u8], most: usize) {
        let mut report = cll_report::default();
        let (data, len) = (bytes.as_ptr(), bytes.len());
        let (there, most) = (self.titles.as_mut_ptr().cast(), most.min(MOST));
        // The answer tells why no more titles were read. A caller that asks for it asks the calls for one title.
        // SAFETY: as this file says. The call only writes titles.
        let _answer = unsafe { sys::cll_headers(data, len, there, most, &mut report) };
        self.bytes = bytes;
        // The call writes no more than that.
        self.count = most.min(report.written as usize);
    }

    /// Forgets the titles that were read.
    pub(crate) fn clear(&mut self) {
        self.count = 0;
    }

    /// Returns how many titles were read.
    #[inline]
    pub(crate) fn count(&self) -> usize {
        self.count
    }

    /// Returns a title that was read. Its offsets count from the start of the bytes.
    #[inline]
    pub(crate) fn get(&self, at: usize) -> Option<&cll_title> {
        let titles: *const cll_title = self.titles.as_ptr().cast();
        // SAFETY: the call wrote the first `count` titles.
        (at < self.count).then(|| unsafe { &*titles.add(at) })
    }

    /// Returns the body of a title that was read, if it is the title of a string of a definite length.
    #[inline]
    pub(crate) fn body(&self, at: usize) -> Option<&'a [u8]> {
        let title = self.get(at)?;
        let is_string = (title.kind == 2 || title.kind == 3) && title.indefinite == 0;
        let start = title.end as usize;
        is_string.then(|| &self.bytes[start..start + title.value as usize])
    }

    /// Returns the body of a title that was read, if it is the title of a text of a definite length.
    #[inline]
    pub(crate) fn text(&self, at: usize) -> Option<&'a str> {
        if self.get(at)?.kind != 3 {
            return None;
        }
        // SAFETY: the call takes the body of a text only if it is UTF-8.
        self.body(at)
            .map(|body| unsafe { str::from_utf8_unchecked(body) })
    }
}

/// Writes the shortest title of a header to the start of the output, whole or not at all. Returns its length.
pub(crate) fn push(header: Header, out: &mut [u8]) -> Result<usize, Error> {
    let (parts, mut report) = (header.parts(), cll_report::default());
    // SAFETY: as this file says.
    match unsafe { sys::cll_push(&parts, out.as_mut_ptr(), out.len(), &mut report) } {
        0 => Ok(report.written as usize),
        answer => Err(Error::of(answer, &report, 0)),
    }
}

/// Writes a title as `push` does, but the one that has `width` bytes after its first one.
pub(crate) fn push_wide(header: Header, width: u32, out: &mut [u8]) -> Result<usize, Error> {
    let (parts, mut report) = (header.parts(), cll_report::default());
    // SAFETY: as this file says.
    match unsafe { sys::cll_push_wide(&parts, width, out.as_mut_ptr(), out.len(), &mut report) } {
        0 => Ok(report.written as usize),
        answer => Err(Error::of(answer, &report, 0)),
    }
}

/// Copies `count` elements, each in its shortest spelling. An element is a title that begins no string, or a whole
/// string. An output with as many bytes as the call reads is always long enough. After an error `out` holds the bytes
/// written before it.
pub fn recode(bytes: &[u8], count: u64, out: &mut [u8]) -> Result<Copied, Stopped> {
    let mut report = cll_report::default();
    let (from, to) = (bytes.as_ptr(), out.as_mut_ptr());
    // SAFETY: as this file says.
    let answer = unsafe { sys::cll_recode(from, bytes.len(), count, to, out.len(), &mut report) };
    ended(answer, &report)
}

/// Tells whether a copy or a check did all, and how far it came.
fn ended(answer: u32, report: &cll_report) -> Result<Copied, Stopped> {
    let copied = Copied::of(report);
    match answer {
        0 => Ok(copied),
        answer => Err(Stopped {
            error: Error::of(answer, report, 0),
            copied,
        }),
    }
}

/// Checks that the bytes begin with `count` elements in their one shortest spelling, as [`strict_len`] does. Returns
/// how far they do. The call writes nothing.
pub fn strict(bytes: &[u8], count: u64) -> Result<Copied, Stopped> {
    let mut report = cll_report::default();
    // SAFETY: as this file says.
    let answer = unsafe { sys::cll_strict(bytes.as_ptr(), bytes.len(), count, &mut report) };
    ended(answer, &report)
}

/// Returns the length of `count` elements in their one shortest spelling, with which the bytes begin. A shortest
/// spelling has no simple value from 24 to 31. It has no string of indefinite length inside another one.
pub fn strict_len(bytes: &[u8], count: u64) -> Result<usize, Error> {
    match strict(bytes, count) {
        Ok(checked) => Ok(checked.consumed),
        Err(stopped) => Err(stopped.error),
    }
}

/// Returns the length of the item with which the bytes begin. The item may contain at most `depth` levels of tags,
/// arrays and maps, and no more than 256.
pub fn skip_item(bytes: &[u8], depth: u32) -> Result<usize, Error> {
    skip(bytes, depth, 0)
}

/// Skips an item as [`skip_item`] does. An error counts its offset from `offset` on.
pub(crate) fn skip(bytes: &[u8], depth: u32, offset: usize) -> Result<usize, Error> {
    let mut report = cll_report::default();
    // SAFETY: as this file says.
    match unsafe { sys::cll_skip(bytes.as_ptr(), bytes.len(), depth, &mut report) } {
        0 => Ok(report.consumed as usize),
        answer => Err(Error::of(answer, &report, offset)),
    }
}

/// The order of the keys of a map, by their encodings.
#[derive(Clone, Copy, Debug, Default, PartialEq, Eq, Hash)]
pub enum Order {
    /// By their bytes (RFC 8949, 4.2.1).
    #[default]
    Bytewise,
    /// The shorter one first, and keys of the same length by their bytes (RFC 8949, 4.2.3).
    LengthFirst,
}

/// Returns the length of the item with which the bytes begin, in the deterministic encoding (RFC 8949, 4.2). The keys
/// of its maps ascend in this order. The item may contain at most `depth` levels, and no more than 256.
///
/// ```
/// use ciborium_ll_proved::{deterministic, Error, Order};
///
/// assert_eq!(deterministic(b"\xa2\x18\x64\0\xf4\0", 16, Order::Bytewise), Ok(6));
/// let other = deterministic(b"\xa2\x18\x64\0\xf4\0", 16, Order::LengthFirst);
/// assert_eq!(other, Err(Error::KeyOrder(4)));
/// ```
pub fn deterministic(bytes: &[u8], depth: u32, order: Order) -> Result<usize, Error> {
    let mut report = cll_report::default();
    let (data, order) = (bytes.as_ptr(), order as u32);
    // SAFETY: as this file says.
    match unsafe { sys::cll_deterministic(data, bytes.len(), depth, order, &mut report) } {
        0 => Ok(report.consumed as usize),
        answer => Err(Error::of(answer, &report, 0)),
    }
}

/// Memory that [`canonical_into`] needs for a pair of a map. What it holds before and after a call means nothing.
#[derive(Clone, Copy, Debug, Default)]
#[repr(transparent)]
pub struct Span(cll_span);

/// Writes the deterministic encoding of the item with which the bytes begin to the start of the output (RFC 8949, 4.2).
/// The item may have any spelling. The keys of its maps ascend in this order. The item may contain at most `depth`
/// levels, and no more than 256.
///
/// Returns the lengths of the item and of its encoding. The call counts no elements.
///
/// For an item of `n` bytes an output of `n + n / 256` bytes and half as many spans are enough. An item that is in the
/// encoding already needs no spans. In any other one a map needs a span for each pair. If its keys do not ascend, it
/// also needs one for two bytes of its pairs, unless as many bytes of the output follow these.
///
/// # Errors
///
/// After an error the contents of the output are unknown.
///
/// - `Short` if the bytes end before the item does. It does not say how many bytes are due.
/// - `Syntax` as of [`skip_item`], or if a simple value is from 24 to 31, which means nothing.
/// - `BreakDue` and `TooDeep` as of [`skip_item`].
/// - `DuplicateKey` if a key of a map has the same value as one before it.
/// - `Room` if the output or `spans` is too short.
/// - `Argument` if `depth` is above 256.
///
/// ```
/// use ciborium_ll_proved::{canonical_into, Order, Span};
///
/// let (mut out, mut spans) = ([0; 32], [Span::default(); 8]);
/// let copied = canonical_into(b"\xbf\x02\0\x01\0\xff", 16, Order::Bytewise, &mut out, &mut spans)?;
/// assert_eq!((copied.consumed, &out[..copied.written]), (6, &b"\xa2\x01\0\x02\0"[..]));
/// # Ok::<(), ciborium_ll_proved::Error>(())
/// ```
pub fn canonical_into(
    bytes: &[u8],
    depth: u32,
    order: Order,
    out: &mut [u8],
    spans: &mut [Span],
) -> Result<Copied, Error> {
    let mut report = cll_report::default();
    let (data, len, order) = (bytes.as_ptr(), bytes.len(), order as u32);
    let (to, room, places) = (out.as_mut_ptr(), out.len(), spans.as_mut_ptr().cast());
    let count = spans.len();
    // SAFETY: as this file says.
    let answer = unsafe {
        sys::cll_canonical(
            data,
            len,
            depth,
            order,
            to,
            room,
            places,
            count,
            &mut report,
        )
    };
    match answer {
        0 => Ok(Copied::of(&report)),
        answer => Err(Error::of(answer, &report, 0)),
    }
}

/// Returns the deterministic encoding of the item with which the bytes begin, as [`canonical_into`] writes it. It says
/// nothing about the bytes that follow the item, whose length [`skip_item`] returns.
///
/// # Errors
///
/// Those of [`canonical_into`] except `Room`.
///
/// ```
/// use ciborium_ll_proved::{canonical, Error, Order};
///
/// let made = canonical(b"\xbf\x02\xfa\x3f\xc0\0\0\x18\x01\0\xff", 16, Order::Bytewise);
/// assert_eq!(made, Ok(b"\xa2\x01\0\x02\xf9\x3e\0".to_vec()));
/// let twice = canonical(b"\xa2\x01\0\x18\x01\0", 16, Order::Bytewise);
/// assert_eq!(twice, Err(Error::DuplicateKey(3)));
/// ```
#[cfg(feature = "std")]
pub fn canonical(bytes: &[u8], depth: u32, order: Order) -> Result<Vec<u8>, Error> {
    let len = bytes.len();
    // No encoding is longer than that.
    let mut out = vec![0; len + len / 256];
    // Half as many spans are enough, and most items need few.
    let most = out.len() / 2;
    let mut count = most.min(len / 16 + 16);
    loop {
        let mut spans = vec![Span::default(); count];
        match canonical_into(bytes, depth, order, &mut out, &mut spans) {
            Ok(copied) => {
                out.truncate(copied.written);
                return Ok(out);
            }
            Err(Error::Room) if count < most => count = most.min(4 * count),
            Err(error) => return Err(error),
        }
    }
}

/// Returns the bytes as text, if all of them are UTF-8.
///
/// # Errors
///
/// The place of the error is the length of the longest front of the bytes that is UTF-8.
///
/// - `Short` if a character is cut off after the front. More bytes may complete it.
/// - `Syntax` if no UTF-8 goes on after the front.
pub fn utf8(bytes: &[u8]) -> Result<&str, Error> {
    let mut report = cll_report::default();
    // SAFETY: as this file says.
    match unsafe { sys::cll_utf8(bytes.as_ptr(), bytes.len(), &mut report) } {
        // SAFETY: the call answers 0 for UTF-8 alone.
        0 => Ok(unsafe { str::from_utf8_unchecked(bytes) }),
        answer => Err(Error::of(answer, &report, 0)),
    }
}

/// Returns the longest front of the bytes that is UTF-8, and whether more bytes may complete the rest.
#[cfg(feature = "std")]
#[inline]
pub(crate) fn utf8_in_front(bytes: &[u8]) -> (&str, bool) {
    let mut report = cll_report::default();
    // SAFETY: as this file says.
    let answer = unsafe { sys::cll_utf8(bytes.as_ptr(), bytes.len(), &mut report) };
    let front = &bytes[..report.consumed as usize];
    // SAFETY: whatever the answer is, the first `consumed` bytes are UTF-8.
    (unsafe { str::from_utf8_unchecked(front) }, answer < 2)
}

/// Returns a checker, to which no byte came, of an item that contains at most `depth` levels. A strict one takes the
/// shortest spelling alone.
pub(crate) fn new_checker(depth: u32, strict: bool) -> Result<cll_checker, Error> {
    let mut checker = cll_checker { words: [0; 296] };
    let init = if strict {
        sys::cll_checker_init_strict
    } else {
        sys::cll_checker_init
    };
    // SAFETY: as this file says.
    match unsafe { init(&mut checker, depth) } {
        0 => Ok(checker),
        answer => Err(Error::of(answer, &cll_report::default(), 0)),
    }
}

/// Gives a checker the next bytes. Returns the answer and the report.
pub(crate) fn feed(checker: &mut cll_checker, bytes: &[u8]) -> (u32, cll_report) {
    let mut report = cll_report::default();
    // SAFETY: as this file says.
    let answer =
        unsafe { sys::cll_checker_feed(checker, bytes.as_ptr(), bytes.len(), &mut report) };
    (answer, report)
}

/// A call that says that no more bytes come.
type EndCall<T> = unsafe extern "C" fn(*const T, *mut cll_report) -> u32;

/// Says by this call that no more bytes come. Returns the answer and the report.
fn end_by<T>(call: EndCall<T>, kept: &T) -> (u32, cll_report) {
    let mut report = cll_report::default();
    // SAFETY: as this file says.
    let answer = unsafe { call(kept, &mut report) };
    (answer, report)
}

/// Says that no more bytes come to a checker. Returns the answer and the report.
pub(crate) fn end(checker: &cll_checker) -> (u32, cll_report) {
    end_by(sys::cll_checker_end, checker)
}

/// Returns a parser to which no byte came.
pub(crate) fn new_parser(strict: bool) -> cll_parser {
    let mut parser = cll_parser { words: [0; 7] };
    let init = if strict {
        sys::cll_parser_init_strict
    } else {
        sys::cll_parser_init
    };
    // SAFETY: as this file says. The answer is always that it is set up.
    let _ = unsafe { init(&mut parser) };
    parser
}

/// Gives a parser the next bytes. Returns the answer and the event.
pub(crate) fn push_parser(parser: &mut cll_parser, bytes: &[u8]) -> (u32, cll_event) {
    let mut event = cll_event::default();
    // SAFETY: as this file says.
    let answer = unsafe { sys::cll_parser_push(parser, bytes.as_ptr(), bytes.len(), &mut event) };
    (answer, event)
}

/// Says that no more bytes come to a parser. Returns the answer and the report.
pub(crate) fn end_parser(parser: &cll_parser) -> (u32, cll_report) {
    end_by(sys::cll_parser_end, parser)
}

/// A call that gives a copier the next bytes, and room for their spelling.
type CopyCall<T> =
    unsafe extern "C" fn(*mut T, *const u8, usize, *mut u8, usize, *mut cll_report) -> u32;

/// Gives a copier the next bytes by this call, and room for their spelling. Returns the answer and the report.
fn copy_by<T>(
    call: CopyCall<T>,
    copier: &mut T,
    bytes: &[u8],
    out: &mut [u8],
) -> (u32, cll_report) {
    let mut report = cll_report::default();
    let (data, len) = (bytes.as_ptr(), bytes.len());
    let (space, room) = (out.as_mut_ptr(), out.len());
    // SAFETY: as this file says.
    let answer = unsafe { call(copier, data, len, space, room, &mut report) };
    (answer, report)
}

/// Returns a copier of `count` elements, to which no byte came. A strict one takes the shortest spelling alone.
pub(crate) fn new_copier(count: u64, strict: bool) -> cll_copier {
    let mut copier = cll_copier { words: [0; 9] };
    let init = if strict {
        sys::cll_copier_init_strict
    } else {
        sys::cll_copier_init
    };
    // SAFETY: as this file says.
    let _answer = unsafe { init(&mut copier, count) };
    copier
}

/// Gives a copier the next bytes, and room for their spelling. Returns the answer and the report.
pub(crate) fn feed_copier(
    copier: &mut cll_copier,
    bytes: &[u8],
    out: &mut [u8],
) -> (u32, cll_report) {
    copy_by(sys::cll_copier_feed, copier, bytes, out)
}

/// Says that no more bytes come to a copier. Returns the answer and the report.
pub(crate) fn end_copier(copier: &cll_copier) -> (u32, cll_report) {
    end_by(sys::cll_copier_end, copier)
}

/// Returns a copier, to which no byte came, of an item that contains at most `depth` levels. A strict one takes the
/// shortest spelling alone.
pub(crate) fn new_item_copier(depth: u32, strict: bool) -> Result<cll_item_copier, Error> {
    let mut copier = cll_item_copier { words: [0; 304] };
    let init = if strict {
        sys::cll_item_copier_init_strict
    } else {
        sys::cll_item_copier_init
    };
    // SAFETY: as this file says.
    match unsafe { init(&mut copier, depth) } {
        0 => Ok(copier),
        answer => Err(Error::of(answer, &cll_report::default(), 0)),
    }
}

/// Gives a copier of an item the next bytes, and room for their spelling. Returns the answer and the report.
pub(crate) fn feed_item_copier(
    copier: &mut cll_item_copier,
    bytes: &[u8],
    out: &mut [u8],
) -> (u32, cll_report) {
    copy_by(sys::cll_item_copier_feed, copier, bytes, out)
}

/// Says that no more bytes come to a copier of an item. Returns the answer and the report.
pub(crate) fn end_item_copier(copier: &cll_item_copier) -> (u32, cll_report) {
    end_by(sys::cll_item_copier_end, copier)
}

/// Bytes with the number of levels that each item in them may go down.
pub(crate) type Deep<'a> = (&'a [u8], u32);

/// Returns the length of the item with which the bytes begin.
pub(crate) fn item_len(bytes: &[u8], depth: u32) -> Result<usize, Error> {
    let (mut view, mut report) = (view_of((&[], 0)), cll_report::default());
    let (data, len) = (bytes.as_ptr(), bytes.len());
    // SAFETY: as this file says.
    match unsafe { sys::cll_item_parse(data, len, depth, &mut view, &mut report) } {
        0 => Ok(report.consumed as usize),
        answer => Err(Error::of(answer, &report, 0)),
    }
}

/// Returns the view of an item, as the calls have it.
#[inline]
fn view_of(item: Deep<'_>) -> cll_item {
    cll_item {
        data: item.0.as_ptr(),
        len: item.0.len(),
        depth: item.1,
    }
}

/// Returns the header of an item.
pub(crate) fn item_header(item: Deep<'_>) -> Header {
    let mut parts = cll_header::default();
    // SAFETY: as this file says. An item begins with a title, so the call writes the parts.
    let _answer = unsafe { sys::cll_item_header(&view_of(item), &mut parts) };
    Header::of(&parts)
}

/// A call that gives the body of a string.
type BodyCall = unsafe extern "C" fn(*const cll_item, *mut cll_body) -> u32;

/// Returns the body of a string that this call gives.
fn body_by<'a>(call: BodyCall, item: Deep<'a>) -> Option<&'a [u8]> {
    let mut body = cll_body {
        data: item.0.as_ptr(),
        len: 0,
    };
    // SAFETY: as this file says. The body that the call gives is a part of the item.
    unsafe {
        (call(&view_of(item), &mut body) == 0).then(|| slice::from_raw_parts(body.data, body.len))
    }
}

/// Returns the body of a byte string of a definite length.
pub(crate) fn item_bytes<'a>(item: Deep<'a>) -> Option<&'a [u8]> {
    body_by(sys::cll_item_bytes, item)
}

/// Returns the body of a text of a definite length.
pub(crate) fn item_text<'a>(item: Deep<'a>) -> Option<&'a str> {
    // SAFETY: the item was checked, so the body of a text is UTF-8.
    body_by(sys::cll_item_text, item).map(|body| unsafe { str::from_utf8_unchecked(body) })
}

/// Returns the items in an item.
pub(crate) fn items<'a>(item: Deep<'a>) -> Option<Deep<'a>> {
    let mut items = cll_items {
        data: item.0.as_ptr(),
        len: 0,
        depth: 0,
    };
    // SAFETY: as this file says. The items that the call gives are a part of the item.
    unsafe {
        (sys::cll_item_items(&view_of(item), &mut items) == 0)
            .then(|| (slice::from_raw_parts(items.data, items.len), items.depth))
    }
}

/// Returns the first of the items that are left, and the others.
pub(crate) fn next_item<'a>(items: Deep<'a>) -> Option<(Deep<'a>, Deep<'a>)> {
    let mut left = cll_items {
        data: items.0.as_ptr(),
        len: items.0.len(),
        depth: items.1,
    };
    let mut view = view_of((&[], 0));
    // SAFETY: as this file says. The call takes the item off the front of the bytes.
    unsafe { sys::cll_item_next(&mut left, &mut view) == 0 }.then(|| {
        let (item, others) = items.0.split_at(view.len);
        ((item, view.depth), (others, left.depth))
    })
}

/// Returns the item of the view that a call writes, if it gives the answer 0.
fn found_by<'a>(call: impl FnOnce(*mut cll_item) -> u32) -> Option<Deep<'a>> {
    let mut view = view_of((&[], 0));
    if call(&mut view) != 0 {
        return None;
    }
    // SAFETY: the view that each call below writes is a part of the item that the call got.
    let bytes = unsafe { slice::from_raw_parts(view.data, view.len) };
    Some((bytes, view.depth))
}

/// Returns the value of the first key with these bytes.
pub(crate) fn get<'a>(item: Deep<'a>, key: &[u8]) -> Option<Deep<'a>> {
    // SAFETY: as this file says.
    found_by(|value| unsafe { sys::cll_item_get(&view_of(item), key.as_ptr(), key.len(), value) })
}

/// Returns the value of the first key that is this text.
pub(crate) fn get_text<'a>(item: Deep<'a>, key: &str) -> Option<Deep<'a>> {
    // SAFETY: as this file says.
    found_by(|value| unsafe {
        sys::cll_item_get_text(&view_of(item), key.as_ptr(), key.len(), value)
    })
}

/// Returns the value of the first key that is this integer.
pub(crate) fn get_int<'a>(item: Deep<'a>, key: i64) -> Option<Deep<'a>> {
    // SAFETY: as this file says.
    found_by(|value| unsafe { sys::cll_item_get_int(&view_of(item), key, value) })
}
