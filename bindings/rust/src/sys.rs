// SPDX-License-Identifier: Apache-2.0
//! The calls for C, as `ciborium_ll.h` has them. A pointer to bytes may be null if their length is 0. No other pointer
//! may be null. The memory that a call writes must not overlap anything else that the caller gives it.
#![allow(non_camel_case_types)]

/// What a title means: its kind by number, its value, and whether it is of the indefinite form.
#[repr(C)]
#[derive(Clone, Copy, Debug, Default)]
pub struct cll_header {
    /// The number, the length, the count or the raw bits.
    pub value: u64,
    /// The kind, from 0 to 11.
    pub kind: u8,
    /// 1 for the indefinite form, and 0 otherwise.
    pub indefinite: u8,
}

/// A header, and the place of its title.
#[repr(C)]
#[derive(Clone, Copy, Debug, Default)]
pub struct cll_title {
    /// As of [`cll_header`].
    pub value: u64,
    /// The offset at which the title starts.
    pub start: u64,
    /// The offset at which the title ends.
    pub end: u64,
    /// As of [`cll_header`].
    pub kind: u8,
    /// As of [`cll_header`].
    pub indefinite: u8,
}

/// Memory that `cll_canonical` needs for a pair of a map. Its numbers mean nothing after the call.
#[repr(C)]
#[derive(Clone, Copy, Debug, Default)]
pub struct cll_span {
    /// The offset in the output at which the key begins.
    pub start: u64,
    /// The offset at which the key ends.
    pub key_end: u64,
    /// The offset at which the value ends.
    pub end: u64,
}

/// A view of one item: its bytes, and how many levels its tags, arrays and maps may take.
#[repr(C)]
#[derive(Clone, Copy, Debug)]
pub struct cll_item {
    /// The first byte of the item.
    pub data: *const u8,
    /// How many bytes the item has.
    pub len: usize,
    /// How many levels it may go down.
    pub depth: u32,
}

/// The items in an item that are left, one after the other.
#[repr(C)]
#[derive(Clone, Copy, Debug)]
pub struct cll_items {
    /// The first byte of them.
    pub data: *const u8,
    /// How many bytes they have.
    pub len: usize,
    /// How many levels each of them may go down.
    pub depth: u32,
}

/// The body of a string.
#[repr(C)]
#[derive(Clone, Copy, Debug)]
pub struct cll_body {
    /// The first byte of the body.
    pub data: *const u8,
    /// How many bytes the body has.
    pub len: usize,
}

/// How far a call came.
#[repr(C)]
#[derive(Clone, Copy, Debug, Default)]
pub struct cll_report {
    /// How many bytes were consumed.
    pub consumed: u64,
    /// How many bytes were written, or of `cll_headers` how many titles.
    pub written: u64,
    /// The offset that the answer names, if it names one, and 0 otherwise.
    pub place: u64,
    /// How many elements a copy or a strict check did whole. It is 0 for other calls.
    pub elements: u64,
    /// The offset after the last of these elements. It is 0 for other calls.
    pub whole: u64,
    /// How many of the bytes that a copy wrote are the spelling of these elements. It is 0 for other calls.
    pub spelled: u64,
}

/// A checker of one item whose bytes come in pieces. Its contents are the library's, and zeros are no checker.
#[repr(C)]
#[derive(Clone, Copy, Debug)]
pub struct cll_checker {
    /// Its memory.
    pub words: [u64; 296],
}

/// A parser of titles and bodies whose bytes come in pieces. Its contents are the library's, and zeros are no parser.
#[repr(C)]
#[derive(Clone, Copy, Debug)]
pub struct cll_parser {
    /// Its memory.
    pub words: [u64; 7],
}

/// What a parser found in the bytes that it took.
#[repr(C)]
#[derive(Clone, Copy, Debug, Default)]
pub struct cll_event {
    /// How many bytes were taken.
    pub consumed: u64,
    /// The offset of a title or of a fault, or how many bytes are due.
    pub place: u64,
    /// How many bytes a body still lacks.
    pub left: u64,
    /// The meaning of a title.
    pub header: cll_header,
    /// The kind of the event, from 0 to 4.
    pub kind: u8,
    /// How many bytes of a text earlier pieces had.
    pub carried_len: u8,
    /// These bytes.
    pub carried: [u8; 3],
}

/// A copier of elements whose bytes come in pieces. Its contents are the library's, and zeros are no copier.
#[repr(C)]
#[derive(Clone, Copy, Debug)]
pub struct cll_copier {
    /// Its memory.
    pub words: [u64; 9],
}

/// A copier of one item whose bytes come in pieces. Its contents are the library's, and zeros are no copier.
#[repr(C)]
#[derive(Clone, Copy, Debug)]
pub struct cll_item_copier {
    /// Its memory.
    pub words: [u64; 304],
}

#[allow(missing_docs)]
extern "C" {
    pub fn cll_version() -> u32;
    pub fn cll_pull(
        data: *const u8,
        len: usize,
        header: *mut cll_header,
        consumed: *mut usize,
    ) -> u32;
    pub fn cll_headers(
        data: *const u8,
        len: usize,
        titles: *mut cll_title,
        titles_len: usize,
        report: *mut cll_report,
    ) -> u32;
    pub fn cll_push(
        header: *const cll_header,
        out: *mut u8,
        room: usize,
        report: *mut cll_report,
    ) -> u32;
    pub fn cll_push_wide(
        header: *const cll_header,
        width: u32,
        out: *mut u8,
        room: usize,
        report: *mut cll_report,
    ) -> u32;
    pub fn cll_recode(
        data: *const u8,
        len: usize,
        count: u64,
        out: *mut u8,
        room: usize,
        report: *mut cll_report,
    ) -> u32;
    pub fn cll_strict(data: *const u8, len: usize, count: u64, report: *mut cll_report) -> u32;
    pub fn cll_skip(data: *const u8, len: usize, depth: u32, report: *mut cll_report) -> u32;
    pub fn cll_deterministic(
        data: *const u8,
        len: usize,
        depth: u32,
        order: u32,
        report: *mut cll_report,
    ) -> u32;
    pub fn cll_canonical(
        data: *const u8,
        len: usize,
        depth: u32,
        order: u32,
        out: *mut u8,
        room: usize,
        spans: *mut cll_span,
        spans_len: usize,
        report: *mut cll_report,
    ) -> u32;
    pub fn cll_item_parse(
        data: *const u8,
        len: usize,
        depth: u32,
        item: *mut cll_item,
        report: *mut cll_report,
    ) -> u32;
    pub fn cll_item_header(item: *const cll_item, header: *mut cll_header) -> u32;
    pub fn cll_item_bytes(item: *const cll_item, body: *mut cll_body) -> u32;
    pub fn cll_item_text(item: *const cll_item, body: *mut cll_body) -> u32;
    pub fn cll_item_items(item: *const cll_item, items: *mut cll_items) -> u32;
    pub fn cll_item_next(items: *mut cll_items, item: *mut cll_item) -> u32;
    pub fn cll_item_get(
        item: *const cll_item,
        key: *const u8,
        key_len: usize,
        value: *mut cll_item,
    ) -> u32;
    pub fn cll_item_get_text(
        item: *const cll_item,
        key: *const u8,
        key_len: usize,
        value: *mut cll_item,
    ) -> u32;
    pub fn cll_item_get_int(item: *const cll_item, key: i64, value: *mut cll_item) -> u32;
    pub fn cll_utf8(data: *const u8, len: usize, report: *mut cll_report) -> u32;
    pub fn cll_checker_init(checker: *mut cll_checker, depth: u32) -> u32;
    pub fn cll_checker_init_strict(checker: *mut cll_checker, depth: u32) -> u32;
    pub fn cll_checker_feed(
        checker: *mut cll_checker,
        data: *const u8,
        len: usize,
        report: *mut cll_report,
    ) -> u32;
    pub fn cll_checker_end(checker: *const cll_checker, report: *mut cll_report) -> u32;
    pub fn cll_parser_init(parser: *mut cll_parser) -> u32;
    pub fn cll_parser_init_strict(parser: *mut cll_parser) -> u32;
    pub fn cll_parser_push(
        parser: *mut cll_parser,
        data: *const u8,
        len: usize,
        event: *mut cll_event,
    ) -> u32;
    pub fn cll_parser_end(parser: *const cll_parser, report: *mut cll_report) -> u32;
    pub fn cll_copier_init(copier: *mut cll_copier, count: u64) -> u32;
    pub fn cll_copier_init_strict(copier: *mut cll_copier, count: u64) -> u32;
    pub fn cll_copier_feed(
        copier: *mut cll_copier,
        data: *const u8,
        len: usize,
        out: *mut u8,
        room: usize,
        report: *mut cll_report,
    ) -> u32;
    pub fn cll_copier_end(copier: *const cll_copier, report: *mut cll_report) -> u32;
    pub fn cll_item_copier_init(copier: *mut cll_item_copier, depth: u32) -> u32;
    pub fn cll_item_copier_init_strict(copier: *mut cll_item_copier, depth: u32) -> u32;
    pub fn cll_item_copier_feed(
        copier: *mut cll_item_copier,
        data: *const u8,
        len: usize,
        out: *mut u8,
        room: usize,
        report: *mut cll_report,
    ) -> u32;
    pub fn cll_item_copier_end(copier: *const cll_item_copier, report: *mut cll_report) -> u32;
}
