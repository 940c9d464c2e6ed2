// SPDX-License-Identifier: Apache-2.0
use super::float::{float_of, number_of};

/// What a title means. A length or a count of `None` is the indefinite form.
#[derive(Clone, Copy, Debug, PartialEq)]
pub enum Header {
    /// The number itself.
    Positive(u64),
    /// The number -1 - n, for the value n.
    Negative(u64),
    /// A float of any width.
    Float(f64),
    /// A simple value.
    Simple(u8),
    /// A tag.
    Tag(u64),
    /// The end of an indefinite form.
    Break,
    /// A byte string, with its length in bytes.
    Bytes(Option<usize>),
    /// A text string, with its length in bytes.
    Text(Option<usize>),
    /// An array, with its count of items.
    Array(Option<usize>),
    /// A map, with its count of pairs.
    Map(Option<usize>),
}

impl From<crate::Header> for Header {
    #[inline]
    fn from(header: crate::Header) -> Self {
        match header {
            crate::Header::Positive(n) => Header::Positive(n),
            crate::Header::Negative(n) => Header::Negative(n),
            crate::Header::Float(float) => Header::Float(number_of(float)),
            crate::Header::Simple(n) => Header::Simple(n),
            crate::Header::Tag(n) => Header::Tag(n),
            crate::Header::Break => Header::Break,
            crate::Header::Bytes(length) => Header::Bytes(length),
            crate::Header::Text(length) => Header::Text(length),
            crate::Header::Array(count) => Header::Array(count),
            crate::Header::Map(count) => Header::Map(count),
        }
    }
}

impl From<Header> for crate::Header {
    /// Gives a float the least width that keeps it.
    fn from(header: Header) -> Self {
        match header {
            Header::Positive(n) => crate::Header::Positive(n),
            Header::Negative(n) => crate::Header::Negative(n),
            Header::Float(number) => crate::Header::Float(float_of(number)),
            Header::Simple(n) => crate::Header::Simple(n),
            Header::Tag(n) => crate::Header::Tag(n),
            Header::Break => crate::Header::Break,
            Header::Bytes(length) => crate::Header::Bytes(length),
            Header::Text(length) => crate::Header::Text(length),
            Header::Array(count) => crate::Header::Array(count),
            Header::Map(count) => crate::Header::Map(count),
        }
    }
}

/// Returns the shortest title of a header, and its length.
pub(super) fn title_of(header: Header) -> ([u8; 9], usize) {
    let mut title = [0; 9];
    let length = crate::calls::push(header.into(), &mut title);
    (title, length.expect("a title has at most nine bytes"))
}

/// Returns the length of the shortest title of a header.
#[inline]
pub(super) fn length_of(header: Header) -> usize {
    let value = match header {
        Header::Positive(n) | Header::Negative(n) | Header::Tag(n) => n,
        Header::Simple(n) => n.into(),
        Header::Bytes(length) | Header::Text(length) => length.unwrap_or(0) as u64,
        Header::Array(count) | Header::Map(count) => count.unwrap_or(0) as u64,
        Header::Break => 0,
        Header::Float(_) => return title_of(header).1,
    };
    match value {
        0..=23 => 1,
        24..=0xff => 2,
        0x100..=0xffff => 3,
        0x1_0000..=0xffff_ffff => 5,
        _ => 9,
    }
}

#[cfg(test)]
mod tests {
    use super::{length_of, title_of, Header};

    #[test]
    fn the_length_is_that_of_the_title() {
        for n in [
            0,
            23,
            24,
            255,
            256,
            65535,
            65536,
            0xffff_ffff,
            1 << 32,
            u64::MAX,
        ] {
            let length = Some(n as usize);
            let headers = [
                Header::Positive(n),
                Header::Negative(n),
                Header::Tag(n),
                Header::Simple(n as u8),
                Header::Bytes(length),
                Header::Text(length),
                Header::Array(length),
                Header::Map(length),
                Header::Float(n as f64),
            ];
            for header in headers {
                assert_eq!(length_of(header), title_of(header).1, "{header:?}");
            }
        }
        for header in [Header::Break, Header::Text(None), Header::Map(None)] {
            assert_eq!(length_of(header), title_of(header).1, "{header:?}");
        }
    }
}
