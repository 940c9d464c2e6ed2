// SPDX-License-Identifier: Apache-2.0
use crate::sys::cll_header;

/// A float, in its raw bits and its own width.
#[derive(Clone, Copy, Debug, PartialEq, Eq, Hash)]
pub enum Float {
    /// A float of 16 bits.
    Half(u16),
    /// A float of 32 bits.
    Single(u32),
    /// A float of 64 bits.
    Double(u64),
}

/// What a title means. A length or a count of `None` is the indefinite form.
#[derive(Clone, Copy, Debug, PartialEq, Eq, Hash)]
pub enum Header {
    /// The number itself.
    Positive(u64),
    /// The number -1 - n, for the value n.
    Negative(u64),
    /// A float.
    Float(Float),
    /// A simple value.
    Simple(u8),
    /// A tag.
    Tag(u64),
    /// The end of an indefinite form.
    Break,
    /// A byte string, with its length in bytes.
    Bytes(Option<usize>),
    /// A text string, with its length in bytes.
    Text(Option<usize>),
    /// An array, with its count of items.
    Array(Option<usize>),
    /// A map, with its count of pairs.
    Map(Option<usize>),
}

impl Header {
    /// Returns the header of parts that a call gave.
    #[inline]
    pub(crate) fn of(parts: &cll_header) -> Header {
        let value = parts.value;
        let length = (parts.indefinite == 0).then_some(value as usize);
        match parts.kind {
            0 => Header::Positive(value),
            1 => Header::Negative(value),
            2 => Header::Bytes(length),
            3 => Header::Text(length),
            4 => Header::Array(length),
            5 => Header::Map(length),
            6 => Header::Tag(value),
            7 => Header::Simple(value as u8),
            8 => Header::Float(Float::Half(value as u16)),
            9 => Header::Float(Float::Single(value as u32)),
            10 => Header::Float(Float::Double(value)),
            _ => Header::Break,
        }
    }

    /// Returns the header in the parts that the calls for C use.
    pub(crate) fn parts(self) -> cll_header {
        let with = |kind, value| cll_header {
            value,
            kind,
            indefinite: 0,
        };
        let long = |kind, length: Option<usize>| cll_header {
            value: length.unwrap_or(0) as u64,
            kind,
            indefinite: u8::from(length.is_none()),
        };
        match self {
            Header::Positive(n) => with(0, n),
            Header::Negative(n) => with(1, n),
            Header::Bytes(length) => long(2, length),
            Header::Text(length) => long(3, length),
            Header::Array(length) => long(4, length),
            Header::Map(length) => long(5, length),
            Header::Tag(n) => with(6, n),
            Header::Simple(n) => with(7, n.into()),
            Header::Float(Float::Half(bits)) => with(8, bits.into()),
            Header::Float(Float::Single(bits)) => with(9, bits.into()),
            Header::Float(Float::Double(bits)) => with(10, bits),
            Header::Break => with(11, 0),
        }
    }
}
