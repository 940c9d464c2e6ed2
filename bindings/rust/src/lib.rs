// SPDX-License-Identifier: Apache-2.0
//! Reads CBOR (RFC 7049, 2.1 to 2.4) out of slices and writes it into slices, one header at a time. Every answer of the
//! library is proved.
//!
//! Items that mean the same as in the crate `ciborium-ll` have its names. Nothing here takes memory but `canonical`,
//! which returns a vector. Without the feature `std`, which is on by default, the crate needs `core` alone.
//!
//! [`headers`] and [`Decoder`] read titles ahead, up to 16 by one call of the library. A decoder reads one title by
//! itself first, and again after it turned elsewhere than to the next one.
//!
//! [`stream`] has the names of `ciborium-ll` over any reader and writer of `std`.
//!
//! A sequence of items may be empty, so [`Checker::end`] is `Ok` before the first byte. [`Checker::is_ended`] tells
//! whether the item has ended.
//!
//! ```
//! use ciborium_ll_proved::{Decoder, Error, Header};
//!
//! let mut decoder = Decoder::from(&b"\x82\x19\x03\xe8\x61a\x1c"[..]);
//! assert_eq!(decoder.pull(), Ok(Header::Array(Some(2))));
//! assert_eq!(decoder.pull(), Ok(Header::Positive(1000)));
//! assert_eq!(decoder.pull(), Ok(Header::Text(Some(1))));
//! assert!(decoder.text(Some(1)).unwrap().eq(["a"]));
//! assert_eq!(decoder.pull(), Err(Error::Syntax(6)));
//! ```
#![cfg_attr(not(feature = "std"), no_std)]
#![deny(missing_docs, unsafe_op_in_unsafe_fn)]

#[cfg(not(all(target_arch = "x86_64", target_os = "linux")))]
compile_error!("the proved library is built for x86-64 Linux alone");

mod calls;
mod checker;
mod copier;
mod decoder;
mod encoder;
mod error;
mod header;
mod headers;
mod item;
mod parser;
#[cfg(feature = "std")]
pub mod stream;
pub mod sys;

#[cfg(feature = "std")]
pub use calls::canonical;
pub use calls::{
    canonical_into, deterministic, recode, skip_item, strict, strict_len, utf8, Copied, Order,
    Span, Stopped,
};
pub use checker::{Checker, Feed, Progress};
pub use copier::{Copier, Copying, Fed, ItemCopier};
pub use decoder::{Decoder, Segments};
pub use encoder::Encoder;
pub use error::Error;
pub use header::{Float, Header};
pub use headers::{headers, Headers, Title};
pub use item::{Entries, Item, Items};
pub use parser::{Event, Events, Parser};

/// The programs of the page on this crate.
#[cfg(all(doctest, feature = "std"))]
#[doc = include_str!("../README.md")]
pub struct Readme;
