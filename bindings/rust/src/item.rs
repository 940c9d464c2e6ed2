// SPDX-License-Identifier: Apache-2.0
use crate::calls::{self, Deep};
use crate::{Error, Header};
use core::iter::FusedIterator;

/// A view of one item in a slice, with all that it contains. A copy of it takes no memory.
///
/// ```
/// use ciborium_ll_proved::{Error, Header, Item};
///
/// // {1: "me", 4: [0, -7]}
/// let claims = Item::parse(b"\xa2\x01\x62me\x04\x82\0\x26", 16)?;
/// assert_eq!(claims.get_int(1).and_then(|issuer| issuer.text()), Some("me"));
/// let list = claims.get_int(4).unwrap();
/// assert_eq!(list.header(), Header::Array(Some(2)));
/// let headers: Vec<_> = list.items().map(|item| item.header()).collect();
/// assert_eq!(headers, [Header::Positive(0), Header::Negative(6)]);
/// assert!(claims.get_text("me").is_none());
/// # Ok::<(), Error>(())
/// ```
#[derive(Clone, Copy, Debug, PartialEq, Eq, Hash)]
pub struct Item<'a> {
    bytes: &'a [u8],
    depth: u32,
}

impl<'a> Item<'a> {
    /// Views the item with which the bytes begin. Any bytes may follow it. The item may contain at most `depth` levels
    /// of tags, arrays and maps, and no more than 256.
    ///
    /// # Errors
    ///
    /// Those of [`skip_item`](crate::skip_item).
    pub fn parse(bytes: &'a [u8], depth: u32) -> Result<Item<'a>, Error> {
        Item::parse_prefix(bytes, depth).map(|(item, _)| item)
    }

    /// Views an item as [`Item::parse`] does, and returns the bytes after it too.
    ///
    /// # Errors
    ///
    /// Those of [`Item::parse`].
    pub fn parse_prefix(bytes: &'a [u8], depth: u32) -> Result<(Item<'a>, &'a [u8]), Error> {
        let len = calls::item_len(bytes, depth)?;
        let (bytes, rest) = bytes.split_at(len);
        Ok((Item { bytes, depth }, rest))
    }

    /// Returns the item of a part that a call gave.
    fn of((bytes, depth): Deep<'a>) -> Item<'a> {
        Item { bytes, depth }
    }

    fn deep(&self) -> Deep<'a> {
        (self.bytes, self.depth)
    }

    /// Returns the bytes of the item.
    #[must_use]
    pub fn bytes(&self) -> &'a [u8] {
        self.bytes
    }

    /// Returns the header of the item. It is never [`Header::Break`].
    #[must_use]
    pub fn header(&self) -> Header {
        calls::item_header(self.deep())
    }

    /// Returns the body of a byte string of a definite length.
    #[must_use]
    pub fn byte_string(&self) -> Option<&'a [u8]> {
        calls::item_bytes(self.deep())
    }

    /// Returns the body of a text of a definite length.
    #[must_use]
    pub fn text(&self) -> Option<&'a str> {
        calls::item_text(self.deep())
    }

    /// Goes over the items in the item: those of an array, each key of a map and then its value, the item under a tag,
    /// or the strings in a string of indefinite length. Any other item has none.
    pub fn items(&self) -> Items<'a> {
        Items {
            left: calls::items(self.deep()).unwrap_or((&[], 0)),
        }
    }

    /// Returns the number of a tag, and the item under it.
    #[must_use]
    pub fn tag(&self) -> Option<(u64, Item<'a>)> {
        match self.header() {
            Header::Tag(number) => self.items().next().map(|item| (number, item)),
            _ => None,
        }
    }

    /// Goes over the items of an array.
    #[must_use]
    pub fn elements(&self) -> Option<Items<'a>> {
        matches!(self.header(), Header::Array(_)).then(|| self.items())
    }

    /// Goes over the pairs of a map.
    #[must_use]
    pub fn entries(&self) -> Option<Entries<'a>> {
        matches!(self.header(), Header::Map(_)).then(|| Entries {
            items: self.items(),
        })
    }

    /// Returns the value of the first key of a map that is an item with exactly these bytes. The call reads the whole
    /// map, as the two after it do.
    #[must_use]
    pub fn get(&self, key: &[u8]) -> Option<Item<'a>> {
        calls::get(self.deep(), key).map(Item::of)
    }

    /// Returns the value of the first key of a map that is this text, in any spelling.
    #[must_use]
    pub fn get_text(&self, key: &str) -> Option<Item<'a>> {
        calls::get_text(self.deep(), key).map(Item::of)
    }

    /// Returns the value of the first key of a map that is this integer, in any spelling.
    #[must_use]
    pub fn get_int(&self, key: i64) -> Option<Item<'a>> {
        calls::get_int(self.deep(), key).map(Item::of)
    }
}

/// The items in an item that are left, as [`Item::items`] gives them.
#[derive(Clone, Debug)]
#[must_use = "the items come one by one"]
pub struct Items<'a> {
    left: Deep<'a>,
}

impl<'a> Iterator for Items<'a> {
    type Item = Item<'a>;

    fn next(&mut self) -> Option<Item<'a>> {
        let (item, left) = calls::next_item(self.left)?;
        self.left = left;
        Some(Item::of(item))
    }
}

impl FusedIterator for Items<'_> {}

/// The pairs of a map that are left, as [`Item::entries`] gives them: each key, and its value.
#[derive(Clone, Debug)]
#[must_use = "the pairs come one by one"]
pub struct Entries<'a> {
    items: Items<'a>,
}

impl<'a> Iterator for Entries<'a> {
    type Item = (Item<'a>, Item<'a>);

    fn next(&mut self) -> Option<(Item<'a>, Item<'a>)> {
        Some((self.items.next()?, self.items.next()?))
    }
}

impl FusedIterator for Entries<'_> {}
