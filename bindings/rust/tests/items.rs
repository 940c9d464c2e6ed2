// SPDX-License-Identifier: Apache-2.0
//! Views of items: what the table of rows can't say.

use ciborium_ll_proved::{Error, Header, Item};

/// {_ 1: "me", -1: [2, 3], "k": h'0102', "k": 0}
const MAP: &[u8] = b"\xbf\x01\x62me\x20\x82\x02\x03\x61k\x42\x01\x02\x61k\x00\xff";

#[test]
fn a_map_has_pairs_and_keys() {
    let map = Item::parse(MAP, 4).unwrap();
    assert_eq!((map.bytes(), map.header()), (MAP, Header::Map(None)));
    let pairs: Vec<_> = map
        .entries()
        .unwrap()
        .map(|(key, value)| (key.header(), value.bytes()))
        .collect();
    assert_eq!(
        pairs,
        [
            (Header::Positive(1), &b"\x62me"[..]),
            (Header::Negative(0), b"\x82\x02\x03"),
            (Header::Text(Some(1)), b"\x42\x01\x02"),
            (Header::Text(Some(1)), b"\x00"),
        ]
    );
    assert_eq!(map.get_int(1).and_then(|it| it.text()), Some("me"));
    let first = map.get_text("k").and_then(|it| it.byte_string());
    assert_eq!(first, Some(&b"\x01\x02"[..]));
    assert_eq!(map.get(b"\x20"), map.get_int(-1));
    assert_eq!(
        (map.get(b""), map.get_text(""), map.get_int(0)),
        (None, None, None)
    );
}

#[test]
fn a_part_lies_in_the_bytes() {
    let map = Item::parse(MAP, 4).unwrap();
    let text = map.get_int(1).and_then(|it| it.text()).unwrap();
    assert_eq!(text.as_ptr(), MAP[3..].as_ptr());
}

#[test]
fn an_array_has_elements() {
    let (list, rest) = Item::parse_prefix(b"\x82\x01\x80\x05", 2).unwrap();
    let elements: Vec<_> = list.elements().unwrap().map(|it| it.header()).collect();
    assert_eq!(elements, [Header::Positive(1), Header::Array(Some(0))]);
    assert_eq!(rest, b"\x05");
    assert!(list.entries().is_none() && list.tag().is_none() && list.get_int(1).is_none());
    let mut items = list.items();
    assert_eq!(items.by_ref().count(), 2);
    assert!(items.next().is_none());
}

#[test]
fn a_tag_has_an_item() {
    let tag = Item::parse(b"\xd8\x20\x61a", 1).unwrap();
    let (number, item) = tag.tag().unwrap();
    assert_eq!((number, item.text()), (32, Some("a")));
    assert!(tag.elements().is_none() && tag.byte_string().is_none());
}

#[test]
fn a_string_of_indefinite_length_has_strings() {
    let text = Item::parse(b"\x7f\x61a\x60\x61b\xff", 0).unwrap();
    assert_eq!((text.text(), text.byte_string()), (None, None));
    let parts: Option<String> = text.items().map(|it| it.text()).collect();
    assert_eq!(parts.as_deref(), Some("ab"));
    let whole = Item::parse(b"\x61a", 0).unwrap();
    assert_eq!(whole.items().count(), 0);
}

#[test]
fn faults_are_those_of_a_skip() {
    assert_eq!(Item::parse(b"\x81\x1c", 1), Err(Error::Syntax(1)));
    assert_eq!(Item::parse(b"\x81\x80", 1), Err(Error::TooDeep(1)));
    assert_eq!(Item::parse(b"\x81\xff", 1), Err(Error::BreakDue(1)));
    assert_eq!(Item::parse(b"\x00", 257), Err(Error::Argument));
    let cut = Err(Error::Short { place: 1, due: 1 });
    assert_eq!(Item::parse(b"\x81", 1), cut);
}
