// SPDX-License-Identifier: Apache-2.0
//! Tries the events of a parser.

use ciborium_ll_proved::{Error, Event, Header, Parser};

fn header(header: Header, place: usize) -> Option<Result<Event<'static>, Error>> {
    Some(Ok(Event::Header { header, place }))
}

#[test]
fn a_character_that_is_cut_comes_first() {
    let mut parser = Parser::new();
    let mut events = parser.push(b"\x6a\xf0\x9f");
    assert_eq!(events.next(), header(Header::Text(Some(10)), 0));
    assert_eq!(events.next(), None);
    // No contract says at which character a part ends.
    let mut text = String::new();
    for event in parser.push(b"\x98\x80a\xc3\xa9\xe2\x82") {
        match event {
            Ok(Event::Text { first, rest, left }) => {
                assert_eq!(first.is_some(), text.is_empty());
                text.extend(first);
                text += rest;
                assert_eq!(text.len() + left, 10);
            }
            event => panic!("{event:?}"),
        }
    }
    assert_eq!(text, "😀aé");
    assert_eq!(parser.end(), Err(Error::Short { place: 10, due: 1 }));
}

#[test]
fn a_loop_that_ends_early_leaves_the_rest() {
    let mut parser = Parser::default();
    let data = b"\x82\x5f\x42\x01\x02\xff\x05";
    let first = parser.push(data).next();
    assert_eq!(first, header(Header::Array(Some(2)), 0));
    assert_eq!(parser.taken(), 1);
    let mut events = parser.push(&data[1..]);
    assert_eq!(events.next(), header(Header::Bytes(None), 1));
    assert_eq!(events.next(), header(Header::Bytes(Some(2)), 2));
    let (part, left) = (&data[3..5], 0);
    assert_eq!(events.next(), Some(Ok(Event::Bytes { part, left })));
    assert_eq!(events.next(), Some(Ok(Event::Close { place: 5 })));
    assert_eq!(events.next(), header(Header::Positive(5), 6));
    assert_eq!(events.next(), None);
    assert!(parser.is_between());
}

#[test]
fn a_copy_goes_on_by_itself_and_a_fault_stays() {
    let mut parser = Parser::strict();
    assert_eq!(parser.push(b"\x18").next(), None);
    let mut copy = parser.clone();
    assert_eq!(parser.push(b"\x18").next(), header(Header::Positive(24), 0));
    for _ in 0..2 {
        let mut events = copy.push(b"\x17\x00");
        assert_eq!(events.next(), Some(Err(Error::Syntax(0))));
        assert_eq!(events.next(), None);
    }
    assert_eq!(copy.end(), Err(Error::Syntax(0)));
    assert_eq!((parser.taken(), copy.taken()), (2, 2));
    assert_eq!(
        format!("{copy:?}"),
        "Parser { taken: 2, is_between: false, .. }"
    );
}
