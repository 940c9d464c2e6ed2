// SPDX-License-Identifier: Apache-2.0
//! Tries how the types show themselves, whether an item has ended, and the iterator over titles.

use ciborium_ll_proved::{
    canonical_into, deterministic, headers, recode, skip_item, Checker, Copier, Decoder, Error,
    Header, ItemCopier, Order, Progress, Span,
};
use std::collections::HashSet;

#[test]
fn errors_tell_what_they_are() {
    let error = skip_item(b"\x81\x1c", 1).unwrap_err();
    assert_eq!(error.to_string(), "syntax at 1");
    assert_eq!(Error::Room.to_string(), "room");
    let stopped = recode(b"\x18\x05\x41", 2, &mut [0; 8]).unwrap_err();
    assert_eq!(
        stopped.to_string(),
        "short at 3, with 3 bytes read and 2 written"
    );
    assert_eq!(Error::from(stopped), Error::Short { place: 3, due: 1 });
    assert!(HashSet::from([error]).contains(&Error::Syntax(1)));
}

#[test]
fn the_deterministic_encoding_is_checked() {
    let check = |bytes| deterministic(bytes, 1, Order::default());
    assert_eq!(check(b"\xa2\x18\x64\0\xf4\0\x1c"), Ok(6));
    assert_eq!(check(b"\x81\x18\x05"), Err(Error::NotShortest(1)));
    assert_eq!(check(b"\x9f\xff"), Err(Error::Indefinite(0)));
    assert_eq!(check(b"\xa2\x02\0\x01\0"), Err(Error::KeyOrder(3)));
    let error = check(b"\xa2\x01\0\x01\0").unwrap_err();
    assert_eq!(error.to_string(), "duplicate_key at 3");
    assert_eq!(check(b"\x82\x01"), Err(Error::Short { place: 2, due: 0 }));
    let deep = deterministic(b"\x05", 257, Order::LengthFirst);
    assert_eq!(deep, Err(Error::Argument));
}

#[test]
fn the_deterministic_encoding_is_written() {
    let keys = b"\xbf\xf4\0\x18\x64\0\xff";
    let write = |order, out: &mut [u8], spans: &mut [Span]| {
        canonical_into(keys, 1, order, out, spans).map(|copied| (copied.consumed, copied.written))
    };
    let (mut out, mut spans) = ([0; 6], [Span::default(); 3]);
    assert_eq!(write(Order::Bytewise, &mut out, &mut spans), Ok((7, 6)));
    assert_eq!(&out, b"\xa2\x18\x64\0\xf4\0");
    assert_eq!(write(Order::LengthFirst, &mut out, &mut spans), Ok((7, 6)));
    assert_eq!(&out, b"\xa2\xf4\0\x18\x64\0");
    let order = Order::Bytewise;
    assert_eq!(write(order, &mut out[..5], &mut spans), Err(Error::Room));
    assert_eq!(write(order, &mut out, &mut spans[..2]), Err(Error::Room));
    assert_eq!(write(order, &mut [], &mut []), Err(Error::Room));
}

#[cfg(feature = "std")]
#[test]
fn the_deterministic_encoding_is_returned() {
    use ciborium_ll_proved::canonical;
    let of = |bytes: &[u8]| canonical(bytes, 1, Order::Bytewise);
    assert_eq!(of(b"\x18\x05\x1c"), Ok(vec![5]));
    assert_eq!(of(b"\xa2\x01\0\x18\x01\0"), Err(Error::DuplicateKey(3)));
    assert_eq!(of(b"\x82\x01\xf8\x18"), Err(Error::Syntax(2)));
    assert_eq!(of(b"\xbf\x01\xff"), Err(Error::BreakDue(2)));
    assert_eq!(of(b"\x81\x80"), Err(Error::TooDeep(1)));
    assert_eq!(of(b"\x5f\x41\x01"), Err(Error::Short { place: 3, due: 0 }));
    assert_eq!(
        canonical(b"\x05", 257, Order::Bytewise),
        Err(Error::Argument)
    );
    // Maps that need many spans, and an encoding that is longer than the item.
    for pairs in [3u16, 40, 300, 3000] {
        let pair = |number: u16| [0x1a, 1, 0, (number >> 8) as u8, number as u8, 0];
        let mut given = vec![0xbf];
        given.extend((0..pairs).rev().flat_map(pair));
        given.push(0xff);
        let made = of(&given).unwrap();
        let sorted: Vec<u8> = (0..pairs).flat_map(pair).collect();
        assert_eq!(made[made.len() - sorted.len()..], sorted);
        assert_eq!(deterministic(&made, 1, Order::Bytewise), Ok(made.len()));
    }
    let zeros = [&[0x9f][..], &[0; 256], &[0xff]].concat();
    let longer = canonical(
        &[&[0x98, 40][..], &zeros.repeat(40)].concat(),
        2,
        Order::Bytewise,
    );
    assert_eq!(longer.unwrap().len(), 2 + 40 * 259);
}

#[cfg(feature = "std")]
#[test]
fn errors_are_those_of_std() {
    fn copies(out: &mut [u8]) -> Result<usize, Box<dyn std::error::Error + Send + Sync>> {
        Ok(recode(b"\x05\x1c", 2, out)?.written)
    }
    let error = copies(&mut [0; 2]).unwrap_err();
    let stopped = error.downcast_ref::<ciborium_ll_proved::Stopped>().unwrap();
    assert_eq!(stopped.copied.elements, 1);
    let source = error.source().unwrap();
    assert_eq!(source.downcast_ref::<Error>(), Some(&Error::Syntax(1)));
}

#[test]
fn an_item_of_no_bytes_has_not_ended() {
    let mut checker = Checker::new(1).unwrap();
    assert_eq!((checker.end(), checker.is_ended()), (Ok(()), false));
    assert_eq!(checker.feed(b"\x81").unwrap().progress, Progress::More(1));
    assert!(!checker.is_ended());
    let mut damaged = checker.clone();
    assert_eq!(checker.feed(b"\x05").unwrap().progress, Progress::Ended(2));
    assert!(checker.is_ended());
    assert_eq!(damaged.feed(b"\x1c"), Err(Error::Syntax(1)));
    assert!(!damaged.is_ended());
    let (mut copier, mut out) = (ItemCopier::new(0).unwrap(), [0; 1]);
    assert_eq!((copier.end(), copier.is_ended()), (Ok(()), false));
    assert_eq!(copier.feed(b"\x18\x05", &mut []).unwrap().taken, 2);
    assert!(!copier.is_ended());
    assert_eq!(copier.feed(b"", &mut out).unwrap().written, 1);
    assert!(copier.is_ended());
    assert!(Copier::new(0).is_ended() && !Copier::new(1).is_ended());
}

#[test]
fn readers_are_shown_by_how_far_they_are() {
    let mut decoder = Decoder::from(&b"\x05\x06"[..]);
    assert_eq!(decoder.pull(), Ok(Header::Positive(5)));
    assert_eq!(
        format!("{decoder:?}"),
        "Decoder { bytes: [5, 6], offset: 1, last: Some((Positive(5), 0)) }"
    );
    let mut titles = headers(b"\x05\x06");
    assert!(titles.next().is_some());
    assert_eq!(
        format!("{titles:?}"),
        "Headers { bytes: [5, 6], offset: 1 }"
    );
}

#[test]
fn states_are_shown_by_how_far_they_are() {
    let mut checker = Checker::new(1).unwrap();
    assert_eq!(checker.feed(b"\x05").unwrap().taken, 1);
    assert_eq!(
        format!("{checker:?}"),
        "Checker { taken: 1, is_ended: true, .. }"
    );
    assert_eq!(
        format!("{:?} {:?}", Copier::new(1), ItemCopier::strict(0).unwrap()),
        "Copier { taken: 0, is_ended: false, .. } ItemCopier { taken: 0, is_ended: false, .. }"
    );
}

#[test]
fn titles_and_bodies() {
    let bytes = b"\x9f\x0a\x63\xe2\x81\x8c\x5f\x41\x01\xff\xff";
    let got: Vec<_> = headers(bytes)
        .map(|title| title.unwrap())
        .map(|title| (title.start, title.end, title.header, title.body))
        .collect();
    assert_eq!(
        got,
        [
            (0, 1, Header::Array(None), None),
            (1, 2, Header::Positive(10), None),
            (2, 3, Header::Text(Some(3)), Some("\u{204c}".as_bytes())),
            (6, 7, Header::Bytes(None), None),
            (7, 8, Header::Bytes(Some(1)), Some(&b"\x01"[..])),
            (9, 10, Header::Break, None),
            (10, 11, Header::Break, None),
        ]
    );
    let texts: Vec<_> = headers(bytes)
        .filter_map(|title| title.ok()?.text())
        .collect();
    assert_eq!(texts, ["\u{204c}"]);
}

#[test]
fn an_error_is_the_last_title() {
    let faults = |bytes| headers(bytes).skip_while(|title| title.is_ok()).collect();
    let of = |error| vec![Err(error)];
    let all: Vec<Vec<_>> = vec![
        faults(&b"\x82\x60\x61\xff\x05"[..]),
        faults(b"\x05\x42\x01"),
        faults(b"\x05\x19\x01"),
        faults(b"\x05\x1c\x05"),
        faults(b""),
    ];
    assert_eq!(
        all,
        [
            of(Error::Syntax(2)),
            of(Error::Short { place: 2, due: 1 }),
            of(Error::Short { place: 2, due: 0 }),
            of(Error::Syntax(1)),
            vec![],
        ]
    );
}
