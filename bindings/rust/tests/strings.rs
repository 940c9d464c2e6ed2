// SPDX-License-Identifier: Apache-2.0
//! Tries strings out of a decoder and into an encoder, and headers that are given back.

use ciborium_ll_proved::{utf8, Decoder, Encoder, Error, Header};

/// Returns the bytes that an encoder writes.
fn written(write: impl Fn(&mut Encoder<'_>) -> Result<(), Error>) -> Vec<u8> {
    let mut out = [0; 64];
    let mut encoder = Encoder::from(&mut out[..]);
    write(&mut encoder).unwrap();
    encoder.written().to_vec()
}

#[test]
fn segments_of_bytes() {
    let mut decoder = Decoder::from(&b"\x5f\x42\x01\x02\x5f\x40\xff\x41\x03\xff\x00"[..]);
    assert_eq!(decoder.pull(), Ok(Header::Bytes(None)));
    let segments: Vec<&[u8]> = decoder.bytes(None).unwrap().collect();
    assert_eq!(segments, [&[1, 2][..], &[], &[3]]);
    assert_eq!(decoder.offset(), 10);
    assert_eq!(decoder.pull(), Ok(Header::Positive(0)));
}

#[test]
fn segments_of_text() {
    // The title is longer than need be.
    let mut decoder = Decoder::from("\u{78}\u{2}é\u{60}".as_bytes());
    assert_eq!(decoder.pull(), Ok(Header::Text(Some(2))));
    assert!(decoder.text(Some(2)).unwrap().eq(["é"]));
    assert_eq!(decoder.pull(), Ok(Header::Text(Some(0))));
    assert!(decoder.text(Some(0)).unwrap().eq([""]));
    assert_eq!(decoder.pull(), Err(Error::Short { place: 5, due: 0 }));
}

#[test]
fn a_string_that_is_none_leaves_the_decoder() {
    let mut decoder = Decoder::from(&b"\x00\x7f\x61\xff\xff"[..]);
    assert_eq!(decoder.pull(), Ok(Header::Positive(0)));
    assert_eq!(decoder.bytes(Some(0)).unwrap_err(), Error::Argument);
    assert_eq!(decoder.pull(), Ok(Header::Text(None)));
    assert_eq!(decoder.bytes(None).unwrap_err(), Error::Argument);
    assert_eq!(decoder.text(None).unwrap_err(), Error::Syntax(2));
    assert_eq!(decoder.offset(), 2);
    assert_eq!(decoder.pull(), Ok(Header::Text(Some(1))));
}

#[test]
fn a_header_is_given_back_once() {
    let mut decoder = Decoder::from(&b"\x18\x05\x82\x01\x02"[..]);
    let header = decoder.pull().unwrap();
    decoder.push(header);
    assert_eq!((decoder.offset(), decoder.pull()), (0, Ok(header)));
    assert_eq!(decoder.skip_item(0), Err(Error::TooDeep(2)));
    assert_eq!(decoder.skip_item(1), Ok(&b"\x82\x01\x02"[..]));
    assert!(decoder.rest().is_empty());
}

#[test]
#[should_panic(expected = "not pulled last")]
fn another_header_is_not_taken_back() {
    let mut decoder = Decoder::from(&b"\x05"[..]);
    decoder.pull().unwrap();
    decoder.push(Header::Positive(6));
}

#[test]
fn strings_are_written_in_pieces() {
    assert_eq!(written(|out| out.bytes(b"abc", None)), b"\x43abc");
    assert_eq!(written(|out| out.bytes(b"abc", Some(3))), b"\x43abc");
    assert_eq!(
        written(|out| out.bytes(b"abc", Some(2))),
        b"\x5f\x42ab\x41c\xff"
    );
    assert_eq!(
        written(|out| out.bytes(b"ab", Some(0))),
        b"\x5f\x41a\x41b\xff"
    );
    let pieces = [b"\x7f", "\x64éé".as_bytes(), "\x64éé".as_bytes(), b"\xff"].concat();
    assert_eq!(written(|out| out.text("éééé", Some(5))), pieces);
    assert_eq!(written(|out| out.text("aé", Some(1))), "\x63aé".as_bytes());
}

#[test]
fn a_full_output_keeps_what_was_written() {
    let mut out = [0; 3];
    let mut encoder = Encoder::from(&mut out[..]);
    encoder.push(Header::Array(Some(2))).unwrap();
    assert_eq!(encoder.push(Header::Positive(1000)), Err(Error::Room));
    assert_eq!(encoder.write_all(b"abc"), Err(Error::Room));
    assert_eq!(encoder.written(), b"\x82");
}

#[test]
fn text_is_what_std_takes_for_it() {
    for number in 0..=u16::MAX {
        // The two bytes follow a whole character, or a character that is begun follows them.
        let [first, second] = number.to_be_bytes();
        for bytes in [
            &[0xc3, 0xa9, first, second][..],
            &[first, second, 0x80, 0xf1],
        ] {
            let want = std::str::from_utf8(bytes).map_err(|error| match error.error_len() {
                None => Error::Short {
                    place: error.valid_up_to(),
                    due: 0,
                },
                Some(_) => Error::Syntax(error.valid_up_to()),
            });
            assert_eq!(utf8(bytes), want, "{bytes:x?}");
        }
    }
}
