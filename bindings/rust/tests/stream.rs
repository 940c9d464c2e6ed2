// SPDX-License-Identifier: Apache-2.0
//! Tries the names of `ciborium-ll` over readers and writers.
#![cfg(feature = "std")]

use ciborium_ll_proved::stream::{simple, tag, Decoder, Encoder, Error, Header};
use std::io::{ErrorKind, Read};

/// A reader that gives one byte at a time.
struct ByOne<'a>(&'a [u8]);

impl Read for ByOne<'_> {
    fn read(&mut self, bytes: &mut [u8]) -> std::io::Result<usize> {
        let count = bytes.len().min(1);
        self.0.read(&mut bytes[..count])
    }
}

/// Returns the title that an encoder writes for a header.
fn title_of(header: Header) -> Vec<u8> {
    let mut out = Vec::new();
    Encoder::from(&mut out).push(header).unwrap();
    out
}

/// Returns the chunks of the text whose title comes first, by a buffer of `room` bytes, and the place of the fault that
/// ends it.
fn chunks_of(bytes: &[u8], room: usize) -> (Vec<String>, Option<usize>) {
    let mut decoder = Decoder::from(ByOne(bytes));
    let length = match decoder.pull().unwrap() {
        Header::Text(length) => length,
        other => panic!("{other:?}"),
    };
    let (mut chunks, mut buffer) = (Vec::new(), vec![0; room]);
    let mut segments = decoder.text(length);
    loop {
        let mut segment = match segments.pull() {
            Ok(Some(segment)) => segment,
            Ok(None) => return (chunks, None),
            Err(Error::Syntax(place)) => return (chunks, Some(place)),
            Err(Error::Io(error)) => panic!("{error}"),
        };
        loop {
            match segment.pull(&mut buffer) {
                Ok(Some(chunk)) => chunks.push(chunk.to_string()),
                Ok(None) => break,
                Err(Error::Syntax(place)) => return (chunks, Some(place)),
                Err(Error::Io(error)) => panic!("{error}"),
            }
        }
        assert_eq!(segment.left(), 0);
    }
}

#[test]
fn headers_out_of_a_reader() {
    let mut decoder = Decoder::from(ByOne(b"\x82\x19\x03\xe8\xf4\xc2\x1c"));
    let want = [
        Header::Array(Some(2)),
        Header::Positive(1000),
        Header::Simple(simple::FALSE),
        Header::Tag(tag::BIGPOS),
    ];
    for header in want {
        assert_eq!(decoder.pull().unwrap(), header);
    }
    assert_eq!(decoder.offset(), 6);
    let error = decoder.pull().unwrap_err();
    assert!(matches!(error, Error::Syntax(6)));
    assert_eq!(error.to_string(), "syntax at 6");
}

#[test]
fn bytes_that_end_are_an_error_of_the_reader() {
    for bytes in [&b""[..], b"\x19", b"\x19\x03", b"\x1b\0\0\0\0\0\0\0"] {
        match Decoder::from(ByOne(bytes)).pull() {
            Err(Error::Io(error)) => assert_eq!(error.kind(), ErrorKind::UnexpectedEof),
            other => panic!("{other:?}"),
        }
    }
}

#[test]
fn a_header_is_given_back() {
    let mut decoder = Decoder::from(&b"\x18\x05\x06"[..]);
    let header = decoder.pull().unwrap();
    decoder.push(header);
    // Its shortest title has one byte.
    assert_eq!(decoder.offset(), 1);
    assert_eq!(decoder.pull().unwrap(), header);
    assert_eq!(decoder.offset(), 2);
    let mut rest = [0; 1];
    decoder.read_exact(&mut rest).unwrap();
    assert_eq!((rest, decoder.offset()), ([6], 3));
}

#[test]
#[should_panic(expected = "was given back")]
fn two_headers_are_not_given_back() {
    let mut decoder = Decoder::from(&b"\x05"[..]);
    decoder.push(Header::Break);
    decoder.push(Header::Break);
}

#[test]
fn texts_come_in_chunks_of_characters() {
    // é, U+204C and a surrogate pair's character, of two, three and four bytes.
    let body = "aé\u{204c}\u{233b4}z";
    let mut bytes = vec![0x60 + body.len() as u8];
    bytes.extend_from_slice(body.as_bytes());
    for room in 4..=16 {
        let (chunks, fault) = chunks_of(&bytes, room);
        assert_eq!((chunks.concat(), fault), (body.to_string(), None), "{room}");
        assert!(chunks.iter().all(|chunk| chunk.len() <= room));
    }
    let (chunks, fault) = chunks_of(b"\x7f\x61a\x7f\x60\xff\x62\xc3\xa9\xff\x05", 8);
    assert_eq!((chunks, fault), (vec!["a".into(), "é".into()], None));
}

#[test]
fn a_text_that_is_none_is_a_fault_of_its_segment() {
    // After a segment of one byte comes one that is not UTF-8, one that is cut inside a character, or one that is no
    // text.
    for bytes in [
        &b"\x7f\x61a\x62\xc3\x28"[..],
        b"\x7f\x61a\x61\xc3\x61a",
        b"\x7f\x61a\x41a",
    ] {
        let (chunks, fault) = chunks_of(bytes, 8);
        assert_eq!((chunks.concat(), fault), ("a".to_string(), Some(3)));
    }
}

#[test]
fn segments_of_bytes() {
    let bytes = b"\x5f\x43abc\x5f\x40\xff\xff\x05";
    let mut decoder = Decoder::from(&bytes[..]);
    assert_eq!(decoder.pull().unwrap(), Header::Bytes(None));
    let (mut segments, mut buffer) = (decoder.bytes(None), [0; 2]);
    let mut first = segments.pull().unwrap().unwrap();
    assert_eq!(first.left(), 3);
    assert_eq!(first.pull(&mut buffer).unwrap(), Some(&b"ab"[..]));
    assert_eq!(
        (first.left(), first.pull(&mut []).unwrap()),
        (1, Some(&b""[..]))
    );
    assert_eq!(first.pull(&mut buffer).unwrap(), Some(&b"c"[..]));
    assert_eq!(first.pull(&mut buffer).unwrap(), None);
    let mut second = segments.pull().unwrap().unwrap();
    assert_eq!(second.pull(&mut buffer).unwrap(), None);
    assert!(segments.pull().unwrap().is_none() && segments.pull().unwrap().is_none());
    assert_eq!(decoder.pull().unwrap(), Header::Positive(5));
}

#[test]
fn strings_into_a_writer() {
    let mut out = Vec::new();
    let mut encoder = Encoder::from(&mut out);
    encoder.bytes(b"abc", None).unwrap();
    encoder.bytes(b"abc", 2).unwrap();
    encoder.text("éé", 1).unwrap();
    encoder.text("ééé", Some(5)).unwrap();
    let pieces = "\u{64}éé\u{7f}\u{64}éé\u{62}é".as_bytes();
    assert_eq!(
        out,
        [b"\x43abc\x5f\x42ab\x41c\xff", pieces, b"\xff"].concat()
    );
}

#[test]
fn floats_of_rfc_7049() {
    let rows: [(f64, &[u8]); 14] = [
        (0.0, b"\xf9\0\0"),
        (-0.0, b"\xf9\x80\0"),
        (1.1, b"\xfb\x3f\xf1\x99\x99\x99\x99\x99\x9a"),
        (1.5, b"\xf9\x3e\0"),
        (65504.0, b"\xf9\x7b\xff"),
        (100_000.0, b"\xfa\x47\xc3\x50\0"),
        (3.402_823_466_385_288_6e38, b"\xfa\x7f\x7f\xff\xff"),
        (1.0e300, b"\xfb\x7e\x37\xe4\x3c\x88\0\x75\x9c"),
        (5.960_464_477_539_063e-8, b"\xf9\0\x01"),
        (0.000_061_035_156_25, b"\xf9\x04\0"),
        (-4.1, b"\xfb\xc0\x10\x66\x66\x66\x66\x66\x66"),
        (f64::INFINITY, b"\xf9\x7c\0"),
        (f64::NAN, b"\xf9\x7e\0"),
        (f64::NEG_INFINITY, b"\xf9\xfc\0"),
    ];
    for (number, title) in rows {
        assert_eq!(title_of(Header::Float(number)), title, "{number}");
        match Decoder::from(title).pull().unwrap() {
            Header::Float(got) => assert_eq!(got.to_bits(), number.to_bits(), "{number}"),
            other => panic!("{other:?}"),
        }
    }
    // Half of the least half, and one less than the least single that a half holds.
    assert_eq!(title_of(Header::Float(2f64.powi(-25)))[0], 0xfa);
    assert_eq!(title_of(Header::Float(65505.0))[0], 0xfa);
    assert_eq!(title_of(Header::Float(f64::MIN_POSITIVE))[0], 0xfb);
}

#[test]
fn each_half_comes_back() {
    for bits in 0..=u16::MAX {
        let [high, low] = bits.to_be_bytes();
        let header = Decoder::from(&[0xf9, high, low][..]).pull().unwrap();
        // A half that is not a number becomes quiet.
        let none = bits & 0x7c00 == 0x7c00 && bits & 0x3ff != 0;
        let high = if none { high | 2 } else { high };
        assert_eq!(title_of(header), [0xf9, high, low]);
    }
}
