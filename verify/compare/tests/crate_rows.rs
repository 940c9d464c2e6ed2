//! Tries the statements of `docs/DIFFERENCES.md` on the Rust crate that no line of the program shows.

use ciborium_io::Read as _;
use ciborium_ll::{Decoder, Encoder, Error, Header};
use std::io::{self, Read};

/// Returns the bytes that the crate writes for the first header that it reads.
fn rewritten(bytes: &[u8]) -> Vec<u8> {
    let mut output = Vec::new();
    let header = Decoder::from(bytes).pull().unwrap();
    Encoder::from(&mut output).push(header).unwrap();
    output
}

#[test]
fn floats_are_written_in_the_narrowest_width() {
    assert_eq!(rewritten(&[0xfa, 0x3f, 0x80, 0, 0]), [0xf9, 0x3c, 0]);
    assert_eq!(
        rewritten(&[0xfb, 0x3f, 0xf8, 0, 0, 0, 0, 0, 0]),
        [0xf9, 0x3e, 0]
    );
    assert_eq!(rewritten(&[0xf9, 0x7c, 0x01]), [0xf9, 0x7e, 0x01]);
}

#[test]
fn zeros_are_equal_and_no_number_equals_nothing() {
    assert_eq!(Header::Float(0.0), Header::Float(-0.0));
    assert_ne!(Header::Float(f64::NAN), Header::Float(f64::NAN));
}

#[test]
#[should_panic(expected = "assertion failed")]
fn a_push_where_a_header_waits_panics() {
    let mut decoder = Decoder::from(&[1, 2][..]);
    let header = decoder.pull().unwrap();
    decoder.push(header);
    decoder.push(header);
}

#[test]
#[should_panic(expected = "assertion failed")]
fn bytes_are_not_read_where_a_header_waits() {
    let mut decoder = Decoder::from(&[1, 2][..]);
    let header = decoder.pull().unwrap();
    decoder.push(header);
    let _ = decoder.read_exact(&mut [0]);
}

#[test]
#[cfg(not(debug_assertions))]
fn the_offset_wraps_as_push_lowers_it() {
    let mut decoder = Decoder::from(&[1, 2][..]);
    decoder.push(Header::Break);
    assert_eq!(decoder.offset(), usize::MAX);
}

#[test]
fn a_string_reads_on_behind_its_break() {
    let mut decoder = Decoder::from(&[0x5f, 0xff, 0x41, 7][..]);
    decoder.pull().unwrap();
    let mut segments = decoder.bytes(None);
    assert!(segments.pull().unwrap().is_none());
    let segment = segments.pull().unwrap();
    assert_eq!(segment.map(|segment| segment.left()), Some(1));
}

#[test]
fn a_string_reads_on_behind_a_syntax_error() {
    let mut decoder = Decoder::from(&[0x5f, 0x01, 0x41, 7, 0xff][..]);
    decoder.pull().unwrap();
    let mut segments = decoder.bytes(None);
    assert!(matches!(segments.pull(), Err(Error::Syntax(1))));
    assert!(matches!(segments.pull(), Ok(Some(_))));
}

#[test]
fn a_segment_reads_on_behind_a_syntax_error() {
    let mut decoder = Decoder::from(&b"\x69\xff1234abcd"[..]);
    decoder.pull().unwrap();
    let mut segments = decoder.text(Some(9));
    let mut segment = segments.pull().unwrap().unwrap();
    let mut buffer = [0; 5];
    assert!(matches!(segment.pull(&mut buffer), Err(Error::Syntax(0))));
    assert_eq!(segment.pull(&mut buffer).unwrap(), Some("abcd"));
}

/// Is interrupted before each byte.
struct Interrupted {
    is_next: bool,
}

impl Read for Interrupted {
    fn read(&mut self, buffer: &mut [u8]) -> io::Result<usize> {
        self.is_next = !self.is_next;
        if self.is_next {
            return Err(io::Error::from(io::ErrorKind::Interrupted));
        }
        buffer[0] = 0x18;
        Ok(1)
    }
}

#[test]
fn an_interrupted_read_is_tried_again() {
    let mut decoder = Decoder::from(Interrupted { is_next: false });
    assert!(matches!(decoder.pull(), Ok(Header::Positive(0x18))));
}
