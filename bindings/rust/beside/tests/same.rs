//! Puts the same bytes through the proved crate and through `ciborium-ll`. Headers, titles and strings have to be the
//! same, out of slices and out of readers.

use ciborium_ll as original;
use ciborium_ll_proved::{stream, Decoder, Encoder, Error, Float, Header};

/// Returns the bytes that the table of rows gives to its calls, and all lists of one byte and of two.
fn inputs() -> Vec<Vec<u8>> {
    let table = include_str!("../../../tests/rows").lines();
    let mut inputs: Vec<Vec<u8>> = table
        .filter_map(|row| bytes_of(row.split(' ').nth(2)?))
        .collect();
    assert!(inputs.len() > 50);
    for first in 0..=255 {
        inputs.push(vec![first]);
        inputs.extend((0..=255).map(|second| vec![first, second]));
    }
    inputs
}

fn bytes_of(hex: &str) -> Option<Vec<u8>> {
    (0..hex.len())
        .step_by(2)
        .map(|at| u8::from_str_radix(hex.get(at..at + 2)?, 16).ok())
        .collect()
}

/// Returns a float as the original has it: a double.
fn double_of(float: Float) -> f64 {
    match float {
        Float::Half(bits) => {
            let (exponent, fraction) = (i32::from(bits >> 10 & 31), f64::from(bits & 1023));
            let size = match exponent {
                0 => fraction * 2f64.powi(-24),
                31 if fraction == 0.0 => f64::INFINITY,
                31 => f64::NAN,
                _ => (1024.0 + fraction) * 2f64.powi(exponent - 25),
            };
            if bits >> 15 == 1 {
                -size
            } else {
                size
            }
        }
        Float::Single(bits) => f32::from_bits(bits).into(),
        Float::Double(bits) => f64::from_bits(bits),
    }
}

/// Returns a header as the original has it.
fn original_of(header: Header) -> original::Header {
    match header {
        Header::Positive(n) => original::Header::Positive(n),
        Header::Negative(n) => original::Header::Negative(n),
        Header::Float(float) => original::Header::Float(double_of(float)),
        Header::Simple(n) => original::Header::Simple(n),
        Header::Tag(n) => original::Header::Tag(n),
        Header::Break => original::Header::Break,
        Header::Bytes(length) => original::Header::Bytes(length),
        Header::Text(length) => original::Header::Text(length),
        Header::Array(length) => original::Header::Array(length),
        Header::Map(length) => original::Header::Map(length),
    }
}

/// Tells whether two headers of the original are the same. Two floats are the same if their bits are, or if neither is
/// a number.
fn same(a: original::Header, b: original::Header) -> bool {
    match (a, b) {
        (original::Header::Float(a), original::Header::Float(b)) => {
            a.to_bits() == b.to_bits() || a.is_nan() && b.is_nan()
        }
        _ => a == b,
    }
}

/// Returns the error here for an error of the original: a syntax error with its place, or a read that ends at the
/// offset.
fn fault<T>(error: original::Error<T>, offset: usize) -> Error {
    match error {
        original::Error::Syntax(place) => Error::Syntax(place),
        original::Error::Io(_) => Error::Short {
            place: offset,
            due: 0,
        },
    }
}

#[test]
fn headers_are_the_same() {
    for bytes in inputs() {
        let (mut ours, mut theirs) = (
            Decoder::from(&bytes[..]),
            original::Decoder::from(&bytes[..]),
        );
        loop {
            match (ours.pull(), theirs.pull()) {
                (Ok(a), Ok(b)) => {
                    assert!(
                        same(original_of(a), b) && ours.offset() == theirs.offset(),
                        "{a:?} {b:?} of {bytes:x?}"
                    );
                    titles_are_the_same(a, b);
                }
                (Err(a), Err(b)) => {
                    assert_eq!(a, fault(b, theirs.offset()), "{bytes:x?}");
                    break;
                }
                (a, b) => panic!("{a:?} {b:?} of {bytes:x?}"),
            }
        }
    }
}

/// Checks that both write the same title for a header. The original writes a float in the least width, which need not
/// be its own.
fn titles_are_the_same(ours: Header, theirs: original::Header) {
    if let Header::Float(_) = ours {
        return;
    }
    let (mut out, mut title) = ([0; 9], Vec::new());
    let mut encoder = Encoder::from(&mut out[..]);
    encoder.push(ours).unwrap();
    original::Encoder::from(&mut title).push(theirs).unwrap();
    assert_eq!(encoder.written(), title);
}

/// Returns the segments of the string that comes first, by the original. Otherwise it tells whether a syntax error ends
/// them.
macro_rules! segments_by_original {
    ($bytes:expr, $string:ident, $length:expr) => {{
        let mut decoder = original::Decoder::from($bytes);
        decoder.pull().unwrap();
        let mut segments = decoder.$string($length);
        let mut bodies: Vec<Vec<u8>> = Vec::new();
        loop {
            match segments.pull() {
                Err(error) => break Err(matches!(error, original::Error::Syntax(_))),
                Ok(None) => break Ok(bodies),
                Ok(Some(mut segment)) => {
                    let (mut body, mut buffer) = (Vec::new(), [0; 64]);
                    let read = loop {
                        match segment.pull(&mut buffer) {
                            Err(error) => break Err(matches!(error, original::Error::Syntax(_))),
                            Ok(None) => break Ok(()),
                            Ok(Some(chunk)) => body.extend::<&[u8]>(chunk.as_ref()),
                        }
                    };
                    if let Err(syntax) = read {
                        break Err(syntax);
                    }
                    bodies.push(body);
                }
            }
        }
    }};
}

#[test]
fn strings_are_the_same() {
    let is_syntax = |error| matches!(error, Error::Syntax(_));
    for bytes in inputs() {
        let mut decoder = Decoder::from(&bytes[..]);
        match decoder.pull() {
            Ok(Header::Bytes(length)) => {
                let ours = decoder
                    .bytes(length)
                    .map(|string| string.map(<[u8]>::to_vec).collect());
                let theirs = segments_by_original!(&bytes[..], bytes, length);
                assert_eq!(ours.map_err(is_syntax), theirs, "{bytes:x?}");
            }
            Ok(Header::Text(length)) => {
                let ours = decoder
                    .text(length)
                    .map(|string| string.map(|text| text.as_bytes().to_vec()).collect());
                let theirs = segments_by_original!(&bytes[..], text, length);
                assert_eq!(ours.map_err(is_syntax), theirs, "{bytes:x?}");
            }
            _ => {}
        }
    }
}

/// Returns the header of a stream as the original has it.
fn original_of_stream(header: stream::Header) -> original::Header {
    match header {
        stream::Header::Positive(n) => original::Header::Positive(n),
        stream::Header::Negative(n) => original::Header::Negative(n),
        stream::Header::Float(float) => original::Header::Float(float),
        stream::Header::Simple(n) => original::Header::Simple(n),
        stream::Header::Tag(n) => original::Header::Tag(n),
        stream::Header::Break => original::Header::Break,
        stream::Header::Bytes(length) => original::Header::Bytes(length),
        stream::Header::Text(length) => original::Header::Text(length),
        stream::Header::Array(length) => original::Header::Array(length),
        stream::Header::Map(length) => original::Header::Map(length),
    }
}

/// Checks that both write the same title for a header, floats too.
fn titles_of_streams_are_the_same(ours: stream::Header, theirs: original::Header) {
    let (mut a, mut b) = (Vec::new(), Vec::new());
    stream::Encoder::from(&mut a).push(ours).unwrap();
    original::Encoder::from(&mut b).push(theirs).unwrap();
    assert_eq!(a, b, "{ours:?}");
}

#[test]
fn headers_of_streams_are_the_same() {
    for bytes in inputs() {
        let mut ours = stream::Decoder::from(&bytes[..]);
        let mut theirs = original::Decoder::from(&bytes[..]);
        loop {
            match (ours.pull(), theirs.pull()) {
                (Ok(a), Ok(b)) => {
                    assert!(same(original_of_stream(a), b), "{a:?} {b:?} of {bytes:x?}");
                    assert_eq!(ours.offset(), theirs.offset());
                    titles_of_streams_are_the_same(a, b);
                    ours.push(a);
                    theirs.push(b);
                    assert_eq!(ours.offset(), theirs.offset());
                    let again = original_of_stream(ours.pull().unwrap());
                    assert!(same(again, theirs.pull().unwrap()), "{bytes:x?}");
                }
                (Err(stream::Error::Syntax(a)), Err(original::Error::Syntax(b))) => {
                    assert_eq!(a, b, "{bytes:x?}");
                    break;
                }
                (Err(stream::Error::Io(a)), Err(original::Error::Io(b))) => {
                    assert_eq!(
                        (a.kind(), ours.offset()),
                        (b.kind(), theirs.offset()),
                        "{bytes:x?}"
                    );
                    break;
                }
                (a, b) => panic!("{a:?} {b:?} of {bytes:x?}"),
            }
        }
    }
}

/// Returns the segments of the string that comes first, by a decoder over a reader. Otherwise it tells whether a syntax
/// error ends them.
macro_rules! segments_by_stream {
    ($bytes:expr, $string:ident, $length:expr, $room:expr) => {{
        let mut decoder = stream::Decoder::from($bytes);
        decoder.pull().unwrap();
        let mut segments = decoder.$string($length);
        let mut bodies: Vec<Vec<u8>> = Vec::new();
        loop {
            match segments.pull() {
                Err(error) => break Err(matches!(error, stream::Error::Syntax(_))),
                Ok(None) => break Ok(bodies),
                Ok(Some(mut segment)) => {
                    let (mut body, mut buffer) = (Vec::new(), [0; $room]);
                    let read = loop {
                        match segment.pull(&mut buffer) {
                            Err(error) => break Err(matches!(error, stream::Error::Syntax(_))),
                            Ok(None) => break Ok(()),
                            Ok(Some(chunk)) => body.extend::<&[u8]>(chunk.as_ref()),
                        }
                    };
                    if let Err(syntax) = read {
                        break Err(syntax);
                    }
                    bodies.push(body);
                }
            }
        }
    }};
}

#[test]
fn strings_of_streams_are_the_same() {
    for bytes in inputs() {
        match original::Decoder::from(&bytes[..]).pull() {
            Ok(original::Header::Bytes(length)) => {
                let ours = segments_by_stream!(&bytes[..], bytes, length, 64);
                let theirs = segments_by_original!(&bytes[..], bytes, length);
                assert_eq!(ours, theirs, "{bytes:x?}");
            }
            Ok(original::Header::Text(length)) => {
                let ours = segments_by_stream!(&bytes[..], text, length, 64);
                let theirs = segments_by_original!(&bytes[..], text, length);
                assert_eq!(ours, theirs, "{bytes:x?}");
                if ours.is_ok() {
                    assert_eq!(ours, segments_by_stream!(&bytes[..], text, length, 4));
                }
            }
            _ => {}
        }
    }
}
