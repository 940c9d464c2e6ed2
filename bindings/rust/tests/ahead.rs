// SPDX-License-Identifier: Apache-2.0
//! Holds what reads many titles by one call to what reads one: a decoder that is new at each offset.

use ciborium_ll_proved::{headers, skip_item, utf8, Decoder, Encoder, Error, Float, Header};

/// Numbers that look random.
struct Numbers(u64);

impl Numbers {
    /// Returns a number below the limit.
    fn below(&mut self, limit: usize) -> usize {
        self.0 ^= self.0 << 13;
        self.0 ^= self.0 >> 7;
        self.0 ^= self.0 << 17;
        (self.0 >> 16) as usize % limit
    }
}

/// Adds a title of any kind, with the body of a string, which is sometimes damaged or cut off.
fn add_title(numbers: &mut Numbers, data: &mut Vec<u8>) {
    let value = [0, 5, 23, 24, 255, 256, 65536, u64::MAX][numbers.below(8)];
    let body = [&b""[..], b"a", "\u{204c}".as_bytes(), b"\xff", &[b'z'; 300]][numbers.below(5)];
    let length = (numbers.below(6) > 0).then_some(body.len());
    let header = match numbers.below(12) {
        0 => Header::Positive(value),
        1 => Header::Negative(value),
        2 | 3 => Header::Bytes(length),
        4 | 5 => Header::Text(length),
        6 => Header::Array(length),
        7 => Header::Map(length),
        8 => Header::Tag(value),
        9 => Header::Simple(value as u8),
        10 => Header::Float(Float::Single(value as u32)),
        _ => Header::Break,
    };
    let mut out = [0; 9];
    let mut encoder = Encoder::from(&mut out[..]);
    encoder.push(header).unwrap();
    data.extend_from_slice(encoder.written());
    if let (Header::Bytes(Some(_)) | Header::Text(Some(_)), true) = (header, numbers.below(30) > 0)
    {
        data.extend_from_slice(body);
    }
}

/// Returns an error with its offset counted from an earlier one on.
fn moved(error: Error, offset: usize) -> Error {
    match error {
        Error::Short { place, due } => Error::Short {
            place: offset + place,
            due,
        },
        Error::Syntax(place) => Error::Syntax(offset + place),
        Error::BreakDue(place) => Error::BreakDue(offset + place),
        Error::TooDeep(place) => Error::TooDeep(offset + place),
        other => other,
    }
}

/// Reads the title at an offset by a call for one title. Returns its header and the offset of its end.
fn pull_at(data: &[u8], offset: usize) -> Result<(Header, usize), Error> {
    let mut decoder = Decoder::from(&data[offset..]);
    match decoder.pull() {
        Ok(header) => Ok((header, offset + decoder.offset())),
        Err(error) => Err(moved(error, offset)),
    }
}

/// A title, as parts that can be compared.
type Parts<'a> = (Header, usize, usize, Option<&'a [u8]>, Option<&'a str>);

/// Returns the titles of the bytes, and the error that ends them.
fn one_by_one(data: &[u8]) -> Vec<Result<Parts<'_>, Error>> {
    let (mut start, mut titles) = (0, Vec::new());
    while start < data.len() {
        let read = pull_at(data, start).and_then(|(header, end)| {
            if !matches!(header, Header::Bytes(Some(_)) | Header::Text(Some(_))) {
                return Ok(((header, start, end, None, None), end));
            }
            let whole = skip_item(&data[start..], 0).map_err(|error| moved(error, start))?;
            let body = &data[end..start + whole];
            let is_text = matches!(header, Header::Text(_));
            let text = is_text.then(|| utf8(body).unwrap());
            Ok(((header, start, end, Some(body), text), start + whole))
        });
        match read {
            Ok((parts, next)) => {
                titles.push(Ok(parts));
                start = next;
            }
            Err(error) => {
                titles.push(Err(error));
                break;
            }
        }
    }
    titles
}

/// Checks that `headers` gives these titles.
fn are_the_same(data: &[u8]) {
    let got: Vec<_> = headers(data)
        .map(|title| {
            title.map(|title| {
                (
                    title.header,
                    title.start,
                    title.end,
                    title.body,
                    title.text(),
                )
            })
        })
        .collect();
    assert_eq!(got, one_by_one(data), "{data:x?}");
}

#[test]
fn titles_are_the_same() {
    let mut numbers = Numbers(7);
    for _ in 0..2000 {
        let mut data = Vec::new();
        for _ in 0..[1, 2, 15, 16, 17, 33, 50][numbers.below(7)] {
            add_title(&mut numbers, &mut data);
        }
        are_the_same(&data);
        are_the_same(&data[..numbers.below(data.len() + 1)]);
    }
}

#[test]
fn titles_of_short_lists_are_the_same() {
    for first in 0..=255 {
        are_the_same(&[first]);
        for second in 0..=255 {
            are_the_same(&[first, second]);
        }
    }
}

#[test]
fn a_fault_comes_after_each_number_of_titles() {
    for count in 0..50 {
        for end in [&b"\x1c"[..], b"\x19", b"\x62a", b"\x62\xff\xff", b"\x5b"] {
            are_the_same(&[&vec![1; count][..], end].concat());
        }
    }
}

/// A decoder, and what another one that reads one title by each call has to say.
struct Pair<'a> {
    data: &'a [u8],
    decoder: Decoder<'a>,
    offset: usize,
    last: Option<(Header, usize)>,
}

impl<'a> Pair<'a> {
    /// Pulls a header.
    fn pull(&mut self) {
        let want = pull_at(self.data, self.offset);
        assert_eq!(self.decoder.pull(), want.map(|(header, _)| header));
        if let Ok((header, end)) = want {
            self.last = Some((header, self.offset));
            self.offset = end;
        }
    }

    /// Gives a header back, if there is one.
    fn push(&mut self) {
        if let Some((header, start)) = self.last.take() {
            self.decoder.push(header);
            self.offset = start;
        }
    }

    /// Takes the string whose header was pulled last, if it was that of a string.
    fn string(&mut self) {
        let (header, start) = match self.last {
            Some(last) => last,
            None => {
                assert_eq!(self.decoder.bytes(None).err(), Some(Error::Argument));
                return;
            }
        };
        let mut new = Decoder::from(&self.data[start..]);
        assert_eq!(new.pull(), Ok(header));
        let (want, got) = match header {
            Header::Bytes(length) => (
                new.bytes(length).map(|segments| segments.collect()),
                self.decoder
                    .bytes(length)
                    .map(|segments| segments.collect()),
            ),
            Header::Text(length) => (
                new.text(length).map(|all| all.map(str::as_bytes).collect()),
                self.decoder
                    .text(length)
                    .map(|all| all.map(str::as_bytes).collect()),
            ),
            _ => return,
        };
        let want: Result<Vec<&[u8]>, Error> = want.map_err(|error| moved(error, start));
        assert_eq!(got, want);
        if want.is_ok() {
            self.offset = start + new.offset();
            self.last = None;
        }
    }

    /// Skips an item.
    fn skip(&mut self, depth: u32) {
        let want = skip_item(&self.data[self.offset..], depth);
        let got = self.decoder.skip_item(depth).map(<[u8]>::len);
        assert_eq!(got, want.map_err(|error| moved(error, self.offset)));
        if let Ok(length) = want {
            self.offset += length;
            self.last = None;
        }
    }
}

#[test]
fn decoders_say_the_same() {
    let mut numbers = Numbers(11);
    for _ in 0..4000 {
        let mut data = Vec::new();
        for _ in 0..1 + numbers.below(80) {
            add_title(&mut numbers, &mut data);
        }
        let mut pair = Pair {
            data: &data,
            decoder: Decoder::from(&data[..]),
            offset: 0,
            last: None,
        };
        // Most decoders take each string. Others pull titles out of bodies, or go to and fro.
        let way = numbers.below(4);
        for _ in 0..120 {
            match (way, numbers.below(20)) {
                (0, 0) | (1, 0..=3) => pair.push(),
                (0, 1) | (1, 4..=6) => pair.skip(numbers.below(3) as u32),
                (_, 2) => pair.decoder = pair.decoder.clone(),
                _ => {
                    pair.pull();
                    if way != 3 || numbers.below(3) == 0 {
                        pair.string();
                    }
                }
            }
            assert_eq!(pair.decoder.offset(), pair.offset);
            assert_eq!(pair.decoder.rest(), &data[pair.offset..]);
        }
    }
}
