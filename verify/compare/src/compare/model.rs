//! Answers a line by a plain reading of its bytes, with the ways of either side.
//!
//! It says whether our answer is the answer that the input gives. It also says whether the ways that are known to
//! differ give exactly the other answer. It looks at the input alone. It shares no code with ours. With the other side
//! it shares only how the words of a line are read and printed.

use crate::float::Float;
use compare::request::Request;
use compare::title::shortest;
use compare::word::{digits_of, word_of};
use std::fmt::Write;

/// How many bytes of a string are copied at a time, at most, by both sides.
const COPY_SIZE: usize = 64;

/// The ways in which the original differs from our program.
#[derive(Clone, Copy, Default)]
pub struct Ways {
    /// A float is a double, and is written in the narrowest width.
    pub narrows_floats: bool,
    /// Bytes of a cut character stay kept after a chunk that has no cut character at its end.
    pub keeps_stale_bytes: bool,
    /// A raw copy writes a chunk of a body only after all bytes of the chunk came, and looks at a title only after all
    /// of the title came. Our program writes and judges each byte as it comes. Lines are answered by chunks on both
    /// sides.
    pub waits_for_chunks: bool,
}

/// Why the reading of bytes stopped.
#[derive(Clone, Copy, Debug, PartialEq)]
pub enum Fault {
    /// The bytes at this offset can't stand there.
    Syntax(usize),
    /// Bytes are missing after this offset.
    Short(usize),
    /// The buffer is too small for the next character.
    Stuck,
}

/// Returns the answer to a request, with its line feeds.
pub fn answer(request: &Request, ways: Ways) -> String {
    match request {
        Request::Heads(bytes) => heads(bytes, ways),
        Request::Chunks(size, bytes) => chunks(*size, bytes, ways),
        Request::Recode(count, bytes) => recoded(*count, bytes, ways),
        Request::Bytes(limit, bytes) => {
            let limit = limit.unwrap_or(bytes.len()).max(1);
            word_of(&spelled(2, bytes, limit, |_| true)) + "\n"
        }
        Request::Text(limit, bytes) => match std::str::from_utf8(bytes) {
            Ok(text) => {
                let limit = limit.unwrap_or(bytes.len()).max(4);
                word_of(&spelled(3, bytes, limit, |end| text.is_char_boundary(end))) + "\n"
            }
            Err(_) => "error: text\n".to_string(),
        },
    }
}

/// Returns the spelling of a string in pieces of at most `limit` bytes. `may_end` tells the offsets at which a piece
/// may end.
fn spelled(major: u8, value: &[u8], limit: usize, may_end: impl Fn(usize) -> bool) -> Vec<u8> {
    let mut spelling = Vec::new();
    let mut add = |piece: &[u8]| {
        spelling.extend(shortest(major, piece.len() as u64));
        spelling.extend_from_slice(piece);
    };
    if value.len() <= limit {
        add(value);
        return spelling;
    }
    let mut begin = 0;
    while begin < value.len() {
        let most = value.len().min(begin + limit);
        let end = (begin..=most).rfind(|end| may_end(*end)).unwrap_or(most);
        add(&value[begin..end]);
        begin = end;
    }
    [&[major << 5 | 31], &spelling[..], &[0xff]].concat()
}

/// Bytes that are read from the front.
struct Source<'a> {
    bytes: &'a [u8],
    offset: usize,
}

/// A title: its place, and what it says.
struct Title {
    place: usize,
    major: u8,
    minor: u8,
    number: u64,
}

impl Title {
    /// Tells whether this is the indefinite form.
    fn is_open(&self) -> bool {
        self.minor == 31
    }

    /// Tells whether this is the break.
    fn is_break(&self) -> bool {
        self.major == 7 && self.minor == 31
    }

    /// Tells whether a string of bytes or of text begins here.
    fn is_string(&self) -> bool {
        self.major == 2 || self.major == 3
    }

    /// Returns the float that this is, as the side hands it on.
    fn float(&self, ways: Ways) -> Option<Float> {
        if self.major != 7 || !(25..=27).contains(&self.minor) {
            return None;
        }
        let float = Float {
            width: 1 << (self.minor - 24),
            bits: self.number,
        };
        Some(if ways.narrows_floats {
            float.narrowed()
        } else {
            float
        })
    }

    /// Returns the shortest spelling.
    fn shortest(&self, ways: Ways) -> Vec<u8> {
        if let Some(float) = self.float(ways) {
            let minor = 24 + float.width.trailing_zeros() as u8;
            return [vec![7 << 5 | minor], float.bytes()].concat();
        }
        if self.is_open() {
            return vec![self.major << 5 | 31];
        }
        shortest(self.major, self.number)
    }
}

impl<'a> Source<'a> {
    fn new(bytes: &'a [u8]) -> Source<'a> {
        Source { bytes, offset: 0 }
    }

    /// Returns the next `count` bytes. It takes none if there are fewer.
    fn take(&mut self, count: usize) -> Result<&'a [u8], Fault> {
        let rest = &self.bytes[self.offset..];
        let taken = rest.get(..count).ok_or(Fault::Short(self.offset))?;
        self.offset += count;
        Ok(taken)
    }

    /// Looks at the first byte of a title within an indefinite string of this major type. It ends the string or begins
    /// a string of that type.
    fn may_begin(&self, major: u8) -> Result<(), Fault> {
        match self.bytes.get(self.offset) {
            Some(first) if *first != 0xff && first >> 5 != major => Err(Fault::Syntax(self.offset)),
            _ => Ok(()),
        }
    }

    /// Returns the next title.
    fn title(&mut self) -> Result<Title, Fault> {
        let place = self.offset;
        let first = self.take(1)?[0];
        let (major, minor) = (first >> 5, first & 31);
        let affix = match minor {
            24..=27 => self.take(1 << (minor - 24))?,
            28..=30 => return Err(Fault::Syntax(place)),
            31 if matches!(major, 0 | 1 | 6) => return Err(Fault::Syntax(place)),
            _ => &[],
        };
        let number = match affix {
            [] => u64::from(minor),
            _ => affix.iter().fold(0, |n, byte| n << 8 | u64::from(*byte)),
        };
        Ok(Title {
            place,
            major,
            minor,
            number,
        })
    }
}

/// Returns the answer to `heads`.
fn heads(bytes: &[u8], ways: Ways) -> String {
    let mut source = Source::new(bytes);
    let mut answer = String::new();
    loop {
        let place = source.offset;
        let last = match source.title() {
            Ok(title) => {
                answer += &format!("{place} {}\n", name_of(&title, ways));
                continue;
            }
            Err(Fault::Short(offset)) if offset == place => format!("end {place}\n"),
            Err(fault) => format!("{}\n", ending(fault)),
        };
        return answer + &last;
    }
}

/// Returns the name of a title, and its value.
fn name_of(title: &Title, ways: Ways) -> String {
    const NAMES: [&str; 8] = [
        "positive", "negative", "bytes", "text", "array", "map", "tag", "simple",
    ];
    if title.is_break() {
        return "break".to_string();
    }
    if let Some(float) = title.float(ways) {
        let width = ["half", "single", "double"][float.width.trailing_zeros() as usize - 1];
        return format!("{width} {}", digits_of(&float.bytes()));
    }
    let name = NAMES[usize::from(title.major)];
    if title.is_open() {
        return format!("{name} *");
    }
    format!("{name} {}", title.number)
}

/// Returns a fault as an answer tells it.
fn ending(fault: Fault) -> String {
    match fault {
        Fault::Syntax(place) => format!("syntax {place}"),
        Fault::Short(offset) => format!("short {offset}"),
        Fault::Stuck => "stuck".to_string(),
    }
}

/// A part of a string, as it is read.
enum Part<'a> {
    /// A segment of this length begins.
    Segment(u64),
    /// A chunk of it was read.
    Chunk(&'a [u8]),
    /// It has ended.
    End,
}

/// The body of a segment, as far as no chunk has given it.
struct Body {
    place: usize,
    unread: u64,
    is_text: bool,
    kept: Vec<u8>,
}

impl Body {
    /// Returns the next chunk through a buffer of this size.
    fn chunk(
        &mut self,
        source: &mut Source<'_>,
        size: usize,
        ways: Ways,
    ) -> Result<Option<Vec<u8>>, Fault> {
        if self.unread == 0 {
            return match self.kept.is_empty() {
                true => Ok(None),
                false => Err(Fault::Syntax(self.place)),
            };
        }
        let left = self.unread.saturating_add(self.kept.len() as u64);
        let size = usize::try_from(left).map_or(size, |left| size.min(left));
        let read = source.take(size.saturating_sub(self.kept.len()))?;
        self.unread -= read.len() as u64;
        if !self.is_text {
            return Ok(Some(read.to_vec()));
        }
        if read.is_empty() {
            return Ok(Some(Vec::new()));
        }
        self.front([&self.kept, read].concat(), ways).map(Some)
    }

    /// Takes the whole body, or as much of it as there is and as is text in whole characters. Returns these bytes, and
    /// why they are not the whole body.
    fn there<'a>(&self, source: &mut Source<'a>) -> (&'a [u8], Option<Fault>) {
        let rest = &source.bytes[source.offset..];
        let length = usize::try_from(self.unread).unwrap_or(usize::MAX);
        let there = &rest[..length.min(rest.len())];
        let left = length - there.len();
        let short = (left > 0).then_some(Fault::Short(source.offset + there.len()));
        source.offset += there.len();
        if !self.is_text {
            return (there, short);
        }
        match std::str::from_utf8(there) {
            Ok(_) => (there, short),
            Err(error) => {
                let (front, cut) = there.split_at(error.valid_up_to());
                let is_damaged = error.error_len().is_some() || left < missing(cut);
                let fault = if is_damaged {
                    Some(Fault::Syntax(self.place))
                } else {
                    short
                };
                (front, fault)
            }
        }
    }

    /// Returns the front of a chunk that is text. It keeps a short rest.
    fn front(&mut self, mut chunk: Vec<u8>, ways: Ways) -> Result<Vec<u8>, Fault> {
        let front = match std::str::from_utf8(&chunk) {
            Ok(_) if ways.keeps_stale_bytes => return Ok(chunk),
            Ok(_) => chunk.len(),
            Err(error) => error.valid_up_to(),
        };
        let rest = chunk.split_off(front);
        if rest.len() > 3 {
            return Err(Fault::Syntax(self.place));
        }
        self.kept = rest;
        Ok(chunk)
    }
}

/// Returns how many bytes the character lacks that begins with these bytes.
fn missing(cut: &[u8]) -> usize {
    let length = match cut[0] {
        0xc2..=0xdf => 2,
        0xe0..=0xef => 3,
        _ => 4,
    };
    length - cut.len()
}

/// Reads a string after its title, through a buffer of this size.
fn string(
    source: &mut Source<'_>,
    title: &Title,
    size: usize,
    ways: Ways,
    tell: &mut dyn FnMut(Part<'_>) -> Result<(), Fault>,
) -> Result<(), Fault> {
    if !title.is_open() {
        // The header was pushed back, and counts as its shortest title.
        let place = source.offset - shortest(title.major, title.number).len();
        return body(source, title, place, size, ways, tell);
    }
    let mut opens = 1;
    while opens > 0 {
        if !ways.waits_for_chunks {
            source.may_begin(title.major)?;
        }
        let inner = source.title()?;
        if inner.is_break() {
            opens -= 1;
        } else if inner.major != title.major {
            return Err(Fault::Syntax(inner.place));
        } else if inner.is_open() {
            opens += 1;
        } else {
            body(source, &inner, inner.place, size, ways, tell)?;
        }
    }
    Ok(())
}

/// Reads one body.
fn body(
    source: &mut Source<'_>,
    title: &Title,
    place: usize,
    size: usize,
    ways: Ways,
    tell: &mut dyn FnMut(Part<'_>) -> Result<(), Fault>,
) -> Result<(), Fault> {
    let mut body = Body {
        place,
        unread: title.number,
        is_text: title.major == 3,
        kept: Vec::new(),
    };
    tell(Part::Segment(title.number))?;
    if !ways.waits_for_chunks {
        let (there, fault) = body.there(source);
        tell(Part::Chunk(there))?;
        return match fault {
            Some(fault) => Err(fault),
            None => tell(Part::End),
        };
    }
    while let Some(chunk) = body.chunk(source, size, ways)? {
        tell(Part::Chunk(&chunk))?;
    }
    tell(Part::End)
}

/// Returns the answer to `chunks`.
fn chunks(size: usize, bytes: &[u8], ways: Ways) -> String {
    let ways = Ways {
        waits_for_chunks: true,
        ..ways
    };
    let mut source = Source::new(bytes);
    let title = match source.title() {
        Ok(title) if title.is_string() => title,
        Ok(_) => return "other\n".to_string(),
        Err(fault) => return ending(fault) + "\n",
    };
    let mut lines = String::new();
    let mut was_empty = false;
    let outcome = string(&mut source, &title, size, ways, &mut |part| {
        let is_empty = matches!(part, Part::Chunk([]));
        if is_empty && was_empty {
            return Err(Fault::Stuck);
        }
        was_empty = is_empty;
        let _ = match part {
            Part::Segment(length) => writeln!(lines, "segment {length}"),
            Part::Chunk(chunk) => writeln!(lines, "chunk {}", word_of(chunk)),
            Part::End => writeln!(lines, "stop"),
        };
        Ok(())
    });
    match outcome {
        Ok(()) => format!("{lines}end {}\n", source.offset),
        Err(fault) => format!("{lines}{}\n", ending(fault)),
    }
}

/// Returns the answer to `recode`.
fn recoded(count: usize, bytes: &[u8], ways: Ways) -> String {
    let ways = Ways {
        waits_for_chunks: true,
        ..ways
    };
    let (output, outcome) = copy(count, bytes, ways);
    let last = match outcome {
        Ok(offset) => format!("rest {}", word_of(&bytes[offset..])),
        Err(fault) => ending(fault),
    };
    format!("{} {last}\n", word_of(&output))
}

/// Copies `count` elements. Returns the bytes written, and the offset after the elements or the fault.
pub fn copy(count: usize, bytes: &[u8], ways: Ways) -> (Vec<u8>, Result<usize, Fault>) {
    let mut source = Source::new(bytes);
    let mut output = Vec::new();
    for _ in 0..count {
        if let Err(fault) = copy_element(&mut source, &mut output, ways) {
            return (output, Err(fault));
        }
    }
    (output, Ok(source.offset))
}

/// Copies an element: a title that begins no string, or a whole string.
fn copy_element(source: &mut Source<'_>, output: &mut Vec<u8>, ways: Ways) -> Result<(), Fault> {
    let title = source.title()?;
    if !title.is_string() {
        output.extend(title.shortest(ways));
        return Ok(());
    }
    if title.is_open() {
        output.push(title.major << 5 | 31);
    }
    string(source, &title, COPY_SIZE, ways, &mut |part| {
        match part {
            Part::Segment(length) => output.extend(shortest(title.major, length)),
            Part::Chunk(chunk) => output.extend_from_slice(chunk),
            Part::End => {}
        }
        Ok(())
    })?;
    if title.is_open() {
        output.push(0xff);
    }
    Ok(())
}

#[cfg(test)]
mod tests {
    use super::{answer, copy, Fault, Ways};
    use compare::request::Request;
    use compare::title::shortest;

    /// The answers of our program, worked by hand.
    const ROWS: [(&str, &str); 13] = [
        ("heads 001c", "0 positive 0\nsyntax 1\n"),
        ("heads f97e00f818", "0 half 7e00\n3 simple 24\nend 5\n"),
        ("heads 1903", "short 1\n"),
        ("chunks 4 7f62e28261acff", "segment 2\nchunk -\nsyntax 1\n"),
        ("chunks 3 64f09f9880", "segment 4\nchunk -\nstuck\n"),
        ("chunks 1 4301", "segment 3\nchunk 01\nshort 2\n"),
        ("recode 1 7f61615fff", "7f6161 syntax 3\n"),
        ("recode 1 780261ff", "6261 syntax 1\n"),
        ("recode 2 5801015f5f420203ffff", "41015f420203ff rest -\n"),
        ("bytes 0 010203", "5f410141024103ff\n"),
        (
            "text 7 61c3a9e282acf09f9880",
            "7f6661c3a9e282ac64f09f9880ff\n",
        ),
        ("text 0 -", "60\n"),
        ("text 4 e282", "error: text\n"),
    ];

    /// Raw copies of one element, worked by hand: the bytes, the written bytes, and the fault.
    const COPIES: [(&[u8], &[u8], Fault); 6] = [
        (&[0x43, 1], &[0x43, 1], Fault::Short(2)),
        (&[0x62, 0x61, 0xff], &[0x62, 0x61], Fault::Syntax(0)),
        // A character of three bytes begins, and one byte of the body is left.
        (&[0x63, 0x61, 0xe2], &[0x63, 0x61], Fault::Syntax(0)),
        (&[0x64, 0x61, 0xe2], &[0x64, 0x61], Fault::Short(3)),
        // A title of another type begins within a text.
        (&[0x7f, 0x59, 0], &[0x7f], Fault::Syntax(1)),
        (&[0x7f, 0x79, 0], &[0x7f], Fault::Short(2)),
    ];

    #[test]
    fn copies_worked_by_hand() {
        for (bytes, written, fault) in COPIES {
            let got = copy(1, bytes, Ways::default());
            assert_eq!(got, (written.to_vec(), Err(fault)), "{bytes:?}");
        }
    }

    #[test]
    fn rows_worked_by_hand() {
        for (line, want) in ROWS {
            let request = Request::parse(line.as_bytes()).unwrap();
            let got = answer(&request, Ways::default());
            assert_eq!(got, want, "{line}");
        }
    }
}
