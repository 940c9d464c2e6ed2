//! The requests of lines.

use crate::word::bytes_of;

/// The greatest size of a buffer that a line may ask for.
const MOST_SIZE: usize = 65_536;

/// The request of a line.
#[derive(Debug, PartialEq)]
pub enum Request {
    /// `heads HEX`: the headers of the titles that the bytes spell.
    Heads(Vec<u8>),
    /// `chunks SIZE HEX`: the string that comes first, read through a buffer of this size.
    Chunks(usize, Vec<u8>),
    /// `bytes LIMIT HEX`: the spelling of a byte string.
    Bytes(Option<usize>, Vec<u8>),
    /// `text LIMIT HEX`: the spelling of a text string.
    Text(Option<usize>, Vec<u8>),
    /// `recode COUNT HEX`: a copy of the elements that come first.
    Recode(usize, Vec<u8>),
}

impl Request {
    /// Reads a line, given without its line feed. It is `None` if the line is no request.
    pub fn parse(line: &[u8]) -> Option<Request> {
        let words: Vec<&str> = std::str::from_utf8(line).ok()?.split(' ').collect();
        match words[..] {
            ["heads", word] => Some(Request::Heads(bytes_of(word)?)),
            ["chunks", size, word] => Some(Request::Chunks(size_of(size)?, bytes_of(word)?)),
            ["bytes", limit, word] => Some(Request::Bytes(limit_of(limit)?, bytes_of(word)?)),
            ["text", limit, word] => Some(Request::Text(limit_of(limit)?, bytes_of(word)?)),
            ["recode", count, word] => Some(Request::Recode(number_of(count)?, bytes_of(word)?)),
            _ => None,
        }
    }
}

/// Returns the number that a word spells: with no leading zero, and at most 4,294,967,295.
pub fn number_of(word: &str) -> Option<usize> {
    let is_decimal = word.bytes().all(|byte| byte.is_ascii_digit());
    if !is_decimal || (word.len() > 1 && word.starts_with('0')) {
        return None;
    }
    word.parse::<u32>().ok().map(|number| number as usize)
}

/// Returns the size of a buffer that a word spells.
fn size_of(word: &str) -> Option<usize> {
    number_of(word).filter(|size| *size <= MOST_SIZE)
}

/// Returns the limit that a word spells: a number, or `*` for none.
fn limit_of(word: &str) -> Option<Option<usize>> {
    if word == "*" {
        return Some(None);
    }
    number_of(word).map(Some)
}

#[cfg(test)]
mod tests {
    use super::{number_of, Request};

    #[test]
    fn numbers_have_one_spelling() {
        assert_eq!(number_of("0"), Some(0));
        assert_eq!(number_of("4294967295"), Some(4_294_967_295));
        for word in ["", "00", "01", "+1", "-1", "4294967296", "1 "] {
            assert_eq!(number_of(word), None, "{word:?}");
        }
    }

    #[test]
    fn one_space_parts_two_words() {
        assert_eq!(
            Request::parse(b"bytes * 00"),
            Some(Request::Bytes(None, vec![0]))
        );
        for line in [
            "heads  00",
            " heads 00",
            "heads 00 ",
            "heads",
            "",
            "chunks 65537 00",
        ] {
            assert_eq!(Request::parse(line.as_bytes()), None, "{line:?}");
        }
    }
}
