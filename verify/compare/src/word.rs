//! Bytes as words of a line.

/// The word for no bytes.
const NO_BYTES: &str = "-";

/// Returns the bytes of a word: `-` for none, and otherwise two hexadecimal digits of either case for each.
pub fn bytes_of(word: &str) -> Option<Vec<u8>> {
    if word == NO_BYTES {
        return Some(Vec::new());
    }
    let digits = word.as_bytes();
    if digits.is_empty() || digits.len() % 2 != 0 {
        return None;
    }
    digits
        .chunks(2)
        .map(|pair| Some(digit_of(pair[0])? << 4 | digit_of(pair[1])?))
        .collect()
}

/// Returns the value of a hexadecimal digit of either case.
fn digit_of(digit: u8) -> Option<u8> {
    match digit {
        b'0'..=b'9' => Some(digit - b'0'),
        b'a'..=b'f' => Some(digit - b'a' + 10),
        b'A'..=b'F' => Some(digit - b'A' + 10),
        _ => None,
    }
}

/// Returns the word that stands for bytes: `-` for none, and otherwise two lower case hexadecimal digits for each.
pub fn word_of(bytes: &[u8]) -> String {
    if bytes.is_empty() {
        return NO_BYTES.to_string();
    }
    digits_of(bytes)
}

/// Returns two lower case hexadecimal digits for each byte.
pub fn digits_of(bytes: &[u8]) -> String {
    const DIGITS: &[u8; 16] = b"0123456789abcdef";
    let mut word = String::with_capacity(bytes.len() * 2);
    for byte in bytes {
        word.push(char::from(DIGITS[usize::from(byte >> 4)]));
        word.push(char::from(DIGITS[usize::from(byte & 15)]));
    }
    word
}

#[cfg(test)]
mod tests {
    use super::{bytes_of, word_of};

    #[test]
    fn words_stand_for_bytes() {
        assert_eq!(bytes_of("-"), Some(vec![]));
        assert_eq!(bytes_of("0aFf"), Some(vec![0x0a, 0xff]));
        assert_eq!(word_of(&[0x0a, 0xff]), "0aff");
        assert_eq!(word_of(&[]), "-");
    }

    #[test]
    fn other_words_stand_for_none() {
        for word in ["", "0", "0g", "0x", "--", "+1", " 00"] {
            assert_eq!(bytes_of(word), None, "{word:?}");
        }
    }
}
