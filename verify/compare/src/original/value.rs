//! Values that are written as strings.

use ciborium_ll::Encoder;
use compare::word::word_of;

/// Answers `bytes`: the spelling of a byte string under a limit.
pub fn bytes(limit: Option<usize>, value: &[u8]) -> String {
    let mut spelling = Vec::new();
    let written = Encoder::from(&mut spelling).bytes(value, limit);
    answer_of(written.is_ok(), &spelling)
}

/// Answers `text`: the spelling of a text string under a limit, if the bytes are text.
pub fn text(limit: Option<usize>, value: &[u8]) -> String {
    let value = match std::str::from_utf8(value) {
        Ok(value) => value,
        Err(_) => return "error: text\n".to_string(),
    };
    let mut spelling = Vec::new();
    let written = Encoder::from(&mut spelling).text(value, limit);
    answer_of(written.is_ok(), &spelling)
}

/// Returns the line of a spelling.
fn answer_of(is_written: bool, spelling: &[u8]) -> String {
    if is_written {
        word_of(spelling) + "\n"
    } else {
        "error: room\n".to_string()
    }
}
