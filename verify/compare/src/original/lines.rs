//! Lines and their answers.

use crate::{copy, heads, string, value};
use compare::request::Request;
use std::io::{self, BufRead, Write};
use std::panic;

/// Answers each line, and flushes. A line ends at a line feed or at the end of the input.
pub fn answer<R: BufRead, W: Write>(mut reader: R, mut writer: W) -> io::Result<()> {
    // A panic is an answer here, and says nothing on standard error.
    panic::set_hook(Box::new(|_| {}));
    let mut line = Vec::new();
    loop {
        line.clear();
        if reader.read_until(b'\n', &mut line)? == 0 {
            return writer.flush();
        }
        if line.last() == Some(&b'\n') {
            line.pop();
        }
        writer.write_all(answer_of(&line).as_bytes())?;
    }
}

/// Returns the answer to a line. A panic of the crate answers `panic`, which our program never does.
fn answer_of(line: &[u8]) -> String {
    let request = match Request::parse(line) {
        Some(request) => request,
        None => return "error: line\n".to_string(),
    };
    let answered = panic::catch_unwind(move || match request {
        Request::Heads(bytes) => heads::answer(&bytes),
        Request::Chunks(size, bytes) => string::answer(size, &bytes),
        Request::Bytes(limit, bytes) => value::bytes(limit, &bytes),
        Request::Text(limit, bytes) => value::text(limit, &bytes),
        Request::Recode(count, bytes) => copy::answer(count, &bytes),
    });
    answered.unwrap_or_else(|_| "panic\n".to_string())
}
