//! Inputs of any size, and their answers.

/// A kind of input.
#[derive(Clone, Copy)]
pub enum Kind {
    /// One line, a copy of a byte string.
    LongLine,
    /// Lines of eight bytes each: `heads`, and a title of one byte.
    ShortLines,
    /// A raw copy of a byte string.
    RawString,
    /// A raw copy of numbers of one byte each.
    RawNumbers,
    /// A raw copy of a string of bytes that has opens inside opens.
    RawOpens,
}

/// The bound for the peak of the memory.
pub enum Memory {
    /// The same, whatever the size.
    Constant,
    /// At most this many times the size of the input.
    TimesTheInput(u64),
}

/// All kinds.
pub const ALL: [Kind; 5] = [
    Kind::LongLine,
    Kind::ShortLines,
    Kind::RawString,
    Kind::RawNumbers,
    Kind::RawOpens,
];

impl Kind {
    /// Returns the name in the table.
    pub fn name(self) -> &'static str {
        match self {
            Kind::LongLine => "one line",
            Kind::ShortLines => "short lines",
            Kind::RawString => "a raw copy, one string",
            Kind::RawNumbers => "a raw copy, titles alone",
            Kind::RawOpens => "a raw copy, opens within opens",
        }
    }

    /// Returns the bound for the peak of the memory. The program holds a line, its bytes and their copy at once, and
    /// the answer as it grows.
    pub fn memory(self) -> Memory {
        match self {
            Kind::LongLine => Memory::TimesTheInput(5),
            _ => Memory::Constant,
        }
    }
}

/// An input, and its answer.
pub struct Input {
    /// The arguments of the program.
    pub arguments: Vec<String>,
    /// The bytes on standard input.
    pub bytes: Vec<u8>,
    /// The bytes that have to be on standard output.
    pub answer: Vec<u8>,
}

impl Input {
    /// Returns an input of a kind, with about `size` bytes.
    pub fn new(kind: Kind, size: usize) -> Input {
        match kind {
            Kind::LongLine => long_line(size),
            Kind::ShortLines => {
                let lines = size / 9;
                Input {
                    arguments: Vec::new(),
                    bytes: b"heads 00\n".repeat(lines),
                    answer: b"0 positive 0\nend 1\n".repeat(lines),
                }
            }
            Kind::RawString => raw(1, string(size)),
            Kind::RawNumbers => raw(size, vec![0; size]),
            Kind::RawOpens => Input {
                answer: vec![0x5f, 0xff],
                ..raw(1, [vec![0x5f; size / 2], vec![0xff; size / 2]].concat())
            },
        }
    }
}

/// Returns a byte string in its shortest spelling, with a body of about `size` bytes.
fn string(size: usize) -> Vec<u8> {
    let body = vec![7; size];
    [&[0x5a], &(body.len() as u32).to_be_bytes()[..], &body].concat()
}

/// Returns a copy of elements in their shortest spelling.
fn raw(count: usize, bytes: Vec<u8>) -> Input {
    Input {
        arguments: vec!["recode".to_string(), count.to_string()],
        answer: bytes.clone(),
        bytes,
    }
}

/// Returns one line of about `size` bytes.
fn long_line(size: usize) -> Input {
    let digits: String = string(size / 2)
        .iter()
        .map(|byte| format!("{byte:02x}"))
        .collect();
    Input {
        arguments: Vec::new(),
        bytes: format!("recode 1 {digits}\n").into_bytes(),
        answer: format!("{digits} rest -\n").into_bytes(),
    }
}
