//! Lines that both sides answer, many in one run, and the comparison of the answers.

use crate::model;
use crate::parting::part;
use crate::rules::{judge, Verdict};
use crate::sides::{Outcome, Sides};
use crate::tally::{Difference, Tally};
use compare::request::Request;
use std::io;

/// Both sides get a batch once it has this many bytes.
const BATCH_SIZE: usize = 4 << 20;

/// Collects lines, and compares the answers to them.
pub struct Comparison<'a> {
    sides: &'a Sides,
    tally: &'a mut Tally,
    kind: &'static str,
    lines: Vec<Vec<u8>>,
    size: usize,
    /// Whether one byte of our next answers is damaged, so that the comparison has to fail.
    pub is_planted: bool,
}

impl<'a> Comparison<'a> {
    /// Returns a comparison of these sides that counts in this tally.
    pub fn new(sides: &'a Sides, tally: &'a mut Tally) -> Comparison<'a> {
        Comparison {
            sides,
            tally,
            kind: "",
            lines: Vec::new(),
            size: 0,
            is_planted: false,
        }
    }

    /// Begins with lines of this kind.
    pub fn begin(&mut self, kind: &'static str) -> io::Result<()> {
        self.finish()?;
        self.kind = kind;
        Ok(())
    }

    /// Adds a line, given without its line feed.
    pub fn add(&mut self, line: Vec<u8>) -> io::Result<()> {
        self.size += line.len() + 1;
        self.lines.push(line);
        if self.size >= BATCH_SIZE {
            self.finish()?;
        }
        Ok(())
    }

    /// Has both sides answer the lines that were added, and compares the answers.
    pub fn finish(&mut self) -> io::Result<()> {
        let lines = std::mem::take(&mut self.lines);
        self.size = 0;
        if lines.is_empty() {
            return Ok(());
        }
        let answered = self.sides.run(&[], &joined(&lines));
        let (mut ours, theirs) = answered.map_err(|error| {
            let (first, kind) = (String::from_utf8_lossy(&lines[0]), self.kind);
            io::Error::new(
                error.kind(),
                format!("{error}: {kind}, from the line {first}"),
            )
        })?;
        if std::mem::take(&mut self.is_planted) {
            let place = ours.output.len() - 2;
            ours.output[place] ^= 1;
        }
        compare(self.tally, self.kind, &lines, &ours, &theirs);
        Ok(())
    }
}

/// Returns the lines as one input.
pub fn joined(lines: &[Vec<u8>]) -> Vec<u8> {
    let mut input = lines.join(&b'\n');
    input.push(b'\n');
    input
}

/// Compares all answers to these lines, byte for byte.
pub fn compare(
    tally: &mut Tally,
    kind: &'static str,
    lines: &[Vec<u8>],
    ours: &Outcome,
    theirs: &Outcome,
) {
    let has_ended_well = |side: &Outcome| side.status == Some(0) && side.errors.is_empty();
    let parted = (part(lines, &ours.output), part(lines, &theirs.output));
    match parted {
        (Some(ours_parted), Some(theirs_parted))
            if has_ended_well(ours) && has_ended_well(theirs) =>
        {
            for ((line, ours), theirs) in lines.iter().zip(ours_parted).zip(theirs_parted) {
                match judge_line(line, ours, theirs) {
                    Verdict::Equal => tally.add_equal(kind),
                    verdict => tally.add(kind, verdict, difference(line, ours, theirs)),
                }
            }
        }
        _ => tally.add(kind, Verdict::Unexplained, unparted(lines, ours, theirs)),
    }
}

/// Judges the answers to a line.
pub fn judge_line(line: &[u8], ours: &[u8], theirs: &[u8]) -> Verdict {
    let request = Request::parse(line);
    judge(ours, theirs, |ways| {
        Some(model::answer(request.as_ref()?, ways).into_bytes())
    })
}

/// Returns the difference of a batch whose answers cannot be told apart, or that ended with a fault.
fn unparted(lines: &[Vec<u8>], ours: &Outcome, theirs: &Outcome) -> Difference {
    let told = |side: &Outcome| {
        let status = side.status;
        let errors = String::from_utf8_lossy(&side.errors);
        format!("status {status:?}, {} bytes, {errors}", side.output.len())
    };
    let first = lines.first().map_or(&[][..], Vec::as_slice);
    Difference {
        input: format!("a batch from {}", String::from_utf8_lossy(first)),
        ours: told(ours),
        theirs: told(theirs),
    }
}

/// Returns a difference as it is printed.
fn difference(line: &[u8], ours: &[u8], theirs: &[u8]) -> Difference {
    Difference {
        input: String::from_utf8_lossy(line).into_owned(),
        ours: String::from_utf8_lossy(ours).into_owned(),
        theirs: String::from_utf8_lossy(theirs).into_owned(),
    }
}
