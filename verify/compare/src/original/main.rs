//! The lines and the raw copy of this repository's program, answered by the calls of the Rust crate.
//!
//! It reads lines from standard input and answers each on standard output. With the arguments `recode COUNT` it copies
//! COUNT elements from standard input to standard output. `compare` holds ours against this program. With the arguments
//! `WORK SIZE COUNT ROUNDS` it does a work of the bench over standard input.

mod bench;
mod copy;
mod heads;
mod lines;
mod string;
mod value;

use crate::bench::Task;
use crate::copy::RawFault;
use compare::request::number_of;
use std::fs::File;
use std::io::{self, BufReader, BufWriter, Read};
use std::os::unix::io::AsFd;
use std::process::ExitCode;

fn main() -> ExitCode {
    let words: Vec<String> = std::env::args().skip(1).collect();
    let words: Vec<&str> = words.iter().map(String::as_str).collect();
    let outcome = match words[..] {
        [] => answer_lines(),
        ["recode", word] => match number_of(word) {
            Some(count) => copy_raw(count),
            None => return usage(),
        },
        [work, size, count, rounds] => return work_through(work, &[size, count, rounds]),
        _ => return usage(),
    };
    match outcome {
        Ok(()) => ExitCode::SUCCESS,
        Err(fault) => {
            eprintln!("{fault}");
            ExitCode::FAILURE
        }
    }
}

/// Says how the program is used.
fn usage() -> ExitCode {
    eprintln!("usage: original [recode COUNT | WORK SIZE COUNT ROUNDS]");
    ExitCode::from(2)
}

/// Does a work of the bench over standard input, and prints its sum.
fn work_through(work: &str, words: &[&str]) -> ExitCode {
    let numbers: Vec<usize> = words.iter().filter_map(|word| word.parse().ok()).collect();
    let mut input = Vec::new();
    let (&[size, count, rounds], Ok(_)) = (&numbers[..], io::stdin().read_to_end(&mut input)) else {
        return usage();
    };
    let task = Task { work, size, count, rounds };
    match task.rounds_over(&input) {
        Some(sum) => {
            println!("{sum}");
            ExitCode::SUCCESS
        }
        None => usage(),
    }
}

/// Answers each line of standard input.
fn answer_lines() -> Result<(), RawFault> {
    let (reader, writer) = streams()?;
    lines::answer(BufReader::new(reader), BufWriter::new(writer)).map_err(|_| RawFault::Write)
}

/// Copies elements of standard input, through buffers of std's usual size.
fn copy_raw(count: usize) -> Result<(), RawFault> {
    let (reader, writer) = streams()?;
    copy::raw(BufReader::new(reader), BufWriter::new(writer), count)
}

/// Standard input and output as files, without the buffers and the locks that std has around them.
fn streams() -> Result<(File, File), RawFault> {
    let reader = io::stdin().as_fd().try_clone_to_owned();
    let writer = io::stdout().as_fd().try_clone_to_owned();
    match (reader, writer) {
        (Ok(reader), Ok(writer)) => Ok((File::from(reader), File::from(writer))),
        _ => Err(RawFault::Read),
    }
}
