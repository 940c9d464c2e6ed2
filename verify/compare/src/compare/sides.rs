//! The two programs, and their answers.

use compare::command::failed;
use std::io::{self, Read, Write};
use std::process::{Child, Command, Stdio};
use std::sync::mpsc;
use std::thread;
use std::time::Duration;

/// How long one run of a program may take. A run of a batch takes a second or so.
const PATIENCE: Duration = Duration::from_secs(300);

/// The outcome of a run of a program.
#[derive(Clone, Debug, PartialEq)]
pub struct Outcome {
    /// The status, or `None` if a signal ended it.
    pub status: Option<i32>,
    /// The bytes on standard output.
    pub output: Vec<u8>,
    /// The bytes on standard error.
    pub errors: Vec<u8>,
}

/// The paths of the two programs.
pub struct Sides {
    /// The program of this repository.
    pub ours: String,
    /// The one that calls the Rust crate.
    pub original: String,
}

impl Sides {
    /// Runs both programs at once with these arguments on this input: ours, and then the original.
    pub fn run(&self, arguments: &[&str], input: &[u8]) -> io::Result<(Outcome, Outcome)> {
        thread::scope(|scope| {
            let ours = scope.spawn(|| run(&self.ours, arguments, input));
            let theirs = run(&self.original, arguments, input);
            let ours = ours.join().unwrap_or_else(|_| Err(failed("a thread failed")));
            Ok((ours?, theirs?))
        })
    }
}

/// Runs a program on an input. If it does not end in time, the call ends it, and the error is `TimedOut`.
fn run(program: &str, arguments: &[&str], input: &[u8]) -> io::Result<Outcome> {
    let mut child = Command::new(program)
        .args(arguments)
        .stdin(Stdio::piped())
        .stdout(Stdio::piped())
        .stderr(Stdio::piped())
        .spawn()?;
    thread::scope(|scope| {
        let mut writer = child.stdin.take().ok_or_else(|| failed("a pipe failed"))?;
        // A program that ended before it read all closes the pipe, which is no fault.
        scope.spawn(move || writer.write_all(input));
        collect(child, program)
    })
}

/// Returns the answer of a running program, and its end.
fn collect(mut child: Child, program: &str) -> io::Result<Outcome> {
    let output = reading(child.stdout.take());
    let errors = reading(child.stderr.take());
    let got = output.recv_timeout(PATIENCE);
    if got.is_err() {
        child.kill()?;
    }
    let status = child.wait()?.code();
    match (got, errors.recv()) {
        (Ok(output), Ok(errors)) => Ok(Outcome {
            status,
            output: output?,
            errors: errors?,
        }),
        _ => Err(io::Error::new(
            io::ErrorKind::TimedOut,
            format!("{program} did not end"),
        )),
    }
}

/// Reads a pipe to its end, in a thread of its own.
fn reading<R: Read + Send + 'static>(pipe: Option<R>) -> mpsc::Receiver<io::Result<Vec<u8>>> {
    let (sender, receiver) = mpsc::channel();
    thread::spawn(move || {
        let mut bytes = Vec::new();
        let read = match pipe {
            Some(mut pipe) => pipe.read_to_end(&mut bytes).map(|_| bytes),
            None => Ok(bytes),
        };
        // If the time was over, nobody waits any more.
        let _ = sender.send(read);
    });
    receiver
}
