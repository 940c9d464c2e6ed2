//! Measures how long a program takes for its input.

use compare::command::failed;
use std::fs::{self, File};
use std::io::{self, Write};
use std::path::PathBuf;
use std::process::{Command, Output, Stdio};
use std::thread;

/// Keeps glibc from the instructions `rep movsb` and `rep stosb`. Valgrind counts one for each byte that they move.
const NO_REPEATED_STEPS: &str =
    "glibc.cpu.x86_rep_movsb_threshold=100000000:glibc.cpu.x86_rep_stosb_threshold=100000000";

/// Bytes that are in memory and in a file.
pub struct Input<'a> {
    bytes: &'a [u8],
    path: PathBuf,
}

impl Drop for Input<'_> {
    fn drop(&mut self) {
        // A file that stays in the folder of temporary files does no harm.
        let _ = fs::remove_file(&self.path);
    }
}

impl<'a> Input<'a> {
    /// Writes the bytes to a file too.
    pub fn new(bytes: &'a [u8]) -> io::Result<Input<'a>> {
        let name = format!("cbor-speed-{}", std::process::id());
        let path = std::env::temp_dir().join(name);
        fs::write(&path, bytes)?;
        Ok(Input { bytes, path })
    }

    /// Returns the file.
    fn file(&self) -> io::Result<File> {
        File::open(&self.path)
    }
}

/// The source of a program's input.
#[derive(Clone, Copy)]
pub enum Origin {
    /// From a file.
    File,
    /// From a pipe, which a thread fills.
    Pipe,
}

/// A program with its arguments.
pub struct Run<'a> {
    /// The path of the program.
    pub program: &'a str,
    /// The words after its name.
    pub arguments: Vec<String>,
}

impl Run<'_> {
    /// Returns the output of the program.
    pub fn output(&self, input: &Input) -> io::Result<Vec<u8>> {
        let mut command = Command::new(self.program);
        let outcome = command.args(&self.arguments).stdin(input.file()?).output()?;
        self.checked(outcome).map(|outcome| outcome.stdout)
    }

    /// Returns the outcome of the program, if it succeeded.
    fn checked(&self, outcome: Output) -> io::Result<Output> {
        if outcome.status.success() {
            return Ok(outcome);
        }
        let errors = String::from_utf8_lossy(&outcome.stderr);
        let (program, arguments) = (self.program, &self.arguments);
        Err(failed(&format!("{program} {arguments:?}: {errors}")))
    }

    /// Returns the seconds that a processor worked for the program itself, and not for the system. The output goes
    /// nowhere. A shell tells the time, to the millisecond.
    pub fn user_time(&self, input: &Input, origin: Origin) -> io::Result<f64> {
        let mut command = Command::new("bash");
        command
            .args(["-c", "TIMEFORMAT=%3U; time \"$0\" \"$@\" > /dev/null"])
            .arg(self.program)
            .args(&self.arguments)
            .stdout(Stdio::null())
            .stderr(Stdio::piped());
        match origin {
            Origin::File => command.stdin(input.file()?),
            Origin::Pipe => command.stdin(Stdio::piped()),
        };
        let mut child = command.spawn()?;
        let writer = child.stdin.take();
        let outcome = thread::scope(|scope| {
            if let Some(mut writer) = writer {
                scope.spawn(move || writer.write_all(input.bytes));
            }
            child.wait_with_output()
        })?;
        let outcome = self.checked(outcome)?;
        let errors = String::from_utf8_lossy(&outcome.stderr);
        let time = errors.lines().last().and_then(|line| line.parse().ok());
        time.ok_or_else(|| failed("the shell tells no time"))
    }

    /// Returns how many instructions the program took, the system's not counted, if valgrind is there.
    pub fn instructions(&self, input: &Input) -> io::Result<Option<f64>> {
        let mut command = Command::new("valgrind");
        command
            .env("GLIBC_TUNABLES", NO_REPEATED_STEPS)
            .args(["--tool=cachegrind", "--cache-sim=no", "--cachegrind-out-file=/dev/null"])
            .arg(self.program)
            .args(&self.arguments)
            .stdin(input.file()?);
        let outcome = match command.output() {
            Err(error) if error.kind() == io::ErrorKind::NotFound => return Ok(None),
            outcome => self.checked(outcome?)?,
        };
        let errors = String::from_utf8_lossy(&outcome.stderr);
        let counted = errors.lines().find_map(|line| line.split_once("refs:"));
        let count = counted.and_then(|(_, count)| count.trim().replace(',', "").parse().ok());
        Ok(count)
    }
}

/// Returns the least seconds of programs that run by turns, `rounds` times.
pub fn best_times<const SIDES: usize>(
    sides: &[Run; SIDES],
    input: &Input,
    origin: Origin,
    rounds: usize,
) -> io::Result<[f64; SIDES]> {
    let mut best = [f64::INFINITY; SIDES];
    for _ in 0..rounds {
        for (best, side) in best.iter_mut().zip(sides) {
            *best = best.min(side.user_time(input, origin)?);
        }
    }
    // No time is less than a millisecond, as far as the shell can tell.
    Ok(best.map(|time| time.max(0.001)))
}

/// Returns a ratio for a table, or `-` for none.
pub fn ratio(ours: Option<f64>, other: Option<f64>) -> String {
    match (ours, other) {
        (Some(ours), Some(other)) => format!("{:.2}", other / ours),
        _ => "-".to_string(),
    }
}

/// Returns the speed for a table, in MB/s.
pub fn speed(bytes: usize, time: f64) -> String {
    format!("{:.0}", bytes as f64 / 1e6 / time)
}
