//! Measures how the time and the memory of our program grow with its input, and prints a table.
//!
//! Each kind of input comes in three sizes, each twice the one before. The program compares the answer with the right
//! one, and the memory with its bound. The bound is the same at each size for copies and short lines, and a multiple
//! for a long line.

mod inputs;

use crate::inputs::{Input, Memory};
use compare::command::{failed, status_of};
use std::fs;
use std::io::{self, Read, Write};
use std::process::{Child, ChildStdin, Command, ExitCode, Stdio};
use std::thread;
use std::time::{Duration, Instant};

/// How the program is used.
const USAGE: &str = "OURS [--quick]";

/// The peak of a copy may differ by this many KiB from size to size.
const SLACK: u64 = 256;

/// What the arguments ask for.
struct Asked {
    ours: String,
    /// Each input is this many times smaller than in the full table.
    shrink: usize,
}

/// Reads the words after the program's name.
fn asked(mut words: impl Iterator<Item = String>) -> Option<Asked> {
    let ours = words.next()?;
    let shrink = match words.next().as_deref() {
        None => 1,
        Some("--quick") => 16,
        Some(_) => return None,
    };
    Some(Asked { ours, shrink }).filter(|_| words.next().is_none())
}

fn main() -> ExitCode {
    let asked = asked(std::env::args().skip(1));
    status_of("growth", USAGE, asked, measure_all)
}

/// The measures of one run.
struct Taken {
    time: Duration,
    /// The most memory that it had, in KiB.
    peak: u64,
}

/// Measures all inputs, and prints the table. It tells whether the memory is as it may be.
fn measure_all(asked: &Asked) -> io::Result<bool> {
    println!("| input | bytes | time, ns a byte | peak of the memory, KiB |");
    println!("|---|---|---|---|");
    let mut is_right = true;
    for kind in inputs::ALL {
        let mut least = u64::MAX;
        for times in [1, 2, 4] {
            let input = Input::new(kind, (4 << 20) / asked.shrink * times);
            let taken = run(&asked.ours, &input)?;
            println!(
                "| {} | {} | {:.1} | {} |",
                kind.name(),
                input.bytes.len(),
                taken.time.as_nanos() as f64 / input.bytes.len() as f64,
                taken.peak
            );
            least = least.min(taken.peak);
            let most = match kind.memory() {
                Memory::Constant => least + SLACK,
                Memory::TimesTheInput(share) => 4096 + share * input.bytes.len() as u64 / 1024,
            };
            if taken.peak > most {
                println!("the peak may be {most} KiB");
                is_right = false;
            }
        }
    }
    Ok(is_right)
}

/// Runs the program on an input, and compares its output with the right one.
fn run(program: &str, input: &Input) -> io::Result<Taken> {
    let start = Instant::now();
    let mut child = Command::new(program)
        .args(&input.arguments)
        .stdin(Stdio::piped())
        .stdout(Stdio::piped())
        .spawn()?;
    let (stdin, stdout) = (child.stdin.take(), child.stdout.take());
    let (Some(mut stdin), Some(mut stdout)) = (stdin, stdout) else {
        return Err(failed("no pipe"));
    };
    let (output, peak) = thread::scope(|scope| {
        let process = child.id();
        let writing = scope.spawn(move || write_all(&mut stdin, &input.bytes, process));
        let reading = scope.spawn(move || {
            let mut output = Vec::new();
            stdout.read_to_end(&mut output).map(|_| output)
        });
        let peak = watch(&mut child);
        (reading.join(), peak.map(|peak| peak.max(writing.join().unwrap_or(0))))
    });
    let peak = peak?;
    let time = start.elapsed();
    let output = output.map_err(|_| failed("a thread failed"))??;
    if !child.wait()?.success() || output != input.answer {
        return Err(failed("the program gave another answer"));
    }
    Ok(Taken { time, peak })
}

/// Writes an input, and looks at the peak of the memory before its last byte, while the program waits for that byte. A
/// program that ended before it read all closes the pipe, and its answer is then another one.
fn write_all(pipe: &mut ChildStdin, bytes: &[u8], process: u32) -> u64 {
    let (front, last) = bytes.split_at(bytes.len().saturating_sub(1));
    if pipe.write_all(front).is_err() {
        return 0;
    }
    // Once the program sleeps, only the last byte is left to read. The call waits for that no longer than a second.
    for _ in 0..500 {
        if told(process, "State:").as_deref() == Some("S") {
            break;
        }
        thread::sleep(Duration::from_millis(2));
    }
    let peak = peak_of(process);
    // As above.
    let _ = pipe.write_all(last);
    peak
}

/// Looks at the peak of the memory until the program has ended. It does not see the last two milliseconds.
fn watch(child: &mut Child) -> io::Result<u64> {
    let mut peak = 0;
    while child.try_wait()?.is_none() {
        peak = peak.max(peak_of(child.id()));
        thread::sleep(Duration::from_millis(2));
    }
    Ok(peak)
}

/// Returns the most memory that a process had so far, in KiB, or 0 if it has ended.
fn peak_of(process: u32) -> u64 {
    told(process, "VmHWM:")
        .and_then(|word| word.parse().ok())
        .unwrap_or(0)
}

/// Returns the first word that the system tells of a process under this name.
fn told(process: u32, name: &str) -> Option<String> {
    let status = fs::read_to_string(format!("/proc/{process}/status")).ok()?;
    let words = status.lines().find_map(|line| line.strip_prefix(name))?;
    words.split_whitespace().next().map(str::to_string)
}
