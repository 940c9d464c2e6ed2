// SPDX-License-Identifier: Apache-2.0
//! Tells whether standard input is one whole item of CBOR and nothing more. A program has to know that before it signs
//! or stores an item. It prints the same as `bindings/c/examples/one.c` of the repository, and has its status.
use ciborium_ll_proved::{Checker, Progress};
use std::io::Read;
use std::process::ExitCode;

/// Returns the line to print, and the status.
fn tell(mut stream: impl Read) -> std::io::Result<(String, u8)> {
    let mut checker = Checker::new(64).expect("a depth of at most 256");
    let (mut data, mut due) = ([0; 4096], 1);
    loop {
        let came = stream.read(&mut data)?;
        if came == 0 {
            break;
        }
        match checker.feed(&data[..came]) {
            Ok(feed) => match feed.progress {
                Progress::Ended(length) if feed.taken < came => {
                    return Ok((format!("more {length}"), 1));
                }
                Progress::Ended(_) => {}
                Progress::More(more) => due = more,
            },
            Err(error) => return Ok((format!("fault {}", error.place().unwrap_or(0)), 1)),
        }
    }
    // Before the first byte the item has not ended, and `end` is `Ok`, because a sequence may be empty.
    if checker.is_ended() {
        Ok((format!("item {}", checker.taken()), 0))
    } else {
        Ok((format!("short {due}"), 1))
    }
}

fn main() -> ExitCode {
    match tell(std::io::stdin().lock()) {
        Ok((line, status)) => {
            println!("{line}");
            ExitCode::from(status)
        }
        Err(error) => {
            eprintln!("one: {error}");
            ExitCode::from(2)
        }
    }
}
