//! Holds the program of this repository against one that makes the same answers by the Rust crate.
//!
//! It feeds both the same inputs and compares every answer byte for byte. A difference counts as explained only if a
//! named rule gives exactly both answers. Any other ends the comparison with status 1.

mod batch;
mod exhaustive;
mod float;
mod items;
mod lines;
mod model;
mod parting;
mod planting;
mod rules;
mod sides;
mod streams;
mod tally;
mod vectors;

use crate::batch::Comparison;
use crate::sides::Sides;
use crate::tally::Tally;
use compare::command::status_of;
use compare::random::Random;
use std::io;
use std::process::ExitCode;
use std::time::{Duration, Instant, SystemTime, UNIX_EPOCH};

/// How the program is used.
const USAGE: &str =
    "OURS ORIGINAL [--quick] [--seed N] [--lines N] [--streams N] [--minutes N] [--plant]";

/// What the arguments ask for.
struct Asked {
    sides: Sides,
    seed: u64,
    lines: usize,
    streams: usize,
    minutes: u64,
    is_planted: bool,
}

/// Reads the words after the program's name.
fn asked(mut words: impl Iterator<Item = String>) -> Option<Asked> {
    let (ours, original) = (words.next()?, words.next()?);
    let mut asked = Asked {
        sides: Sides { ours, original },
        seed: seed_of_the_clock(),
        lines: 10_000_000,
        streams: 2_000,
        minutes: 0,
        is_planted: false,
    };
    while let Some(word) = words.next() {
        match word.as_str() {
            "--quick" => (asked.lines, asked.streams) = (1_000_000, 200),
            "--seed" => asked.seed = words.next()?.parse().ok()?,
            "--lines" => asked.lines = words.next()?.parse().ok()?,
            "--streams" => asked.streams = words.next()?.parse().ok()?,
            "--minutes" => asked.minutes = words.next()?.parse().ok()?,
            "--plant" => asked.is_planted = true,
            _ => return None,
        }
    }
    Some(asked)
}

/// Returns a seed if none is given.
fn seed_of_the_clock() -> u64 {
    let since = SystemTime::now().duration_since(UNIX_EPOCH);
    since.map_or(0, |since| since.as_millis() as u64)
}

fn main() -> ExitCode {
    status_of("compare", USAGE, asked(std::env::args().skip(1)), compare_all)
}

/// Compares all inputs, and tells whether all differences are explained.
fn compare_all(asked: &Asked) -> io::Result<bool> {
    let start = Instant::now();
    let mut random = Random::new(asked.seed);
    println!("seed {}", asked.seed);
    let planted = planting::plant(&asked.sides, &mut random)?;
    println!(
        "{} answers of ours were damaged, {} not found",
        planted.damaged, planted.missed
    );
    let mut tally = Tally::default();
    let mut comparison = Comparison::new(&asked.sides, &mut tally);
    comparison.is_planted = asked.is_planted;
    vectors::compare(&mut comparison)?;
    exhaustive::compare(&mut comparison)?;
    let mut rounds = 0;
    // Random inputs once, and again and again while there is time.
    while rounds == 0 || start.elapsed() < Duration::from_secs(asked.minutes.saturating_mul(60)) {
        let mut comparison = Comparison::new(&asked.sides, &mut tally);
        lines::compare(&mut comparison, &mut random, asked.lines)?;
        streams::compare(&asked.sides, &mut tally, &mut random, asked.streams)?;
        rounds += 1;
    }
    tally.print();
    println!(
        "compared {} answers in {} s, {} differences unexplained",
        tally.compared(),
        start.elapsed().as_secs(),
        tally.unexplained()
    );
    Ok(planted.missed == 0 && tally.unexplained() == 0)
}
