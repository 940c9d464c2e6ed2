//! A work that a program does again and again over the same bytes.

use crate::measure::{best_times, Input, Origin, Run};
use std::io;

/// A timed run takes at least this many seconds.
const LEAST: f64 = 0.1;

/// A work of a program. Its words, and the number of rounds after them, are the program's arguments.
pub struct Work<'a> {
    /// The path of the program.
    pub program: &'a str,
    /// The name of the work.
    pub name: &'a str,
    /// The size of a buffer or of a piece, or the limit of segments.
    pub size: usize,
    /// How many elements or items the bytes have.
    pub count: usize,
}

/// What a work takes once.
pub struct Taken {
    /// Seconds of the processor.
    pub seconds: f64,
    /// Instructions, if valgrind is there and they were asked for.
    pub instructions: Option<f64>,
}

/// The runs of which the least time counts.
#[derive(Clone, Copy)]
pub struct Turns {
    /// How many runs there are.
    pub turns: usize,
    /// How many rounds a run has at least.
    pub rounds: usize,
    /// How many seconds a run takes at least.
    pub seconds: f64,
}

impl Turns {
    /// Returns runs of a program that is machine code.
    pub const fn native(turns: usize) -> Turns {
        Turns { turns, rounds: 1, seconds: LEAST }
    }
}

impl<'a> Work<'a> {
    /// Returns the program that does the work `rounds` times.
    pub fn run(&self, rounds: usize) -> Run<'a> {
        let numbers = [self.size, self.count, rounds].map(|number| number.to_string());
        Run { program: self.program, arguments: [self.name.to_string()].into_iter().chain(numbers).collect() }
    }

    /// Returns what the program prints for one round, unless it fails or prints 0.
    pub fn sum(&self, input: &Input) -> Option<Vec<u8>> {
        let sum = self.run(1).output(input).ok()?;
        Some(sum).filter(|sum| sum != b"0\n")
    }

    /// Returns the time and the instructions of the work. From the least time of many rounds goes that of none.
    pub fn taken(&self, turns: Turns, input: &Input, is_counted: bool) -> io::Result<Taken> {
        let mut rounds = turns.rounds;
        while self.seconds(rounds, 1, input)? < turns.seconds {
            rounds *= 2;
        }
        Ok(Taken {
            seconds: self.seconds(rounds, turns.turns, input)? / rounds as f64,
            instructions: if is_counted { self.instructions(input)? } else { None },
        })
    }

    /// Returns the seconds that these rounds take more than none do.
    fn seconds(&self, rounds: usize, turns: usize, input: &Input) -> io::Result<f64> {
        let sides = [self.run(rounds), self.run(0)];
        best_times(&sides, input, Origin::File, turns).map(|[all, none]| all - none)
    }

    /// Returns the instructions of one round, by two runs that differ by it.
    pub fn instructions(&self, input: &Input) -> io::Result<Option<f64>> {
        let counts = (self.run(1).instructions(input)?, self.run(2).instructions(input)?);
        Ok(match counts {
            (Some(once), Some(twice)) => Some(twice - once),
            _ => None,
        })
    }
}
