//! Measures the calls for C over items in memory, beside other libraries and beside C by hand.

use crate::measure::{ratio, speed, Input};
use crate::streams::{self, Stream};
use crate::earlier::measure_pair;
use crate::work::{Turns, Work};
use crate::Asked;
use compare::command::failed;
use std::io;
use std::path::Path;

/// The bytes of an item.
const SIZE: usize = 1 << 20;

/// More bytes than an item has, so that it comes in one piece.
const WHOLE: usize = 1 << 30;

/// A timed run of a program that is compiled or read while it runs takes at least this many seconds.
const LEAST_WARM: f64 = 0.5;

/// A timed run of a program in Java has at least this many rounds.
const JAVA_ROUNDS: usize = 64;

/// A timed run of a program in Python or JavaScript has at least this many rounds.
const SCRIPT_ROUNDS: usize = 2;

/// A library, as the table names it, and the name of the program that does its works.
struct Side {
    name: &'static str,
    program: &'static str,
    /// Whether the program is machine code, and writes the same as ours.
    is_native: bool,
    /// Whether its instructions are counted. Go's collector takes more or fewer of them from run to run.
    is_counted: bool,
    /// How many rounds a timed run has at least.
    rounds: usize,
}

/// All others beside ours.
const OTHERS: &[Side] = &[
    native("C by hand", "by_hand"),
    native("libcbor", "libcbor"),
    native("serde_cbor", "serde"),
    native("nlohmann", "nlohmann"),
    Side { is_counted: false, ..native("fxamacker", "fxamacker") },
    native("Qt", "qt"),
    managed("Jackson", "jackson", JAVA_ROUNDS),
    managed("cbor2", "cbor2", SCRIPT_ROUNDS),
    managed("node-cbor", "node_cbor", SCRIPT_ROUNDS),
];

/// Returns a library whose program is machine code.
const fn native(name: &'static str, program: &'static str) -> Side {
    Side { name, program, is_native: true, is_counted: true, rounds: 1 }
}

/// Returns a library whose program is compiled or read while it runs.
const fn managed(name: &'static str, program: &'static str, rounds: usize) -> Side {
    Side { name, program, is_native: false, is_counted: false, rounds }
}

impl Side {
    /// Returns the runs that are timed.
    const fn turns(&self, turns: usize) -> Turns {
        let native = Turns::native(turns);
        let seconds = if self.is_native { native.seconds } else { LEAST_WARM };
        Turns { rounds: self.rounds, seconds, ..native }
    }
}

/// A call of ours, with its work and the works of the others. The works are words of the programs.
struct Call {
    name: &'static str,
    work: &'static str,
    /// How many bytes a piece has, if the work takes pieces.
    piece: usize,
    /// The work of libcbor, and that of all others.
    others: [&'static str; 2],
    /// Whether the items have strings.
    has_strings: bool,
}

impl Call {
    /// Returns the work of this name by a program.
    const fn work_of<'a>(&self, program: &'a str, name: &'a str) -> Work<'a> {
        Work { program, name, size: self.piece, count: 1 }
    }
}

/// All calls.
const CALLS: &[Call] = &[
    check("`cll_skip`", "whole", WHOLE),
    check("`cll_checker_feed`, one piece", "feed", WHOLE),
    check("`cll_checker_feed`, 1,460 bytes", "feed", 1460),
    Call { name: "`cll_pull`", work: "pull", piece: 1, others: ["pull", "pull"], has_strings: false },
    copy("`cll_recode`", "recode"),
    copy("`cll_copier_feed`, 1,460 bytes", "copy"),
    copy("`cll_item_copier_feed`, 1,460 bytes", "each"),
];

/// Returns a call that tests one item.
const fn check(name: &'static str, work: &'static str, piece: usize) -> Call {
    Call { name, work, piece, others: ["feed", "check"], has_strings: true }
}

/// Returns a call that copies one item.
const fn copy(name: &'static str, work: &'static str) -> Call {
    Call { name, work, piece: 1460, others: ["recode", "copy"], has_strings: true }
}

/// The items, and whether there are strings in them.
const ITEMS: &[(fn(usize) -> Stream, bool)] = &[
    (streams::mixed_item, true),
    (streams::nested_item, false),
    (streams::small_numbers, false),
    (streams::tagged_numbers, false),
    (streams::ascii_text, true),
    (streams::multibyte_text, true),
    (streams::short_texts, true),
];

/// Measures all calls, and prints the table.
pub fn measure(asked: &Asked) -> io::Result<()> {
    let names: Vec<_> = OTHERS.iter().map(|side| side.name).collect();
    println!("| call | over | MB/s | {} |", names.join(" | "));
    println!("|---|---|---|{}", "---|".repeat(names.len()));
    for (call, item) in rows(asked) {
        measure_item(asked, call, &item(SIZE))?;
    }
    Ok(())
}

/// Measures all calls beside the same calls of an earlier library, and prints their rows.
pub fn measure_earlier(asked: &Asked, calls: &str) -> io::Result<()> {
    for (call, item) in rows(asked) {
        let sides = [asked.calls.as_str(), calls].map(|program| call.work_of(program, call.work));
        measure_pair(asked, call.name, &sides, &item(SIZE))?;
    }
    Ok(())
}

/// Returns the rows that are asked for: a call, and the item that it goes over.
fn rows(asked: &Asked) -> impl Iterator<Item = (&'static Call, fn(usize) -> Stream)> + '_ {
    let calls = CALLS.iter().filter(|call| call.name.contains(asked.rows.as_str()));
    calls.flat_map(|call| {
        let items = ITEMS.iter().filter(|(_, has_strings)| call.has_strings || !has_strings);
        items.map(move |(item, _)| (call, *item))
    })
}

/// Measures a call over an item, and prints its row.
fn measure_item(asked: &Asked, call: &Call, item: &Stream) -> io::Result<()> {
    let input = Input::new(&item.bytes)?;
    let programs = Path::new(asked.peers.as_str());
    let ours = call.work_of(&asked.calls, call.work);
    let sum = ours.sum(&input);
    if sum.is_none() {
        return Err(failed(&format!("{} over {} fails", call.name, item.name)));
    }
    let ours = ours.taken(Turns::native(asked.rounds), &input, true)?;
    let mut cells = Vec::new();
    for side in OTHERS {
        let program = programs.join(side.program).to_string_lossy().into_owned();
        let other = call.work_of(&program, call.others[usize::from(side.program != "libcbor")]);
        let found = other.sum(&input);
        cells.push(if found == sum || !side.is_native && found.is_some() {
            let other = other.taken(side.turns(asked.rounds), &input, side.is_counted)?;
            let by_time = ratio(Some(ours.seconds), Some(other.seconds));
            match other.instructions {
                Some(_) => format!("{by_time}, {}", ratio(ours.instructions, other.instructions)),
                None => by_time,
            }
        } else {
            // The program is not there, refuses the item, or writes something else.
            "-".to_string()
        });
    }
    let speed = speed(item.bytes.len(), ours.seconds);
    println!("| {} | {} | {speed} | {} |", call.name, item.name, cells.join(" | "));
    Ok(())
}
