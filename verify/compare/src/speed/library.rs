//! Measures the calls of the library in memory, beside the same calls of another one.

use crate::earlier::measure_pair;
use crate::measure::{best_times, ratio, speed, Input, Origin};
use crate::streams::{self, Stream};
use crate::work::Work;
use crate::Asked;
use compare::command::failed;
use std::io;

/// The bytes in memory that the calls go over, again and again.
const SIZE: usize = 1 << 20;

/// A row of the table.
struct Row {
    /// The work, as the table names it.
    name: &'static str,
    /// The name of the work in the bench.
    work: &'static str,
    /// The size of a buffer, or the limit of segments.
    size: usize,
    /// The bytes.
    stream: fn(usize) -> Stream,
    /// How often the work is done for each megabyte that the arguments ask for.
    times: usize,
    /// The works beside it.
    beside: Beside,
}

/// The other work beside a work of ours.
#[derive(Clone, Copy)]
enum Beside {
    /// The same work by the Rust crate.
    Crate,
    /// The same work by libcbor.
    Libcbor,
    /// The same work by libcbor, from C. Ours is done by the static library, from C too.
    LibcborFromC,
    /// The same items in one piece, skipped from C, as ours are fed from C.
    Whole,
    /// The same bytes in one piece, copied from C, as ours are fed from C.
    WholeCopy,
    /// The least that a pull has to do: one branch for each title.
    Branches,
    /// The least that a copy has to do.
    Memory,
    /// Our own pulls and bodies alone, with no look at what contains them.
    Flat,
    /// Our own skip by a decoder, which reads each title.
    Titles,
    /// Our own work of this name, by a decoder that isn't strict.
    Plain(&'static str),
}

impl Row {
    /// Returns the work of this name by a program over a stream.
    fn work_of<'a>(&self, program: &'a str, name: &'a str, stream: &Stream) -> Work<'a> {
        Work { program, name, size: self.size, count: stream.count }
    }

    /// Returns whether the static library does the work, from C.
    fn is_from_c(&self) -> bool {
        matches!(self.beside, Beside::LibcborFromC | Beside::Whole | Beside::WholeCopy)
    }

    /// This row beside something else.
    const fn beside(mut self, beside: Beside) -> Row {
        self.beside = beside;
        self
    }
}

/// Returns a row of titles. The work is done for many of them.
const fn titles(name: &'static str, work: &'static str, stream: fn(usize) -> Stream) -> Row {
    Row { name, work, size: 64, stream, times: 2, beside: Beside::Crate }
}

/// Returns a row of items that come in pieces of `size` bytes.
const fn pieces(
    name: &'static str,
    size: usize,
    stream: fn(usize) -> Stream,
    beside: Beside,
) -> Row {
    Row { name, work: "feed", size, stream, times: 2, beside }
}

/// Returns a row of bytes that come in pieces of 1,460 and are copied.
const fn copies(
    name: &'static str,
    work: &'static str,
    times: usize,
    stream: fn(usize) -> Stream,
) -> Row {
    Row { name, work, size: 1460, stream, times, beside: Beside::WholeCopy }
}

/// Returns a row of large bodies, which take less time.
const fn bodies(
    name: &'static str,
    work: &'static str,
    size: usize,
    stream: fn(usize) -> Stream,
) -> Row {
    Row { name, work, size, stream, times: 8, beside: Beside::Crate }
}

/// Returns a row of large bodies that take so little time that many more are done.
const fn quick(
    name: &'static str,
    work: &'static str,
    stream: fn(usize) -> Stream,
) -> Row {
    Row { name, work, size: 4096, stream, times: 128, beside: Beside::Crate }
}

/// Returns a row of a strict decoder, beside the same work by another one. Each title of the stream is its shortest.
const fn strict(
    name: &'static str,
    work: &'static str,
    stream: fn(usize) -> Stream,
    plain: &'static str,
) -> Row {
    titles(name, work, stream).beside(Beside::Plain(plain))
}

/// All rows.
const ROWS: &[Row] = &[
    titles("headers pulled", "pull", streams::titles),
    titles("headers pulled", "pull", streams::mixed),
    titles("headers pulled", "pull", streams::pieces),
    titles("headers pulled and pushed", "push", streams::titles),
    titles("headers pulled and pushed", "push", streams::mixed),
    titles("headers pulled and pushed", "push", streams::pieces),
    titles("`recode` by 64 bytes", "recode", streams::titles),
    titles("`recode` by 64 bytes", "recode", streams::mixed),
    titles("`recode` by 64 bytes", "recode", streams::pieces),
    bodies("`recode` by 64 bytes", "recode", 64, streams::byte_string),
    bodies("`recode` by 64 bytes", "recode", 64, streams::ascii_text),
    bodies("`recode` by 64 bytes", "recode", 64, streams::multibyte_text),
    quick("`recode` by 4,096 bytes", "recode", streams::byte_string),
    quick("`recode` by 4,096 bytes", "recode", streams::ascii_text),
    bodies("`recode` by 4,096 bytes", "recode", 4096, streams::multibyte_text),
    titles("`skip_bytes` by 64 bytes", "skip", streams::byte_pieces),
    titles("`skip_text` by 64 bytes", "skip", streams::text_pieces),
    quick("`skip_bytes` by 4,096 bytes", "skip", streams::byte_string),
    quick("`skip_text` by 4,096 bytes", "skip", streams::ascii_text),
    bodies("`skip_text` by 4,096 bytes", "skip", 4096, streams::multibyte_text),
    bodies("`Encoder::text`, limit 8", "text", 8, streams::plain_text),
    bodies("`Encoder::text`, limit 64", "text", 64, streams::plain_text),
    bodies("`Encoder::text`, limit 4,096", "text", 4096, streams::plain_text),
    titles("headers pulled", "pull", streams::assigned_titles).beside(Beside::Libcbor),
    titles("`cll_pull` in a loop", "pull", streams::assigned_titles).beside(Beside::LibcborFromC),
    titles("`cll_recode`", "recode", streams::mixed_items).beside(Beside::LibcborFromC),
    titles("`cll_recode`", "recode", streams::nested_items).beside(Beside::LibcborFromC),
    titles("`cll_skip`", "skip", streams::mixed_items).beside(Beside::LibcborFromC),
    titles("`cll_skip`", "skip", streams::nested_items).beside(Beside::LibcborFromC),
    pieces("pieces of 64 bytes fed", 64, streams::mixed_items, Beside::LibcborFromC),
    pieces("pieces of 1,460 bytes fed", 1460, streams::mixed_items, Beside::LibcborFromC),
    pieces("pieces of 65,536 bytes fed", 65536, streams::mixed_items, Beside::LibcborFromC),
    pieces("pieces of 1,460 bytes fed", 1460, streams::nested_items, Beside::LibcborFromC),
    pieces("pieces of 64 bytes fed", 64, streams::mixed_items, Beside::Whole),
    pieces("pieces of 1,460 bytes fed", 1460, streams::mixed_items, Beside::Whole),
    pieces("pieces of 65,536 bytes fed", 65536, streams::mixed_items, Beside::Whole),
    pieces("pieces of 1,460 bytes fed", 1460, streams::nested_items, Beside::Whole),
    copies("pieces of 1,460 bytes copied", "copy", 2, streams::mixed_items),
    copies("pieces of 1,460 bytes copied", "copy", 128, streams::byte_string),
    copies("pieces of 1,460 bytes copied", "copy", 128, streams::ascii_text),
    copies("pieces of 1,460 bytes copied", "copy", 8, streams::multibyte_text),
    copies("pieces of 1,460 bytes copied by items", "each", 2, streams::mixed_items),
    copies("pieces of 1,460 bytes copied by items", "each", 128, streams::byte_string),
    titles("headers pulled", "pull", streams::titles).beside(Beside::Branches),
    quick("`recode` by 4,096 bytes", "recode", streams::byte_string).beside(Beside::Memory),
    bodies("`recode` by 4,096 bytes", "recode", 4096, streams::multibyte_text)
        .beside(Beside::Memory),
    titles("`skip_item` by 64 bytes", "items", streams::mixed_items),
    titles("`skip_item` by 64 bytes", "items", streams::nested_items),
    titles("`skip_item` by 64 bytes", "items", streams::mixed_items).beside(Beside::Flat),
    titles("`skip_item` by 64 bytes", "items", streams::nested_items).beside(Beside::Flat),
    titles("`skip_slice` by 64 bytes", "slice", streams::mixed_item).beside(Beside::Titles),
    titles("`skip_slice` by 64 bytes", "slice", streams::nested_item).beside(Beside::Titles),
    strict("headers pulled, strict", "strict-pull", streams::titles, "pull"),
    strict("`recode` by 64 bytes, strict", "strict-recode", streams::titles, "recode"),
    strict("`recode` by 64 bytes, strict", "strict-recode", streams::mixed, "recode"),
    strict("`recode` by 64 bytes, strict", "strict-recode", streams::pieces, "recode"),
    strict("`recode` by 64 bytes, strict", "strict-recode", streams::byte_string, "recode"),
    strict("`recode` by 64 bytes, strict", "strict-recode", streams::multibyte_text, "recode"),
];

/// Measures all rows, and prints the table.
pub fn measure(asked: &Asked) -> io::Result<()> {
    println!("| work | over | beside | ours, MB/s | other, MB/s | by time | by instructions |");
    println!("|---|---|---|---|---|---|---|");
    ROWS.iter()
        .filter(|row| row.name.contains(asked.rows.as_str()))
        .try_for_each(|row| measure_row(asked, row))
}

/// Measures a row, and prints it.
fn measure_row(asked: &Asked, row: &Row) -> io::Result<()> {
    let stream = (row.stream)(SIZE);
    let input = Input::new(&stream.bytes)?;
    let libcbor = format!("{}/libcbor", asked.peers);
    let (beside, program, work) = match row.beside {
        Beside::Crate => ("the Rust crate", &asked.original, row.work),
        Beside::Libcbor | Beside::LibcborFromC => ("libcbor", &libcbor, row.work),
        Beside::Whole => ("`cll_skip` of the whole", &asked.calls, "whole"),
        Beside::WholeCopy => ("`cll_recode` of the whole", &asked.calls, "recode"),
        Beside::Branches => ("one branch a title", &asked.original, "walk"),
        Beside::Memory => ("a copy of memory", &asked.original, "copy"),
        Beside::Flat => ("a bare loop of `pull`", &asked.bench, "flat"),
        Beside::Titles => ("`skip_item`", &asked.bench, "items"),
        Beside::Plain(work) => ("a decoder not strict", &asked.bench, work),
    };
    let ours = if row.is_from_c() { &asked.calls } else { &asked.bench };
    let sides = [row.work_of(ours, row.work, &stream), row.work_of(program, work, &stream)];
    check(row, &stream, &sides, &input)?;
    let rounds = row.times * asked.megabytes;
    let runs = [sides[0].run(rounds), sides[1].run(rounds)];
    let [ours, others] = best_times(&runs, &input, Origin::File, asked.rounds)?;
    println!(
        "| {} | {} | {beside} | {} | {} | {} | {} |",
        row.name,
        stream.name,
        speed(rounds * stream.bytes.len(), ours),
        speed(rounds * stream.bytes.len(), others),
        ratio(Some(ours), Some(others)),
        ratio(sides[0].instructions(&input)?, sides[1].instructions(&input)?),
    );
    Ok(())
}

/// Measures each work of a row beside the same work by an earlier bench or library for C, and prints their rows.
pub fn measure_earlier(asked: &Asked, bench: &str, calls: &str) -> io::Result<()> {
    let mut seen = Vec::new();
    for row in ROWS.iter().filter(|row| row.name.contains(asked.rows.as_str())) {
        let stream = (row.stream)(SIZE);
        let work = (row.is_from_c(), row.work, row.size, stream.name);
        if seen.contains(&work) {
            continue;
        }
        seen.push(work);
        let programs = if row.is_from_c() { [asked.calls.as_str(), calls] } else { [asked.bench.as_str(), bench] };
        let sides = programs.map(|program| row.work_of(program, row.work, &stream));
        measure_pair(asked, row.name, &sides, &stream)?;
    }
    Ok(())
}

/// Checks that both programs print the same sum, and not 0, which says that the work failed.
fn check(row: &Row, stream: &Stream, sides: &[Work; 2], input: &Input) -> io::Result<()> {
    let sums = [sides[0].run(1).output(input)?, sides[1].run(1).output(input)?];
    if sums[0] == sums[1] && sums[0] != b"0\n" {
        return Ok(());
    }
    let sums = sums.map(|sum| String::from_utf8_lossy(&sum).into_owned());
    let (name, over) = (row.name, stream.name);
    Err(failed(&format!("{name} over {over}: the sums are {sums:?}")))
}
