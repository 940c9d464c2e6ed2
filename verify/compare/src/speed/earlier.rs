//! Measures our programs beside those of an earlier commit, which are in a folder.

use crate::measure::{best_times, ratio, speed, Input, Origin, Run};
use crate::streams::{self, Stream};
use crate::work::{Turns, Work};
use crate::{copies, library, peers, Asked};
use std::io;
use std::path::Path;

/// Streams whose instructions are counted have this many bytes.
const COUNTED: usize = 1 << 20;

/// Looks at files: what the row says, the word of the program, and what the file has.
const LOOKS: &[(&str, &str, fn(usize) -> Stream)] = &[
    ("the program checks a file", "check", streams::mixed_items),
    ("the program checks a file", "check", streams::mixed_item),
    ("the program checks a file", "check", streams::short_texts),
    ("the program dumps a file", "dump", streams::mixed_items),
    ("the program shows notation", "diag", streams::mixed_items),
];

/// Measures the work of each row of the other tables, and looks at files, and prints the table.
pub fn measure(asked: &Asked, folder: &str) -> io::Result<()> {
    let path = |name: &str| Path::new(folder).join(name).to_string_lossy().into_owned();
    let [ours, files, bench, calls] = ["ours", "files", "bench", "calls"].map(path);
    println!("| work | over | MB/s | by time | by instructions |");
    println!("|---|---|---|---|---|");
    if asked.rows.is_empty() {
        copies::measure_earlier(asked, &ours)?;
    }
    for (name, word, stream) in LOOKS.iter().filter(|(name, ..)| name.contains(asked.rows.as_str())) {
        measure_look(asked, name, [&asked.files, &files], word, *stream)?;
    }
    library::measure_earlier(asked, &bench, &calls)?;
    peers::measure_earlier(asked, &calls)
}

/// Measures a look at a file by two programs, and prints its row.
fn measure_look(
    asked: &Asked,
    name: &str,
    programs: [&str; 2],
    word: &str,
    stream: fn(usize) -> Stream,
) -> io::Result<()> {
    let sides = programs.map(|program| Run { program, arguments: vec![word.to_string()] });
    let short = stream(COUNTED);
    let input = Input::new(&short.bytes)?;
    let counts = [sides[0].instructions(&input)?, sides[1].instructions(&input)?];
    drop(input);
    let long = stream(asked.megabytes << 20);
    let input = Input::new(&long.bytes)?;
    let [now, then] = best_times(&sides, &input, Origin::File, asked.rounds)?;
    let speed = speed(long.bytes.len(), now);
    let ratios = [ratio(Some(now), Some(then)), ratio(counts[0], counts[1])];
    println!("| {name} | {} | {speed} | {} |", long.name, ratios.join(" | "));
    Ok(())
}

/// Measures a work of ours beside that of an earlier program, and prints its row. If the sums are not the same, or the
/// earlier program does not know the work, the row has no ratios.
pub fn measure_pair(asked: &Asked, name: &str, [ours, earlier]: &[Work; 2], stream: &Stream) -> io::Result<()> {
    let input = Input::new(&stream.bytes)?;
    let turns = Turns::native(asked.rounds);
    let now = ours.taken(turns, &input, true)?;
    let sum = ours.sum(&input);
    let ratios = if sum.is_some() && sum == earlier.sum(&input) {
        let then = earlier.taken(turns, &input, true)?;
        [ratio(Some(now.seconds), Some(then.seconds)), ratio(now.instructions, then.instructions)]
    } else {
        ["-".to_string(), "-".to_string()]
    };
    let speed = speed(stream.bytes.len(), now.seconds);
    println!("| {name} | {} | {speed} | {} |", stream.name, ratios.join(" | "));
    Ok(())
}
