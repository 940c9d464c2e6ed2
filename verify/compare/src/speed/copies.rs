//! The raw copies of whole programs.

use crate::measure::{best_times, ratio, speed, Input, Origin, Run};
use crate::streams::{self, Stream};
use crate::Asked;
use compare::command::failed;
use std::io;

/// The streams whose instructions are counted are this many times shorter.
const SHORTER: usize = 32;

/// Measures the copies of all streams, and prints the table.
pub fn measure(asked: &Asked) -> io::Result<()> {
    println!("| stream | from | ours, MB/s | original, MB/s | by time | by instructions |");
    println!("|---|---|---|---|---|---|");
    let size = asked.megabytes << 20;
    let shorter = streams::all(size / SHORTER);
    for (stream, short) in streams::all(size).iter().zip(&shorter) {
        let counted = counted(&copiers(&asked.ours, &asked.original, short), short)?;
        let input = Input::new(&stream.bytes)?;
        let sides = copiers(&asked.ours, &asked.original, stream);
        check(&sides, stream, &input)?;
        for (name, origin) in [("a file", Origin::File), ("a pipe", Origin::Pipe)] {
            let [ours, original] = best_times(&sides, &input, origin, asked.rounds)?;
            println!(
                "| {} | {name} | {} | {} | {} | {counted} |",
                stream.name,
                speed(stream.bytes.len(), ours),
                speed(stream.bytes.len(), original),
                ratio(Some(ours), Some(original)),
            );
        }
    }
    Ok(())
}

/// Measures the copies of all streams from a file beside those of an earlier program, and prints their rows.
pub fn measure_earlier(asked: &Asked, program: &str) -> io::Result<()> {
    let size = asked.megabytes << 20;
    let shorter = streams::all(size / SHORTER);
    for (stream, short) in streams::all(size).iter().zip(&shorter) {
        let counted = counted(&copiers(&asked.ours, program, short), short)?;
        let input = Input::new(&stream.bytes)?;
        let sides = copiers(&asked.ours, program, stream);
        check(&sides, stream, &input)?;
        let [ours, earlier] = best_times(&sides, &input, Origin::File, asked.rounds)?;
        let speed = speed(stream.bytes.len(), ours);
        let by_time = ratio(Some(ours), Some(earlier));
        println!("| the program copies a file | {} | {speed} | {by_time} | {counted} |", stream.name);
    }
    Ok(())
}

/// Our program and another one, as they copy this stream.
fn copiers<'a>(ours: &'a str, other: &'a str, stream: &Stream) -> [Run<'a>; 2] {
    [ours, other].map(|program| Run {
        program,
        arguments: vec!["recode".to_string(), stream.count.to_string()],
    })
}

/// Checks that both sides copy the stream as it is: it is in its shortest spelling.
fn check(sides: &[Run; 2], stream: &Stream, input: &Input) -> io::Result<()> {
    for side in sides {
        if side.output(input)? != stream.bytes {
            return Err(failed(&format!("{} does not copy {}", side.program, stream.name)));
        }
    }
    Ok(())
}

/// Returns the ratio of the instructions for this stream.
fn counted([ours, other]: &[Run; 2], stream: &Stream) -> io::Result<String> {
    let input = Input::new(&stream.bytes)?;
    Ok(ratio(ours.instructions(&input)?, other.instructions(&input)?))
}
