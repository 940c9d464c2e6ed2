//! Measures how fast this repository's program and library are beside others, and prints three tables. Or it measures
//! them beside those of an earlier commit, and prints one.
//!
//! The programs run by turns, and the least user time of several rounds counts for each.

mod copies;
mod earlier;
mod library;
mod measure;
mod peers;
mod streams;
mod work;

use compare::command::status_of;
use std::io;
use std::process::ExitCode;

/// How the program is used.
const USAGE: &str =
    "OURS FILES BENCH ORIGINAL CALLS PEERS [--megabytes N] [--rounds N] [--copies] [--library] [--peers] [--rows TEXT]
             [--earlier FOLDER]";

/// A table.
#[derive(Clone, Copy, PartialEq)]
enum Table {
    Copies,
    Library,
    Peers,
}

/// What the arguments ask for.
struct Asked {
    ours: String,
    /// The program that looks at files.
    files: String,
    bench: String,
    original: String,
    calls: String,
    /// The folder of the programs of others.
    peers: String,
    megabytes: usize,
    rounds: usize,
    /// The tables that are asked for, or none if all are.
    tables: Vec<Table>,
    /// The text that the name of each row of the second and the third table has.
    rows: String,
    /// The folder of our programs of an earlier commit, if they are measured, and nothing else.
    earlier: Option<String>,
}

/// Reads the words after the program's name.
fn asked(mut words: impl Iterator<Item = String>) -> Option<Asked> {
    let mut asked = Asked {
        ours: words.next()?,
        files: words.next()?,
        bench: words.next()?,
        original: words.next()?,
        calls: words.next()?,
        peers: words.next()?,
        megabytes: 32,
        rounds: 7,
        tables: Vec::new(),
        rows: String::new(),
        earlier: None,
    };
    while let Some(word) = words.next() {
        match word.as_str() {
            "--megabytes" => asked.megabytes = words.next()?.parse().ok()?,
            "--rounds" => asked.rounds = words.next()?.parse().ok()?,
            "--copies" => asked.tables.push(Table::Copies),
            "--library" => asked.tables.push(Table::Library),
            "--peers" => asked.tables.push(Table::Peers),
            "--rows" => asked.rows = words.next()?,
            "--earlier" => asked.earlier = Some(words.next()?),
            _ => return None,
        }
    }
    Some(asked).filter(|asked| asked.megabytes > 0 && asked.rounds > 0)
}

fn main() -> ExitCode {
    let asked = asked(std::env::args().skip(1));
    status_of("speed", USAGE, asked, |asked| measure_all(asked).map(|()| true))
}

/// Prints the tables that were asked for, with an empty line between them.
fn measure_all(asked: &Asked) -> io::Result<()> {
    if let Some(folder) = &asked.earlier {
        return earlier::measure(asked, folder);
    }
    let all = [Table::Copies, Table::Library, Table::Peers];
    let is_asked = |table: &Table| asked.tables.is_empty() || asked.tables.contains(table);
    for (place, table) in all.into_iter().filter(is_asked).enumerate() {
        if place > 0 {
            println!();
        }
        match table {
            Table::Copies => copies::measure(asked)?,
            Table::Library => library::measure(asked)?,
            Table::Peers => peers::measure(asked)?,
        }
    }
    Ok(())
}
