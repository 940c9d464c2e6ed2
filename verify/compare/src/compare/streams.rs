//! Raw streams that both sides copy.

use crate::items;
use crate::model::{self, Fault, Ways};
use crate::rules::judge;
use crate::sides::{Outcome, Sides};
use crate::tally::{Difference, Tally};
use compare::random::Random;
use compare::word::word_of;
use std::io;

/// Compares `count` copies of random streams: the statuses, the bytes written, and the messages on a fault.
pub fn compare(
    sides: &Sides,
    tally: &mut Tally,
    random: &mut Random,
    count: usize,
) -> io::Result<()> {
    for _ in 0..count {
        let (elements, stream) = stream(random);
        let (ours, theirs) = sides.run(&["recode", &elements.to_string()], &stream)?;
        let verdict = judge(&ours, &theirs, |ways| {
            Some(predicted(elements, &stream, ways))
        });
        let difference = Difference {
            input: format!("raw recode {elements} {}", word_of(&stream)),
            ours: told(&ours),
            theirs: told(&theirs),
        };
        tally.add("raw streams", verdict, difference);
    }
    Ok(())
}

/// Returns a random stream, and how many elements of it are copied.
fn stream(random: &mut Random) -> (usize, Vec<u8>) {
    let items = 1 << random.below(12);
    let mut stream = Vec::new();
    for _ in 0..items {
        items::item(random, 0, &mut stream);
    }
    if random.one_in(8) {
        // One body that is longer than all buffers.
        let text = items::text(random, 200_000);
        stream.extend([0x7a, 0, 3, 13, 64]);
        stream.extend_from_slice(&text.as_bytes()[..200_000]);
    }
    items::damage_some(random, &mut stream);
    let elements = match random.below(4) {
        0 => random.below(3),
        1 => items,
        2 => random.below(3 * items),
        _ => 4_294_967_295,
    };
    (elements, stream)
}

/// Returns the end of a copy, by a plain reading of the stream.
fn predicted(elements: usize, stream: &[u8], ways: Ways) -> Outcome {
    let (output, outcome) = model::copy(elements, stream, ways);
    let (status, errors) = match outcome {
        Ok(_) => (0, String::new()),
        Err(Fault::Syntax(place)) => (1, format!("syntax {place}\n")),
        Err(Fault::Short(_) | Fault::Stuck) => (1, "read\n".to_string()),
    };
    Outcome {
        status: Some(status),
        output,
        errors: errors.into_bytes(),
    }
}

/// Returns an outcome as it is printed.
fn told(outcome: &Outcome) -> String {
    let errors = String::from_utf8_lossy(&outcome.errors);
    let length = outcome.output.len();
    let last = &outcome.output[length.saturating_sub(32)..];
    format!(
        "status {:?}, {length} bytes, the last {}, {errors}",
        outcome.status,
        word_of(last)
    )
}
