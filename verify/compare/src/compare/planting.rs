//! The comparison tried on answers that are damaged: each damage has to be found.

use crate::batch::{joined, judge_line};
use crate::parting::part;
use crate::rules::Verdict;
use crate::sides::Sides;
use crate::vectors;
use compare::random::Random;
use std::io;

/// How many damaged answers were judged, and how many of them passed as right.
#[derive(Default)]
pub struct Planted {
    /// How many answers were damaged.
    pub damaged: u64,
    /// How many damaged answers were equal or explained.
    pub missed: u64,
}

/// Damages our answers one after the other, each in one byte, and judges each beside the original's.
pub fn plant(sides: &Sides, random: &mut Random) -> io::Result<Planted> {
    let mut planted = Planted::default();
    for (_, lines) in vectors::lines() {
        let (ours, theirs) = sides.run(&[], &joined(&lines))?;
        let parted = part(&lines, &ours.output).zip(part(&lines, &theirs.output));
        let (ours, theirs) = parted.ok_or_else(|| {
            io::Error::new(io::ErrorKind::InvalidData, "answers that can't be parted")
        })?;
        for ((line, ours), theirs) in lines.iter().zip(ours).zip(theirs) {
            let mut damaged = ours.to_vec();
            let place = random.below(damaged.len());
            damaged[place] ^= 1 << random.below(7);
            planted.damaged += 1;
            if judge_line(line, &damaged, theirs) != Verdict::Unexplained {
                println!("not found: {}", String::from_utf8_lossy(line));
                planted.missed += 1;
            }
        }
    }
    Ok(planted)
}
