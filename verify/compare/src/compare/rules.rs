//! The known differences, each with a rule that says when it explains two answers.

use crate::model::Ways;
use std::borrow::Borrow;

/// A known difference.
#[derive(Clone, Copy, Debug, PartialEq, Eq, PartialOrd, Ord)]
pub enum Rule {
    /// The crate's floats are doubles, written in the narrowest width. Ours keep their width and bits.
    FloatWidth,
    /// In the crate's version 0.2.0 a chunk's end may cut a character. Its bytes stay kept, although the next chunk
    /// handed them out. They are then put before the bytes that follow, or are a fault at the end.
    StaleText,
    /// The crate's copy of raw bytes writes a chunk after all of its bytes came, and looks at a title after all of the
    /// title came. Ours writes and judges each byte as it comes.
    WholeChunks,
}

impl Rule {
    /// Returns the rule's name in the report.
    pub fn name(self) -> &'static str {
        match self {
            Rule::FloatWidth => "float-width",
            Rule::StaleText => "stale-text",
            Rule::WholeChunks => "whole-chunks",
        }
    }

    /// All rules.
    pub const ALL: [Rule; 3] = [Rule::FloatWidth, Rule::StaleText, Rule::WholeChunks];
}

/// The sets of rules that are tried, smaller ones first.
const SETS: [&[Rule]; 7] = [
    &[Rule::FloatWidth],
    &[Rule::StaleText],
    &[Rule::WholeChunks],
    &[Rule::FloatWidth, Rule::StaleText],
    &[Rule::FloatWidth, Rule::WholeChunks],
    &[Rule::StaleText, Rule::WholeChunks],
    &[Rule::FloatWidth, Rule::StaleText, Rule::WholeChunks],
];

/// The verdict on two answers to the same input.
#[derive(Clone, Copy, Debug, PartialEq)]
pub enum Verdict {
    /// They are the same.
    Equal,
    /// They are exactly the answers that these rules give for the input.
    Explained(&'static [Rule]),
    /// No rule gives them, or ours is not the answer that the input gives.
    Unexplained,
}

/// Judges two answers. `predict` tells the answer that the input gives with some of the original's ways, if that is
/// known.
///
/// Ours has to be the answer that the input gives without any of these ways, also if both answers are the same. Rules
/// explain a difference only if the original's answer is the one that the input gives with exactly their ways.
pub fn judge<T, P>(ours: &T, theirs: &T, predict: impl Fn(Ways) -> Option<P>) -> Verdict
where
    T: PartialEq + ?Sized,
    P: Borrow<T>,
{
    match predict(Ways::default()) {
        Some(predicted) if predicted.borrow() != ours => return Verdict::Unexplained,
        _ if ours == theirs => return Verdict::Equal,
        _ => {}
    }
    for rules in SETS {
        match predict(ways_of(rules)) {
            Some(predicted) if predicted.borrow() == theirs => return Verdict::Explained(rules),
            _ => {}
        }
    }
    Verdict::Unexplained
}

/// Returns the ways of the original that these rules stand for.
fn ways_of(rules: &[Rule]) -> Ways {
    Ways {
        narrows_floats: rules.contains(&Rule::FloatWidth),
        keeps_stale_bytes: rules.contains(&Rule::StaleText),
        waits_for_chunks: rules.contains(&Rule::WholeChunks),
    }
}
