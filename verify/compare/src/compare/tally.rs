//! Counts of the comparisons, and the report.

use crate::rules::{Rule, Verdict};
use std::collections::BTreeMap;

/// The report prints at most this many differences that no rule explains.
const MOST_PRINTED: usize = 10;

/// The greatest length at which an input or an answer is printed.
const MOST_LENGTH: usize = 300;

/// The counts of one kind of input.
#[derive(Default)]
struct Counts {
    compared: u64,
    by_rule: BTreeMap<Rule, u64>,
    unexplained: u64,
}

/// A difference: the input and what each side answered.
pub struct Difference {
    /// The input, as it is printed.
    pub input: String,
    /// Our answer.
    pub ours: String,
    /// The original's answer.
    pub theirs: String,
}

impl Difference {
    /// Prints the difference.
    fn print(&self) {
        println!("  {}", shortened(&self.input));
        println!("    ours:     {}", shortened(&self.ours));
        println!("    original: {}", shortened(&self.theirs));
    }
}

/// Returns the text on one line, and not too long.
fn shortened(text: &str) -> String {
    let line = text.trim_end().replace('\n', " / ");
    match line.char_indices().nth(MOST_LENGTH) {
        Some((end, _)) => format!("{}..", &line[..end]),
        None => line,
    }
}

/// All counts, and the smallest differences.
#[derive(Default)]
pub struct Tally {
    kinds: BTreeMap<&'static str, Counts>,
    smallest: BTreeMap<Rule, Difference>,
    unexplained: Vec<Difference>,
}

impl Tally {
    /// Counts two answers of this kind that are the same.
    pub fn add_equal(&mut self, kind: &'static str) {
        self.kinds.entry(kind).or_default().compared += 1;
    }

    /// Counts a verdict on an input of this kind.
    pub fn add(&mut self, kind: &'static str, verdict: Verdict, difference: Difference) {
        let counts = self.kinds.entry(kind).or_default();
        counts.compared += 1;
        match verdict {
            Verdict::Equal => {}
            Verdict::Explained(rules) => {
                for rule in rules {
                    *counts.by_rule.entry(*rule).or_default() += 1;
                }
                if let [rule] = rules {
                    self.keep_smallest(*rule, difference);
                }
            }
            Verdict::Unexplained => {
                counts.unexplained += 1;
                self.keep_unexplained(difference);
            }
        }
    }

    /// Keeps the smallest difference that a rule explains alone.
    fn keep_smallest(&mut self, rule: Rule, difference: Difference) {
        match self.smallest.get(&rule) {
            Some(kept) if kept.input.len() <= difference.input.len() => {}
            _ => {
                self.smallest.insert(rule, difference);
            }
        }
    }

    /// Keeps a few of the smallest differences that no rule explains.
    fn keep_unexplained(&mut self, difference: Difference) {
        self.unexplained.push(difference);
        self.unexplained.sort_by_key(|kept| kept.input.len());
        self.unexplained.truncate(MOST_PRINTED);
    }

    /// Returns how many answers were compared.
    pub fn compared(&self) -> u64 {
        self.kinds.values().map(|counts| counts.compared).sum()
    }

    /// Returns how many differences no rule explains.
    pub fn unexplained(&self) -> u64 {
        self.kinds.values().map(|counts| counts.unexplained).sum()
    }

    /// Prints the counts by kind and rule, and the smallest differences.
    pub fn print(&self) {
        print!("{:<28}{:>12}", "kind", "compared");
        for rule in Rule::ALL {
            print!("{:>14}", rule.name());
        }
        println!("{:>14}", "unexplained");
        for (kind, counts) in &self.kinds {
            print!("{:<28}{:>12}", kind, counts.compared);
            for rule in Rule::ALL {
                print!("{:>14}", counts.by_rule.get(&rule).copied().unwrap_or(0));
            }
            println!("{:>14}", counts.unexplained);
        }
        for (rule, difference) in &self.smallest {
            println!("the smallest input of {}:", rule.name());
            difference.print();
        }
        if !self.unexplained.is_empty() {
            println!("differences that no rule explains:");
            self.unexplained.iter().for_each(Difference::print);
        }
    }
}
