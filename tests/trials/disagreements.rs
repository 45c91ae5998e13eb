//! What is shown where a run did not end as is due.

use crate::cases::Case;
use crate::plain::Answer;
use std::fmt;

/// A run that did not end as is due.
#[derive(Clone, Debug)]
pub struct Disagreement {
    pub name: String,
    pub way: String,
    pub fault: Option<&'static str>,
    pub wanted: Answer,
    pub found: Answer,
}

impl Disagreement {
    /// The disagreement of a case, where there is one: another answer than is wanted, or something else that is wrong.
    pub fn of(
        case: &Case,
        way: &str,
        wanted: Answer,
        found: &Answer,
        fault: Option<&'static str>,
    ) -> Option<Disagreement> {
        if fault.is_none() && wanted == *found {
            return None;
        }
        let (name, way, found) = (case.name.clone(), way.to_owned(), found.clone());
        Some(Disagreement { name, way, fault, wanted, found })
    }
}

impl fmt::Display for Disagreement {
    fn fmt(&self, formatter: &mut fmt::Formatter<'_>) -> fmt::Result {
        writeln!(formatter, "FAILED: {}: {}", self.way, self.name)?;
        if let Some(fault) = self.fault {
            writeln!(formatter, "-- {fault}")?;
        }
        show(formatter, "wanted", &self.wanted)?;
        show(formatter, "found", &self.found)
    }
}

// How much of an answer is shown.
const MOST_CHARS: usize = 2_000;

fn show(formatter: &mut fmt::Formatter<'_>, what: &str, answer: &Answer) -> fmt::Result {
    let Answer { status, out, refusal } = answer;
    let shown: String = out.chars().take(MOST_CHARS).collect();
    let rest = if shown.len() < out.len() { ".." } else { "" };
    writeln!(formatter, "-- {what}: status {status} {refusal}\n{shown}{rest}")
}

// How many disagreements are shown.
const SHOWN: usize = 5;

/// The runs so far, and those that did not end as is due.
#[derive(Debug, Default)]
pub struct Score {
    pub runs: usize,
    pub wrong: usize,
}

impl Score {
    /// Counts these runs, and shows the first that went wrong.
    pub fn count(&mut self, runs: &[Option<Disagreement>]) {
        self.runs += runs.len();
        for disagreement in runs.iter().flatten() {
            if self.wrong < SHOWN {
                print!("{disagreement}");
            }
            self.wrong += 1;
        }
    }

    /// Counts something else that is wrong, and says what.
    pub fn fail(&mut self, why: &str) {
        println!("FAILED: {why}");
        self.wrong += 1;
    }
}
