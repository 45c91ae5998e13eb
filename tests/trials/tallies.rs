//! How often each kind of answer came up.

use crate::cases::Asked;
use crate::commands::Command;
use crate::plain::Answer;
use std::collections::BTreeMap;

// Each of these is to come up among the changed cases.
const WANTED: [&str; 55] = [
    "check 0",
    "check 1",
    "check P1",
    "check P2",
    "check P3",
    "check P4",
    "check P5",
    "check P6",
    "check P7",
    "check P8",
    "expand 0",
    "expand P1",
    "expand P2",
    "expand P3",
    "expand P4",
    "expand P5",
    "expand P7",
    "expand P8",
    "brief 0",
    "brief brief",
    "brief P3",
    "brief P8",
    "order 0",
    "order 1",
    "certify 0",
    "certify 1",
    "verify safe",
    "verify unsafe",
    "verify C1",
    "verify C2",
    "verify C3",
    "verify C5",
    "capture 0",
    "capture 1",
    "capture V1",
    "capture V2",
    "capture V3",
    "capture V4",
    "bench P3",
    "bench P8",
    "bench unsafe",
    "bench C1",
    "bench C2",
    "bench C5",
    "bench B1",
    "bench B2",
    "bench B3",
    "bench B8",
    "bench stop, 1 of 1",
    "bench stop, 1 of 2",
    "bench stop, 2 of 2",
    "bench stop, 1 of 3",
    "bench stop, 2 of 3",
    "bench claim, 1 of 1",
    "bench claim, 1 of 2",
];

const LEAST: usize = 5;

/// The kinds of answers that came up, and how often each did.
#[derive(Debug, Default)]
pub struct Tallies {
    kinds: BTreeMap<String, usize>,
}

impl Tallies {
    pub fn count(&mut self, kind: String) {
        *self.kinds.entry(kind).or_default() += 1;
    }

    pub fn print(&self) {
        for (kind, count) in &self.kinds {
            println!("{count} {kind}");
        }
    }

    /// The kinds of which too few of the changed cases were, with how many there were.
    pub fn rare(&self) -> Vec<(&'static str, usize)> {
        self.rare_of(&WANTED)
    }

    /// Those of these of which there were too few.
    pub fn rare_of(&self, wanted: &[&'static str]) -> Vec<(&'static str, usize)> {
        let found = |kind: &&'static str| (*kind, self.kinds.get(*kind).copied().unwrap_or(0));
        wanted.iter().map(found).filter(|(_, count)| *count < LEAST).collect()
    }
}

/// The command with the code of a refusal, the word that verify says, how a bench ended, or the status.
pub fn kind_of(asked: &Asked, answer: &Answer) -> String {
    let name = asked.command.name();
    if let Some(code) = answer.refusal.split(' ').next().filter(|code| !code.is_empty()) {
        return format!("{name} {code}");
    }
    let second = answer.out.trim().split(' ').nth(1);
    match (&asked.command, second) {
        (Command::Bench { starters, .. }, _) if answer.status == 0 => {
            format!("{name} {}", end_of(&answer.out, starters))
        }
        (Command::Verify | Command::Bench { .. }, Some(word)) => format!("{name} {word}"),
        _ => format!("{name} {}", answer.status),
    }
}

// What ended a bench that was played, and how many of its starters won.
fn end_of(report: &str, starters: &str) -> String {
    let (wire, won) = report.trim().split_once('\n').unwrap_or((report, ""));
    let end = if wire.ends_with('c') { "claim" } else { "stop" };
    let won = won.split(' ').count() - 1;
    format!("{end}, {won} of {}", starters.split(',').count())
}
