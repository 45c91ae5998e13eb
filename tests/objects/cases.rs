//! Runs the commands of tests/cases with objects and hints, and with what `--explain` says too, over their files in the folder
//! in which it stands: `cases TWIRE CASES_FOLDER`. What they answer is compared by tests/trials.sh; here nothing is. tests/schema.sh
//! builds it and uses it.
#![allow(dead_code, unused_imports)]

#[path = "../trials/blocks.rs"]
mod blocks;
#[path = "../trials/cases.rs"]
mod cases;
#[path = "../trials/commands.rs"]
mod commands;
#[path = "../trials/deeds.rs"]
mod deeds;
#[path = "../trials/dice.rs"]
mod dice;
#[path = "../trials/plain/mod.rs"]
mod plain;
#[path = "../trials/texts.rs"]
mod texts;
#[path = "../trials/unreadable.rs"]
mod unreadable;

use cases::{read_cases, Asked, FILES, FURTHER, NAMES};
use commands::Command as Asks;
use deeds::{line_of, Deed};
use std::error::Error;
use std::fs;
use std::io;
use std::path::Path;
use std::process::{Command, Stdio};

fn main() -> Result<(), Box<dyn Error>> {
    let words: Vec<String> = std::env::args().skip(1).collect();
    let [twire, folder] = words.as_slice() else {
        return Err("usage: cases TWIRE CASES_FOLDER".into());
    };
    let mut runs = 0;
    for file in FILES {
        for case in read_cases(Path::new(folder), file)? {
            runs += run_case(twire, &case.asked)?;
        }
    }
    println!("{runs}");
    Ok(())
}

// Answers how many runs it made.
fn run_case(twire: &str, asked: &Asked) -> io::Result<usize> {
    if matches!(asked.command, Asks::Seats { .. }) {
        return Ok(0);
    }
    let further = FURTHER.iter().zip(&asked.further);
    let files = NAMES.iter().zip([&asked.first, &asked.second]).chain(further);
    for (name, text) in files {
        fs::write(name, text)?;
    }
    run(twire, asked, false)?;
    let takes_explain = matches!(
        asked.command,
        Asks::Check { .. } | Asks::Verify | Asks::Order | Asks::Capture { .. } | Asks::Bench { .. }
    );
    if takes_explain {
        run(twire, asked, true)?;
    }
    Ok(1 + usize::from(takes_explain))
}

fn run(twire: &str, asked: &Asked, explain: bool) -> io::Result<()> {
    let line = line_of(Deed::Objects { hints: true, explain }, asked);
    let mut command = Command::new(twire);
    command.args(&line.before).args(&line.files).args(&line.after);
    command.stdin(Stdio::null()).stdout(Stdio::null()).stderr(Stdio::null()).status().map(|_| ())
}
