//! Waves that a rehearsal draws: read as a capture, they are one transaction, which each of those explains who stood on the wire
//! at its end.

use crate::cases::{Asked, Case};
use crate::commands::Command;
use crate::crew::Crew;
use crate::desks::Desk;
use crate::dice::Dice;
use crate::disagreements::{Disagreement, Score};
use crate::generated::made_up_bench;
use crate::plain::Answer;
use crate::plainly::said_plainly;
use crate::seeds::mixed;
use std::io;

const MADE_UP: u64 = 2_000;

/// Draws the rehearsals of the cases, and some that are made up, and reads them back.
pub fn try_waves(crew: &mut Crew, score: &mut Score, cases: &[Case], seed: u64, step: usize) -> io::Result<()> {
    let is_bench = |case: &&Case| matches!(case.asked.command, Command::Bench { .. });
    let mut benches: Vec<Asked> = cases.iter().filter(is_bench).map(|case| case.asked.clone()).collect();
    benches.extend((0..MADE_UP).map(|number| made_up_bench(&mut Dice { state: mixed(!seed, number) })));
    let benches: Vec<Asked> = benches.into_iter().step_by(step).collect();
    let tried = crew.each(&benches, |desk, asked| read_back(desk, asked))?;
    let drawn: Vec<Option<Disagreement>> = tried.into_iter().flatten().collect();
    println!("waves that are read back: {}", drawn.len());
    score.count(&drawn);
    Ok(())
}

// Where the waves are not what the rehearsal was; and nothing at all where nothing was rehearsed.
fn read_back(desk: &mut Desk, asked: &Asked) -> io::Result<Option<Option<Disagreement>>> {
    let (report, wave) = desk.draw(asked)?;
    let Some(won) = report.out.split_once("\nwon ").map(|(_, won)| won.trim()) else {
        return Ok(None);
    };
    let command = Command::Capture { scl: "scl".to_owned(), sda: "sda".to_owned() };
    let capture = Asked { command, second: wave.clone(), ..asked.clone() };
    let found = desk.answer(&capture)?;
    let plain = said_plainly(&capture);
    let fault = (!is_of(&found, won)).then_some("it is not one transaction of those who won");
    let case = Case {
        name: format!("{:?}", asked.command),
        asked: capture,
        wanted: plain.clone(),
        hints: None,
        is_thorough: false,
    };
    Ok(Some(Disagreement::of(&case, "waves that are read back", plain, &found, fault)))
}

// Whether a report tells of one transaction, from the START on that every wave has, which these explain.
fn is_of(report: &Answer, won: &str) -> bool {
    let Some((line, rest)) = report.out.split_once('\n') else {
        return false;
    };
    let explained: Vec<&str> = line.split(' ').skip(1).collect();
    report.status == 0
        && line.starts_with("10-")
        && rest == "1 transactions, 0 unexplained\n"
        && won.split(' ').all(|label| explained.contains(&label))
}
