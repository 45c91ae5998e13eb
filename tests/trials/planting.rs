//! Boards in which several slips are planted: each is told once, at its token, and nothing else. The first one is the answer.

use crate::cases::{Asked, Case, FURTHER, NAMES};
use crate::changed::{readable, Lot};
use crate::commands::Command;
use crate::crew::Crew;
use crate::deeds::{line_of, Deed};
use crate::desks::Desk;
use crate::dice::Dice;
use crate::disagreements::{Disagreement, Score};
use crate::json::{read, Value};
use crate::plain::Answer;
use crate::plainly::said_plainly;
use crate::planted::{planted_board, Planted, Slip};
use crate::seeds::mixed;
use crate::setups::Setup;
use std::io;

// So many refusals are told.
const MOST: usize = 20;

/// Tries so many boards.
pub fn try_planted(crew: &mut Crew, score: &mut Score, lot: Lot) -> io::Result<()> {
    let numbers: Vec<u64> = (0..lot.number).collect();
    let tried = crew.each(&numbers, |desk, number| {
        let mut dice = Dice { state: mixed(lot.seed.rotate_left(8), *number) };
        try_board(desk, *number, planted_board(&mut dice))
    })?;
    let before = score.wrong;
    let slips: usize = tried.iter().map(|(slips, _)| slips).sum();
    for (_, disagreement) in tried {
        score.count(&[disagreement]);
    }
    println!("{} boards with {slips} slips, {} disagreements", lot.number, score.wrong - before);
    Ok(())
}

// How many slips it has, and what is told otherwise.
fn try_board(desk: &mut Desk, number: u64, board: Planted) -> io::Result<(usize, Option<Disagreement>)> {
    let Planted { briefs, mut slips } = board;
    slips.truncate(MOST);
    let asked = Asked::of_briefs(Command::Check { workers: 1 }, briefs);
    let wanted = wanted_of(&asked, &slips);
    let deed = Deed::Objects { hints: false, explain: false };
    let _ = desk.run(Deed::Command, &asked, &Setup::WHOLE)?;
    let said = desk.run_line(&line_of(deed, &asked), &Setup::WHOLE)?.answer;
    let found = found_in(&asked, said);
    let case = Case {
        name: shown(number, &asked),
        asked: asked.clone(),
        wanted: wanted.clone(),
        hints: None,
        is_thorough: false,
    };
    Ok((slips.len(), Disagreement::of(&case, "several slips", wanted, &found, None)))
}

// A line for each slip. That the plain programs answer the first one is the refusal.
fn wanted_of(asked: &Asked, slips: &[Slip]) -> Answer {
    let plain = said_plainly(&Asked { command: Command::Expand, ..asked.clone() });
    let mut out: Vec<String> = Vec::new();
    for (k, Slip { code, file, byte }) in slips.iter().enumerate() {
        let further = if k == 0 { "" } else { " further" };
        out.push(format!("{code} at {byte} of {}, line {}{further}\n", name_of(*file), line_at(asked, *file, *byte)));
    }
    let refusal = slips.first().map_or_else(String::new, |Slip { code, file, byte }| {
        let of = if asked.further.is_empty() { String::new() } else { format!(" of {}", name_of(*file)) };
        format!("{code} line {}{of}", line_at(asked, *file, *byte))
    });
    let agrees = if plain.refusal == refusal { "" } else { "the plain programs say otherwise: " };
    let status = if slips.is_empty() { 0 } else { 2 };
    Answer { status, out: out.concat(), refusal: if agrees.is_empty() { refusal } else { plain.refusal } }
}

fn name_of(file: usize) -> &'static str {
    file.checked_sub(1).map_or(NAMES[0], |file| FURTHER[file])
}

fn line_at(asked: &Asked, file: usize, byte: usize) -> usize {
    let files = asked.briefs();
    1 + files[file].text[..byte].iter().filter(|byte| **byte == b'\n').count()
}

// The same of what twire tells, object by object.
fn found_in(asked: &Asked, said: Answer) -> Answer {
    if said.status == 0 {
        return Answer { status: 0, out: String::new(), refusal: String::new() };
    }
    let objects = said.refusal.strip_prefix("on standard error: ").unwrap_or(&said.refusal);
    let mut out = String::new();
    let mut refusal = None;
    for object in objects.lines() {
        match told(asked, object) {
            Some((line, first)) => {
                out.push_str(&line);
                refusal.get_or_insert(first);
            }
            None => out.push_str(object),
        }
    }
    Answer { status: said.status, out: out + &said.out, refusal: refusal.unwrap_or_default() }
}

fn told(asked: &Asked, object: &str) -> Option<(String, String)> {
    let Value::Object(members) = read(object).ok()? else {
        return None;
    };
    let text = |name: &str| {
        members.iter().find(|(key, _)| key == name).map(|(_, value)| match value {
            Value::Text(text) | Value::Number(text) => text.clone(),
            Value::Bool(true) => " further".to_owned(),
            _ => "?".to_owned(),
        })
    };
    if text("kind")? != "refusal" {
        return None;
    }
    let (code, line, byte) = (text("code")?, text("line")?, text("byte")?);
    let of = text("file");
    let file = of.clone().unwrap_or_else(|| NAMES[0].to_owned());
    if of.is_some() == asked.further.is_empty() {
        return None;
    }
    let further = text("further").unwrap_or_default();
    let of = of.map_or_else(String::new, |file| format!(" of {file}"));
    Some((format!("{code} at {byte} of {file}, line {line}{further}\n"), format!("{code} line {line}{of}")))
}

fn shown(number: u64, asked: &Asked) -> String {
    let files = asked.briefs();
    let files = files.iter().map(|file| format!("\n-- {}\n{}", file.name, readable(file.text)));
    format!("board {number}{}", files.collect::<String>())
}
