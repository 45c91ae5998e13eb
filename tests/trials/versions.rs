//! Boards of the second version of briefs: what twire says of those that are made up, and the plain programs.

use crate::boards::{made_up_board, Board};
use crate::cases::{Asked, Case};
use crate::changed::{readable, Lot};
use crate::commands::Command;
use crate::crew::Crew;
use crate::desks::Desk;
use crate::dice::Dice;
use crate::disagreements::{Disagreement, Score};
use crate::plainly::said_plainly;
use crate::seeds::mixed;
use crate::slips::SLIPS;
use crate::tallies::{kind_of, Tallies};
use std::io;

// Where there are so many boards, each slip is to be told.
const ENOUGH: u64 = 5_000;

/// Compares what twire and the plain programs say of so many boards. `tells` says whether to print how often each kind of answer
/// came up; it is a failure where one is rare.
pub fn try_versions(crew: &mut Crew, score: &mut Score, lot: Lot, tells: bool) -> io::Result<()> {
    let numbers: Vec<u64> = (0..lot.number).collect();
    let compared = crew.each(&numbers, |desk, number| {
        let mut dice = Dice { state: mixed(lot.seed.rotate_left(16), *number) };
        let board = made_up_board(&mut dice);
        compare(desk, *number, board, &mut dice)
    })?;
    let mut tallies = Tallies::default();
    let before = score.wrong;
    for (kind, disagreement) in compared {
        tallies.count(kind);
        score.count(&[disagreement]);
    }
    println!("{} boards of the second version, {} disagreements", lot.number, score.wrong - before);
    if tells {
        tallies.print();
    }
    let wanted: Vec<&str> =
        SLIPS.iter().map(|(_, item)| *item).chain(["expand 0", "expand P1", "expand P2", "print 0"]).collect();
    let rare = if lot.number < ENOUGH { Vec::new() } else { tallies.rare_of(&wanted) };
    for (kind, found) in rare {
        score.fail(&format!("too few of {kind} among the boards of the second version: {found}"));
    }
    Ok(())
}

// The slip that is told, or the kind of the answer, and where both do not say the same.
fn compare(desk: &mut Desk, number: u64, board: Board, dice: &mut Dice) -> io::Result<(String, Option<Disagreement>)> {
    let command = if dice.index(4) == 0 { Command::Print } else { Command::Expand };
    let asked = Asked::of_briefs(command, board.briefs);
    let plain = said_plainly(&asked);
    let kind = match board.slip.and_then(|slip| SLIPS.get(slip)) {
        Some((code, item)) if plain.refusal.starts_with(code) => (*item).to_owned(),
        _ => kind_of(&asked, &plain),
    };
    let found = desk.answer(&asked)?;
    let case = Case {
        name: shown(number, &asked),
        asked: asked.clone(),
        wanted: plain.clone(),
        hints: None,
        is_thorough: false,
    };
    Ok((kind, Disagreement::of(&case, "the second version", plain, &found, None)))
}

fn shown(number: u64, asked: &Asked) -> String {
    let files = asked.briefs();
    let files = files.iter().map(|file| format!("\n-- {}\n{}", file.name, readable(file.text)));
    format!("board {number}: {:?}{}", asked.command, files.collect::<String>())
}
