//! Plans and briefs that are laid out: by twire, and by the plain program. Blanks, ends of lines and comments are put into
//! texts of the cases and into made-up ones. What is laid out is laid out once more, and means the same.

use crate::boards::made_up_board;
use crate::cases::{Asked, Case, NAMES};
use crate::changed::readable;
use crate::commands::Command;
use crate::crew::Crew;
use crate::desks::Desk;
use crate::dice::Dice;
use crate::disagreements::{Disagreement, Score};
use crate::plain::layouts::laid_out;
use crate::plain::Answer;
use crate::seeds::{mixed, Seeds};
use std::io;

const TEXTS: u64 = 2_000;

/// Lays out such texts, one of so many.
pub fn try_layouts(crew: &mut Crew, score: &mut Score, cases: &[Case], seed: u64, step: usize) -> io::Result<()> {
    let seeds = Seeds::of(cases);
    let numbers: Vec<u64> = (0..TEXTS).step_by(step).collect();
    let tried = crew.each(&numbers, |desk, number| {
        let mut dice = Dice { state: mixed(seed ^ 0x1a_0d, *number) };
        let text = match dice.index(6) {
            0 | 1 => seeds.case(seed, *number).first,
            2 => made_up_board(&mut dice).briefs.swap_remove(0),
            _ => seeds.brief(&mut dice),
        };
        compare(desk, *number, &loosened(&text, &mut dice))
    })?;
    println!("texts that are laid out: {}", tried.len());
    let meant = tried.iter().filter(|(_, is_meant)| *is_meant).count();
    if step == 1 && meant * 5 < tried.len() {
        score.fail(&format!("too few of the texts that are laid out are plans or briefs: {meant}"));
    }
    score.count(&tried.into_iter().map(|(fault, _)| fault).collect::<Vec<_>>());
    Ok(())
}

// Where both do not say the same, or the text that is laid out means something else; and whether it means a plan.
fn compare(desk: &mut Desk, number: u64, text: &[u8]) -> io::Result<(Option<Disagreement>, bool)> {
    let wanted = match laid_out(text) {
        Ok(out) => Answer { status: 0, out, refusal: String::new() },
        Err(refusal) => Answer { status: 2, out: String::new(), refusal },
    };
    let mut say = |command: &str, text: &[u8]| desk.say(text, b"", vec![command.to_owned()], vec![NAMES[0]]);
    let found = say("format", text)?;
    let (mut fault, mut is_meant) = (None, false);
    if found.status == 0 {
        let laid_out = found.out.as_bytes();
        let (before, after) = (say("print", text)?, say("print", laid_out)?);
        is_meant = before.status == 0;
        if before.out != after.out || code_of(&before) != code_of(&after) {
            fault = Some("it means something else");
        } else if say("format", laid_out)?.out != found.out {
            fault = Some("it is laid out otherwise once more");
        }
    }
    let case = Case {
        name: format!("number {number}\n{}", readable(text)),
        asked: Asked::of_one(Command::Print, text.to_owned(), Vec::new()),
        wanted: wanted.clone(),
        hints: None,
        is_thorough: false,
    };
    Ok((Disagreement::of(&case, "laid out", wanted, &found, fault), is_meant))
}

// A refusal without its line.
fn code_of(answer: &Answer) -> &str {
    answer.refusal.split(' ').next().unwrap_or("")
}

const LOOSE: [&str; 14] = [
    " ",
    "  ",
    "    ",
    "\t",
    "\r",
    "\n",
    "\n\n",
    "\r\n  ",
    "\n\t\t",
    " \n \n",
    "# a\n",
    " #b \r\n",
    "\n  # c ;\t\n    ",
    "\n#\n",
];

// White space and comments are put into the text, most often where white space or a sign stands.
fn loosened(text: &[u8], dice: &mut Dice) -> Vec<u8> {
    let mut text = text.to_owned();
    for _ in 0..dice.index(20) {
        let is_place = |(_, byte): &(usize, &u8)| b" \t\r\n;()*".contains(byte);
        let places: Vec<usize> = text.iter().enumerate().filter(is_place).map(|(place, _)| place).collect();
        let place = match dice.index(40) {
            0 => dice.index(text.len() + 1),
            _ => dice.pick(&places, text.len()),
        };
        text.splice(place..place, dice.pick(&LOOSE, " ").bytes());
    }
    text
}
