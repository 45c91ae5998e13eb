//! Plans, captures, benches and scripts for seats that are made up, answered by twire and by the plain programs.

use crate::cases::{Asked, Case};
use crate::commands::Command;
use crate::crew::Crew;
use crate::decodings::{decoding_fault, in_objects, try_run};
use crate::desks::Desk;
use crate::dice::Dice;
use crate::disagreements::{Disagreement, Score};
use crate::plain::{self, generated};
use crate::plainly::said_plainly;
use crate::safe_plans::PLANS;
use crate::seeds::mixed;
use crate::tallies::{kind_of, Tallies};
use std::io;

/// What is made up.
#[derive(Clone, Copy, Debug)]
enum Made {
    /// A plan whose pairs are faulty about as often as not, to be checked.
    Checked,
    /// Such a plan, to be certified.
    Certified,
    /// A capture of runs of a plan, with wrong bits in it.
    Capture,
    /// A capture of a plan that writes data of several lengths.
    Lengths,
    /// A capture some of whose tokens are wrong.
    WrongCapture,
    /// A safe plan, rehearsed.
    Bench,
    /// A safe plan, whose seats are asked in any order.
    Script,
}

// What is made up, and how often.
const LOTS: [(&str, Made, u64); 7] = [
    ("plans that are checked", Made::Checked, 200),
    ("plans that are certified", Made::Certified, 200),
    ("captures", Made::Capture, 100),
    ("captures with wrong tokens", Made::WrongCapture, 600),
    ("rehearsals", Made::Bench, 300),
    ("scripts for seats", Made::Script, 300),
    ("captures of several lengths", Made::Lengths, 200),
];

// Each of these is to come up.
const WANTED: [&str; 11] = [
    "check 1",
    "certify 1",
    "capture 0",
    "capture 1",
    "capture V1",
    "capture V2",
    "capture V3",
    "capture V4",
    "bench stop, 1 of 1",
    "bench stop, 1 of 2",
    "seats played",
];

/// Tries all that is made up, one of so many.
pub fn try_generated(crew: &mut Crew, score: &mut Score, seed: u64, step: usize) -> io::Result<()> {
    let mut tallies = Tallies::default();
    for (place, (name, made, count)) in LOTS.into_iter().enumerate() {
        let numbers: Vec<u64> = (0..count).step_by(step).collect();
        let tried = crew.each(&numbers, |desk, number| {
            let mut dice = Dice { state: mixed(seed ^ place as u64, *number) };
            compare(desk, &format!("{name}, number {number}"), &asked_of(made, &mut dice))
        })?;
        println!("made up, {name}: {}", tried.len());
        for (kind, disagreement) in tried {
            tallies.count(kind);
            score.count(&[disagreement]);
        }
    }
    let rare = if step > 1 { Vec::new() } else { tallies.rare_of(&WANTED) };
    for (kind, found) in rare {
        score.fail(&format!("too few of {kind} among what is made up: {found}"));
    }
    Ok(())
}

/// A safe plan that is made up, and rehearsed.
pub fn made_up_bench(dice: &mut Dice) -> Asked {
    asked_of(Made::Bench, dice)
}

fn asked_of(made: Made, dice: &mut Dice) -> Asked {
    match made {
        Made::Checked => asked(Command::Check { workers: 1 }, generated::plan(dice), String::new()),
        Made::Certified => asked(Command::Certify, generated::plan(dice), String::new()),
        Made::Capture => captured(generated::plan(dice), dice, generated::dump),
        Made::WrongCapture => captured(generated::plan(dice), dice, generated::wrong_dump),
        Made::Lengths => captured(generated::plan_of_lengths(dice), dice, generated::clean_dump),
        Made::Bench => {
            let (plan, starters) = started(dice);
            let (fill, answers) = (dice.index(2) == 1, generated::answers(dice));
            let cert = plain::certify(plan.as_bytes()).out;
            asked(Command::Bench { starters, fill, answers }, plan, cert)
        }
        Made::Script => {
            let (plan, starters) = started(dice);
            let answers = generated::answers(dice);
            let script = generated::script(&starters, dice);
            asked(Command::Seats { starters, answers }, plan, script)
        }
    }
}

fn asked(command: Command, first: String, second: String) -> Asked {
    Asked::of_one(command, first.into_bytes(), second.into_bytes())
}

fn captured(plan: String, dice: &mut Dice, dump: fn(&str, &mut Dice) -> String) -> Asked {
    let dump = dump(&plan, dice);
    asked(Command::Capture { scl: "scl".to_owned(), sda: "sda".to_owned() }, plan, dump)
}

// A safe plan of at most eight participants, and who starts.
fn started(dice: &mut Dice) -> (String, String) {
    let plan = generated::safe_plan(2 + dice.index(7), dice);
    let starters = generated::starters(&plan, dice);
    (plan, starters)
}

// The kind of the answer, and where both do not say the same.
fn compare(desk: &mut Desk, name: &str, asked: &Asked) -> io::Result<(String, Option<Disagreement>)> {
    let plain = said_plainly(asked);
    let found = desk.answer(asked)?;
    let kind = match asked.command {
        Command::Seats { .. } if plain.out.contains(" -> wire ") => "seats played".to_owned(),
        _ => kind_of(asked, &plain),
    };
    let case =
        Case { name: name.to_owned(), asked: asked.clone(), wanted: plain.clone(), hints: None, is_thorough: false };
    let disagreement = Disagreement::of(&case, "twire and the plain programs", plain, &found, None);
    match disagreement {
        Some(disagreement) => Ok((kind, Some(disagreement))),
        None if matches!(asked.command, Command::Check { .. }) => {
            Ok((kind, try_run(desk, name, asked.clone(), &in_objects(true))?))
        }
        None => Ok((kind, decoding_fault(desk, name, asked)?)),
    }
}

/// Rehearses each set of participants of the worked plans, also those that may not start together, with all open bits 0 and 1,
/// where each byte is refused and where none is.
pub fn try_sets(crew: &mut Crew, score: &mut Score, step: usize) -> io::Result<()> {
    let all: Vec<Asked> = PLANS.iter().flat_map(|plan| benches_of(plan)).step_by(step).collect();
    let tried = crew.each(&all, |desk, asked| {
        let (_, disagreement) = compare(desk, &format!("{:?}", asked.command), asked)?;
        Ok(disagreement)
    })?;
    println!("rehearsals of each set: {}", tried.len());
    score.count(&tried);
    Ok(())
}

// More slots than any of these plans has.
const SLOTS: usize = 600;

fn benches_of(plan: &str) -> Vec<Asked> {
    let cert = plain::certify(plan.as_bytes()).out;
    let mut benches = Vec::new();
    for starters in sets_of(&plain::labels(plan.as_bytes())) {
        for fill in [false, true] {
            for answers in ["0".repeat(SLOTS), String::new()] {
                let command = Command::Bench { starters: starters.clone(), fill, answers };
                benches.push(asked(command, plan.to_owned(), cert.clone()));
            }
        }
    }
    benches
}

// Each set of these that is not empty and in which a controller has one message at most.
fn sets_of(labels: &[String]) -> Vec<String> {
    let mut sets: Vec<Vec<&str>> = vec![Vec::new()];
    for label in labels {
        let controller = label.split('/').next();
        for mut set in sets.clone() {
            if set.iter().all(|other| other.split('/').next() != controller) {
                set.push(label);
                sets.push(set);
            }
        }
    }
    sets.iter().skip(1).map(|set| set.join(",")).collect()
}
