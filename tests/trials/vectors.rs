//! Dumps in which the lines of the bus are bits of vectors, or signals among others with like names: which of them twire looks
//! at, and which the plain programs do.

use crate::cases::{Asked, Case, NAMES};
use crate::commands::Command;
use crate::crew::Crew;
use crate::desks::Desk;
use crate::dice::Dice;
use crate::disagreements::{Disagreement, Score};
use crate::plain::generated::{self, Given, Named};
use crate::plain::lines::{Lines, Where};
use crate::plain::{capture_on, decode_on, Answer};
use crate::seeds::mixed;
use std::io;

const MADE_UP: u64 = 200;

/// Decodes and captures such dumps, one of so many.
pub fn try_vectors(crew: &mut Crew, score: &mut Score, seed: u64, step: usize) -> io::Result<()> {
    let numbers: Vec<u64> = (0..MADE_UP).step_by(step).collect();
    let tried = crew.each(&numbers, |desk, number| {
        let mut dice = Dice { state: mixed(seed ^ 0xb175, *number) };
        let plan = generated::plan(&mut dice);
        let named = generated::named_dump(&plan, &mut dice);
        compare(desk, *number, &plan, &named)
    })?;
    println!("made up, lines among vectors: {}", tried.len());
    let told = tried.iter().filter(|(_, is_told)| *is_told).count();
    if step == 1 && told * 2 < tried.len() {
        score.fail(&format!("too few lines among vectors are found: {told}"));
    }
    score.count(&tried.into_iter().map(|(fault, _)| fault).collect::<Vec<_>>());
    Ok(())
}

// Where both do not say the same, and whether there is a transaction.
fn compare(desk: &mut Desk, number: u64, plan: &str, named: &Named) -> io::Result<(Option<Disagreement>, bool)> {
    let Named { dump, scl, sda, scope } = named;
    let lines = Lines { scl: line_of(scl), sda: line_of(sda), scope: scope.as_deref(), own: Vec::new() };
    let options = |name: &str| {
        let mut options = vec![name.to_owned(), option_of("scl", scl), option_of("sda", sda)];
        options.extend(scope.as_ref().map(|scope| format!("--scope={scope}")));
        options
    };
    let (plan, dump) = (plan.as_bytes(), dump.as_bytes());
    let captured = (capture_on(plan, dump, &lines), desk.say(plan, dump, options("capture"), NAMES.to_vec())?);
    let decoded = (decode_on(dump, &lines), desk.say(plan, dump, options("decode"), vec![NAMES[1]])?);
    let is_told = decoded.0.status == 0 && decoded.0.out.contains('\n');
    for (command, (wanted, found)) in [("decode", decoded), ("capture", captured)] {
        let told = format!("{command} number {number}: {:?} over {}", options(command), definitions_of(&named.dump));
        let fault = disagreement(&told, plan, dump, wanted, &found);
        if fault.is_some() {
            return Ok((fault, is_told));
        }
    }
    Ok((None, is_told))
}

fn line_of(given: &Given) -> Where<'_> {
    match given {
        Given::Name(name) => Where::Name(name),
        Given::Code(code) => Where::Code(code),
    }
}

fn option_of(line: &str, given: &Given) -> String {
    match given {
        Given::Name(name) => format!("--{line}={name}"),
        Given::Code(code) => format!("--{line}-code={code}"),
    }
}

fn definitions_of(dump: &str) -> String {
    let words = dump.split_whitespace().take_while(|word| *word != "$enddefinitions");
    words.collect::<Vec<_>>().join(" ")
}

/// Where two answers over these files are not the same.
pub fn disagreement(name: &str, plan: &[u8], dump: &[u8], wanted: Answer, found: &Answer) -> Option<Disagreement> {
    let asked = Asked::of_one(Command::Verify, plan.to_owned(), dump.to_owned());
    let case = Case { name: name.to_owned(), asked, wanted: wanted.clone(), hints: None, is_thorough: false };
    Disagreement::of(&case, "twire and the plain programs", wanted, found, None)
}
