//! Cases whose files were changed or made up, answered by twire and by the plain programs.

use crate::cases::{Asked, Case};
use crate::crew::Crew;
use crate::decodings::decoding_fault;
use crate::desks::Desk;
use crate::disagreements::{Disagreement, Score};
use crate::plainly::{plain_spelling_of, said_plainly, spelling_of};
use crate::seeds::Seeds;
use crate::tallies::{kind_of, Tallies};
use std::io;

/// So many cases, from a seed.
#[derive(Clone, Copy, Debug)]
pub struct Lot {
    pub number: u64,
    pub seed: u64,
}

// Among so many cases each kind of answer is to come up.
const ENOUGH: u64 = 25_000;

/// Compares what twire and the plain programs say of so many changed cases. `tells` says whether to print how often each kind
/// of answer came up; it is a failure where one is rare.
pub fn try_changed(crew: &mut Crew, score: &mut Score, cases: &[Case], lot: Lot, tells: bool) -> io::Result<()> {
    let seeds = Seeds::of(cases);
    let numbers: Vec<u64> = (0..lot.number).collect();
    let compared = crew.each(&numbers, |desk, number| compare(desk, *number, &seeds.case(lot.seed, *number)))?;
    let mut tallies = Tallies::default();
    let before = score.wrong;
    for (kind, disagreement) in compared {
        tallies.count(kind);
        score.count(&[disagreement]);
    }
    println!("{} changed cases, {} disagreements", lot.number, score.wrong - before);
    if tells {
        tallies.print();
    }
    let rare = if lot.number < ENOUGH { Vec::new() } else { tallies.rare() };
    for (kind, found) in rare {
        score.fail(&format!("too few of {kind}: {found}"));
    }
    Ok(())
}

// The kind of the answer, and where both do not say the same.
fn compare(desk: &mut Desk, number: u64, asked: &Asked) -> io::Result<(String, Option<Disagreement>)> {
    let plain = said_plainly(asked);
    let kind = kind_of(asked, &plain);
    let found = desk.answer(asked)?;
    let fault = spelling_fault(desk, asked)?;
    if fault.is_none() && plain == found {
        return Ok((kind, decoding_fault(desk, &shown(number, asked), asked)?));
    }
    let case = Case {
        name: shown(number, asked),
        asked: asked.clone(),
        wanted: plain.clone(),
        hints: None,
        is_thorough: false,
    };
    Ok((kind, Disagreement::of(&case, "twire and the plain programs", plain, &found, fault)))
}

// A text that the plain programs refuse as a plan was refused by the command too, which reads it as `print` does.
fn spelling_fault(desk: &mut Desk, asked: &Asked) -> io::Result<Option<&'static str>> {
    let spelling = plain_spelling_of(asked);
    let is_spelt = spelling.is_empty() || spelling == spelling_of(desk, asked)?;
    Ok((!is_spelt).then_some("the plan is spelt otherwise"))
}

fn shown(number: u64, asked: &Asked) -> String {
    let Asked { command, first, second, .. } = asked;
    let (first, second) = (readable(first), readable(second));
    format!("changed case {number}: {command:?}\n-- first file\n{first}\n-- second file\n{second}")
}

/// The text of these bytes, where each that is no sign of ASCII is shown by its number.
pub fn readable(bytes: &[u8]) -> String {
    let shown = |byte: &u8| match *byte {
        b'\n' => "\n".to_owned(),
        byte if byte.is_ascii_graphic() || byte == b' ' => char::from(byte).to_string(),
        byte => format!("\\x{byte:02x}"),
    };
    bytes.iter().map(shown).collect()
}
