//! The calls that take no memory, on what the cases read, while every allocation is refused.

use crate::cases::Case;
use crate::crew::Crew;
use crate::deeds::{Deed, Quiet};
use crate::desks::Desk;
use crate::disagreements::{Disagreement, Score};
use crate::plain::Answer;
use crate::setups::Setup;
use std::io;

/// Makes them on each case on which they can be made, and fails where they were made on no case of some kind.
pub fn try_quiet<'c>(crew: &mut Crew, score: &mut Score, cases: &'c [Case]) -> io::Result<()> {
    let with_kind = |case: &'c Case| Some((case, Quiet::of(&case.asked)?));
    let tasks: Vec<(&Case, Quiet)> = cases.iter().filter_map(with_kind).collect();
    let tried = crew.each(&tasks, |desk, (case, quiet)| try_case(desk, case, *quiet))?;
    let mut made = Vec::new();
    for (kind, disagreement) in tried {
        made.extend(kind);
        score.count(&[disagreement]);
    }
    for quiet in Quiet::ALL {
        if !made.contains(&quiet) {
            score.fail(&format!("the calls without memory were made on no {quiet:?}"));
        }
    }
    println!("calls without memory: {} cases", made.len());
    Ok(())
}

// Where they were made, on what, and where they took memory.
fn try_case(desk: &mut Desk, case: &Case, quiet: Quiet) -> io::Result<(Option<Quiet>, Option<Disagreement>)> {
    let said = desk.run(Deed::Quiet(quiet), &case.asked, &Setup::WHOLE)?;
    if said.answer == answer("not made\n") {
        return Ok((None, None));
    }
    Ok((Some(quiet), Disagreement::of(case, "calls without memory", answer("quiet\n"), &said.answer, None)))
}

fn answer(line: &str) -> Answer {
    Answer { status: 0, out: line.to_owned(), refusal: String::new() }
}
