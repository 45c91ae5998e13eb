//! Cases while memory is scarce: allocations of a case are refused in turn, each alone, and with all that come after it.

use crate::cases::{Asked, Case};
use crate::commands::Command;
use crate::crew::Crew;
use crate::deeds::{calls_of, Deed};
use crate::desks::{Desk, Said};
use crate::disagreements::{Disagreement, Score};
use crate::json::{self, Value};
use crate::plain::Answer;
use crate::setups::{Refused, Setup};
use std::io;

/// Runs the cases while memory is scarce, and says in how many runs an allocation was refused.
pub fn try_scarce(crew: &mut Crew, score: &mut Score, cases: &[Case]) -> io::Result<()> {
    let mut tasks = Vec::new();
    for (place, case) in cases.iter().enumerate() {
        let first = 1 + place as u64 % DISTANCE;
        tasks.extend(deeds_of(&case.asked).into_iter().map(|deed| Task { case, deed, first }));
    }
    let tried = crew.each(&tasks, try_task)?;
    let (mut refused, mut out_of_memory) = (0, 0);
    for deed in tried {
        score.count(&deed.runs);
        refused += deed.refused;
        out_of_memory += deed.out_of_memory;
    }
    println!("{} cases, {refused} runs with a refused allocation, {out_of_memory} of them out of memory", cases.len());
    Ok(())
}

// What is done for a case, and the number of the allocation that is refused first, where not each one is.
struct Task<'a> {
    case: &'a Case,
    deed: Deed,
    first: u64,
}

// Where a thread is refused, the players that have one wait for the others, so more starters would take minutes.
const MOST_STARTERS: usize = 4;

const OBJECTS: Deed = Deed::Objects { hints: false, explain: false };

// The line of the refusal, or its object, which has its reason where there is memory for that.
fn is_memory(refusal: &str) -> bool {
    let is_so = |(name, value): &(String, Value)| match name.as_str() {
        "kind" => *value == Value::text("refusal"),
        "code" => *value == Value::text("memory"),
        name => name == "reason",
    };
    refusal == "memory" || fields_of(refusal).is_some_and(|fields| fields.len() >= 2 && fields.iter().all(is_so))
}

// What is done for a case.
fn deeds_of(asked: &Asked) -> Vec<Deed> {
    let mut deeds = match &asked.command {
        Command::Bench { starters, .. } if starters.split(',').count() > MOST_STARTERS => return Vec::new(),
        Command::Check { workers: 1 } => vec![Deed::Command, Deed::By(2)],
        Command::Capture { .. } if asked.further.is_empty() => vec![Deed::Command, OBJECTS, Deed::Lists],
        Command::Capture { .. } | Command::Order | Command::Verify | Command::Decode { .. } => {
            vec![Deed::Command, OBJECTS]
        }
        _ => vec![Deed::Command],
    };
    deeds.extend(calls_of(asked).iter().map(|call| Deed::Call(*call)));
    deeds
}

// The runs of a deed, in how many of them an allocation was refused, and how many of these were out of memory.
#[derive(Default)]
struct Tried {
    runs: Vec<Option<Disagreement>>,
    refused: usize,
    out_of_memory: usize,
}

fn try_task(desk: &mut Desk, task: &Task<'_>) -> io::Result<Tried> {
    let ample = desk.run(task.deed, &task.case.asked, &Setup::WHOLE)?;
    let mut tried = Tried::default();
    tried.runs.push(judge_ample(task, &ample));
    let is_thorough = task.case.is_thorough;
    refuse_in_turn(desk, task, &ample, Refused::One, is_thorough, &mut tried)?;
    refuse_in_turn(desk, task, &ample, Refused::From, false, &mut tried)?;
    let is_tried = tried.refused > 0 || asks_for_none(task);
    tried.runs.push(told(task, is_tried, "no allocation was refused"));
    Ok(tried)
}

// Of so many allocations one is refused, and later fewer and fewer. Each case begins with another one, so that of cases that
// allocate at the same places, as most of a command do, each of these is refused in some. Of a thorough case each is, alone.
const DISTANCE: u64 = 6;

const GROWTH: u64 = 16;

fn next_refused(number: u64, is_thorough: bool) -> u64 {
    number + if is_thorough { 1 } else { DISTANCE + number / GROWTH }
}

// More allocations than any case makes.
const MOST: u64 = 10_000_000;

// Refuses one allocation after the other, until the run makes fewer.
fn refuse_in_turn(
    desk: &mut Desk,
    task: &Task<'_>,
    ample: &Said,
    refused: fn(u64) -> Refused,
    is_thorough: bool,
    tried: &mut Tried,
) -> io::Result<()> {
    let first = if is_thorough { 1 } else { task.first };
    let mut number = first.min(ample.told.allocations).max(1);
    while number < MOST {
        let setup = Setup { refused: refused(number), ..Setup::WHOLE };
        let said = desk.run(task.deed, &task.case.asked, &setup)?;
        tried.runs.push(judge(task.case, &ample.answer, &said));
        if !said.told.refused {
            return Ok(());
        }
        tried.refused += 1;
        tried.out_of_memory += usize::from(is_memory(&said.answer.refusal));
        number = next_refused(number, is_thorough);
    }
    tried.runs.push(told(task, false, "the allocations have no end"));
    Ok(())
}

// The run with memory, of which only what the calls on lists write is not known before. Objects are compared in a way of
// their own.
fn judge_ample(task: &Task<'_>, ample: &Said) -> Option<Disagreement> {
    let wanted = match task.deed {
        Deed::Lists | Deed::Objects { .. } => ample.answer.clone(),
        _ => task.case.wanted.clone(),
    };
    let is_right = !is_memory(&ample.answer.refusal) && !ample.told.refused && ample.told.is_sound();
    let fault = (!is_right).then_some("something was wrong while there was memory");
    Disagreement::of(task.case, "ample memory", wanted, &ample.answer, fault)
}

// The answer is the one with memory; or out of memory, where an allocation was refused, and then nothing is written. What is said
// of a refusal beside its line may be left out then.
fn judge(case: &Case, ample: &Answer, said: &Said) -> Option<Disagreement> {
    let found = &said.answer;
    let is_want = is_memory(&found.refusal) && found.status == 2 && found.out.is_empty();
    if said.told.refused && (is_want || is_as_known(found, ample)) {
        return None;
    }
    Disagreement::of(case, "refused memory", ample.clone(), found, None)
}

// What an object of a refusal has no more where there is no memory for it: the place of a token, and the reason in words.
const LOST: [&str; 5] = ["byte", "column", "expected", "open", "reason"];

// Whether this is the answer that is known, but for what is said of a refusal. The line has no name of a file where there is no
// memory for that.
fn is_as_known(found: &Answer, ample: &Answer) -> bool {
    let line_of =
        |refusal: &str| refusal.split_once(" of ").map_or_else(|| refusal.to_owned(), |(line, _)| line.to_owned());
    let is_refusal = match (fields_of(&found.refusal), fields_of(&ample.refusal)) {
        (Some(found), Some(ample)) => has_the_rest(&found, &ample),
        _ => found.refusal == ample.refusal || found.refusal == line_of(&ample.refusal),
    };
    is_refusal && found.status == ample.status && found.out == ample.out
}

// The fields of the object of a refusal.
fn fields_of(refusal: &str) -> Option<Vec<(String, Value)>> {
    let object = refusal.strip_prefix("on standard error: ")?.strip_suffix('\n')?;
    match json::read(object) {
        Ok(Value::Object(fields)) => Some(fields),
        _ => None,
    }
}

// Whether these are those fields, in their order, less some that may be lost. The reason may be in the words of its line alone:
// those of the token that was found need memory.
fn has_the_rest(found: &[(String, Value)], ample: &[(String, Value)]) -> bool {
    let is_of = |one: &(String, Value), other: &(String, Value)| {
        one == other || (one.0 == "reason" && other.0 == "reason" && matches!(&one.1, Value::Text(it) if !it.is_empty()))
    };
    let mut found = found.iter().peekable();
    let is_there =
        ample.iter().all(|field| found.next_if(|it| is_of(it, field)).is_some() || LOST.contains(&field.0.as_str()));
    is_there && found.next().is_none()
}

// What is to be so of all runs of a task.
fn told(task: &Task<'_>, is_right: bool, why: &'static str) -> Option<Disagreement> {
    let fault = (!is_right).then_some(why);
    Disagreement::of(task.case, "refused memory", task.case.wanted.clone(), &task.case.wanted, fault)
}

// The number of workers is judged first, and a call may refuse a text before it takes memory.
fn asks_for_none(task: &Task<'_>) -> bool {
    match task.deed {
        Deed::Command | Deed::OfBrief | Deed::Hinted | Deed::Objects { .. } | Deed::Live { .. } | Deed::By(_) => {
            task.case.is_unread()
        }
        Deed::Call(_) | Deed::Lists | Deed::Quiet(_) => !task.case.wanted.refusal.is_empty(),
    }
}
