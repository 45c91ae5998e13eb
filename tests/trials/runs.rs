//! A run of a case: what is done, over which devices, and what is due.

use crate::cases::Case;
use crate::commands::Command;
use crate::deeds::Deed;
use crate::desks::{refusal_of, Said};
use crate::disagreements::Disagreement;
use crate::json::{self, Value};
use crate::mended::compared;
use crate::object_lines;
use crate::objects;
use crate::plain::Answer;
use crate::plainly::{place_of, said_so_far};
use crate::setups::Setup;

/// A run of a case.
#[derive(Clone, Copy, Debug)]
pub struct Run {
    pub deed: Deed,
    pub setup: Setup,
    pub due: Due,
}

/// What is due of a run.
#[derive(Clone, Copy, Debug)]
pub enum Due {
    /// What is wanted of the case, from sound devices.
    Wanted,
    /// The same, and on standard error the hints of the case behind the refusal.
    Hints,
    /// The same as `Wanted`, or as `Hints`, in objects, and with what `--explain` says or without.
    Objects { hints: bool, explain: bool },
    /// The same, in lines or objects. Before a refusal of the dump stands what has ended so far.
    Live { objects: bool },
    /// The same, where reads give so many bytes.
    Pieces(usize),
    /// The same, where each call was interrupted so often.
    Interrupted(u32),
    /// That the plan could not be read, where that failed.
    NoFirst,
    /// That the second file could not be read, where that failed.
    NoSecond,
    /// The first bytes of the report, for which alone there was room, and that no more could be written.
    Cut,
}

/// Where the run did not end as is due.
pub fn judge(case: &Case, way: &str, run: &Run, said: &Said) -> Option<Disagreement> {
    let (wanted, fault) = due_of(case, run, said);
    match run.due {
        Due::Objects { explain, .. } => {
            let (wanted, found) = by_objects(case, wanted, &said.answer, explain);
            Disagreement::of(case, way, wanted, &found, fault)
        }
        Due::Live { objects } => {
            let (wanted, found) =
                if objects { by_objects(case, wanted, &said.answer, false) } else { (wanted, said.answer.clone()) };
            let out = if is_refused_dump(case) { so_far_of(case, objects) } else { wanted.out };
            Disagreement::of(case, way, Answer { out, ..wanted }, &found, fault)
        }
        _ => Disagreement::of(case, way, wanted, &said.answer, fault),
    }
}

// The answer that is due, and what is wrong with the devices.
fn due_of(case: &Case, run: &Run, said: &Said) -> (Answer, Option<&'static str>) {
    let told = &said.told;
    let wanted = case.wanted.clone();
    match run.due {
        Due::Wanted | Due::Objects { hints: false, .. } | Due::Live { .. } => {
            (wanted, fault(told.is_sound(), "a device failed"))
        }
        Due::Hints | Due::Objects { hints: true, .. } => (hinted(case), fault(told.is_sound(), "a device failed")),
        Due::Pieces(piece) => {
            let is_right = told.is_sound() && came_in_pieces(case, piece, said);
            (wanted, fault(is_right, "the reads did not give so many bytes"))
        }
        Due::Interrupted(times) => {
            let is_right = told.is_sound()
                && told.interruptions == told.calls() * times as usize
                && (told.first.calls > 0 || case.is_unread());
            (wanted, fault(is_right, "not each call was interrupted so often"))
        }
        Due::NoFirst if told.first.failed => {
            (refused("read", ""), fault(!told.second.failed, "the second file was read"))
        }
        // (the texts that give a plan are read before the first is judged)
        Due::NoSecond if told.second.failed && case.refuses_first() => (wanted, None),
        Due::NoFirst => (wanted, fault(case.is_unread() || case.leaves_first(), "the read that is to fail did not")),
        Due::NoSecond if told.second.failed => (refused("read", ""), None),
        Due::NoSecond => (wanted, fault(case.leaves_second(), "the read that is to fail did not")),
        Due::Cut => due_of_cut(case, &run.setup, said),
    }
}

fn is_refused_dump(case: &Case) -> bool {
    case.wanted.refusal.starts_with('V')
}

// What was written before a refusal of the dump.
fn so_far_of(case: &Case, objects: bool) -> String {
    if objects {
        shown(&objects::so_far_of(&case.asked))
    } else {
        said_so_far(&case.asked)
    }
}

// With hints the status, the report and the line of the refusal are as without.
fn hinted(case: &Case) -> Answer {
    let Answer { status, out, refusal } = case.wanted.clone();
    let line = if refusal.is_empty() { String::new() } else { format!("refused {refusal}\n") };
    let hints = case.hints.as_deref().unwrap_or("");
    Answer { status, out, refusal: refusal_of(&format!("{line}{hints}")) }
}

// The answer that is wanted and the one that was found. The report of a command over a plan is compared by its objects, and that
// of another one by the lines that they stand for, as is what stands on standard error. A text that is no report stays as it is.
fn by_objects(case: &Case, wanted: Answer, found: &Answer, explain: bool) -> (Answer, Answer) {
    let refusal = refusal_in_lines(&found.refusal);
    let is_explained = explain && matches!(case.asked.command, Command::Check { .. }) && case.wanted.refusal.is_empty();
    let (due, out) = if is_explained {
        explained(case, &found.out)
    } else {
        match objects::due_of(&case.asked, explain) {
            // (the plain programs know no workers)
            Some(_) if !case.wanted.refusal.is_empty() => (String::new(), found.out.clone()),
            Some(due) => (shown(&due), shown_again(&found.out)),
            None if case.asked.command.reports() => (wanted.out.clone(), in_lines(&found.out)),
            None => (wanted.out.clone(), found.out.clone()),
        }
    };
    let placed = with_place(case, wanted.refusal);
    (Answer { out: due, refusal: placed, ..wanted }, Answer { status: found.status, out, refusal })
}

// What is due of a check that says what mends a plan, and what was found.
fn explained(case: &Case, found: &str) -> (String, String) {
    match compared(&case.asked, found) {
        Ok((due, found)) => (shown(&due), shown(&found)),
        Err(why) => (String::new(), format!("no objects: {why}: {found}")),
    }
}

// A refusal as its object tells it: of a token of a dump also how many bytes stand before it, and in its line.
fn with_place(case: &Case, refusal: String) -> String {
    let (line, hints) = refusal.split_once('\n').unwrap_or((&refusal, ""));
    // (with hints behind it the line stands as it is)
    let told = line.strip_prefix("on standard error: refused ").unwrap_or(line);
    match place_of(&case.asked) {
        Some((byte, column)) if told.starts_with("V2 ") || told.starts_with("V3 ") => {
            let rest = if hints.is_empty() { String::new() } else { format!("\n{hints}") };
            format!("{line} byte {byte} column {column}{rest}")
        }
        _ => refusal,
    }
}

fn shown(objects: &[Value]) -> String {
    objects.iter().map(|object| format!("{object}\n")).collect()
}

// The objects of a report, as they are shown.
fn shown_again(text: &str) -> String {
    if !text.is_empty() && !text.ends_with('\n') {
        return format!("the last line has no end: {text}");
    }
    let objects: Result<Vec<Value>, String> = text.lines().map(|line| json::read(line).map(without_place)).collect();
    objects.map_or_else(|why| format!("no objects: {why}"), |objects| shown(&objects))
}

// The plain programs know the line of a certificate that is refused, and no place in it.
fn without_place(object: Value) -> Value {
    match object {
        Value::Object(mut members) if members.contains(&("kind".to_owned(), Value::text("certificate"))) => {
            members.retain(|(key, _)| key != "column" && key != "expected");
            Value::Object(members)
        }
        other => other,
    }
}

fn in_lines(text: &str) -> String {
    told(object_lines::lines_of(text))
}

fn told(lines: Result<String, String>) -> String {
    lines.unwrap_or_else(|why| format!("no objects: {why}"))
}

// What the objects on standard error say, as lines.
fn refusal_in_lines(refusal: &str) -> String {
    match refusal.strip_prefix("on standard error: ") {
        Some(text) => refusal_of(&told(object_lines::placed_lines_of(text))),
        None if refusal.is_empty() => String::new(),
        None => format!("no object: {refusal}"),
    }
}

// The report is longer than the room.
fn due_of_cut(case: &Case, setup: &Setup, said: &Said) -> (Answer, Option<&'static str>) {
    let taken = &case.wanted.out.as_bytes()[..setup.room.unwrap_or(0)];
    let told = &said.told;
    let is_right = told.page.failed == setup.fails && told.took_none != setup.fails;
    (
        refused("write", &String::from_utf8_lossy(taken)),
        fault(is_right, "standard output did not fail, or take none, as it was to"),
    )
}

/// The answer of a run that is refused so, and has written this.
pub fn refused(refusal: &str, out: &str) -> Answer {
    Answer { status: 2, out: out.to_owned(), refusal: refusal.to_owned() }
}

fn fault(is_right: bool, why: &'static str) -> Option<&'static str> {
    (!is_right).then_some(why)
}

// How many calls the reading of a text takes, with the one that gives no bytes.
pub fn calls_of(text: &[u8], piece: usize) -> usize {
    text.len().div_ceil(piece) + 1
}

// Each file that is read to its end took as many calls as it has pieces.
fn came_in_pieces(case: &Case, piece: usize, said: &Said) -> bool {
    let asked = &case.asked;
    let first = case.is_unread() || case.leaves_first() || said.told.first.calls == calls_of(&asked.first, piece);
    let second =
        case.leaves_second() || asked.second_read().is_none_or(|text| said.told.second.calls == calls_of(text, piece));
    first && second
}
