//! The library that makes the devices is tried itself, on one plan and one capture, before anything is believed of it; and
//! what a case cannot say of devices: how often an interrupted call is made again, and that nothing is read after a refusal.

use crate::cases::{Asked, Case};
use crate::commands::Command;
use crate::crew::Crew;
use crate::deeds::{Deed, Line, Program};
use crate::desks::{refusal_of, Desk, Said};
use crate::disagreements::{Disagreement, Score};
use crate::plain::Answer;
use crate::runs::{calls_of, refused};
use crate::setups::{Refused, Setup};
use std::io;

const PLAN: &str = "plan 1
message m write 1001000 stop else stop ;
message n write 1001000 0000000x stop else stop else stop ;
controller a m ;
controller b n ;
";

const REPORT: &str = "pair 0 a/m b/n: stop against data after 10010000l\nunsafe: 1 of 1 pairs\n";

// A `$var` that ends too soon is refused in the read that has its `$end`.
const REFUSED_DUMP: &str = "$var wire 1 $end ";

// So often is a call made that signals interrupt; then it is given up.
const TURNS: u32 = 1_000_000;

/// Whether the programs allocate by the C library, so that memory can be refused: those that were proved do, trial builds
/// bring an allocator of their own.
pub fn takes_refusals(desk: &mut Desk) -> io::Result<bool> {
    Ok(check(desk, Setup::WHOLE)?.told.allocations > 0)
}

// One trial of a device.
type Trial = fn(&mut Desk) -> io::Result<Option<Disagreement>>;

const TRIALS: [Trial; 13] = [
    last_turn_of_a_read,
    last_turn_of_a_write,
    no_turn_left_to_read,
    no_turn_left_to_write,
    whole,
    pieces,
    failing_read,
    |desk| room(desk, false),
    |desk| room(desk, true),
    interrupted,
    nothing_is_read_after_a_refusal,
    hint_on_a_read,
    hint_on_a_write,
];

const TRIALS_OF_MEMORY: [Trial; 6] = [
    |desk| refused_memory(desk, Refused::One(1)),
    |desk| refused_memory(desk, Refused::From(1)),
    memory_that_suffices,
    hint_on_memory,
    |desk| calls_line(desk, "obeys"),
    |desk| calls_line(desk, "quiet"),
];

/// Tries the devices one by one.
pub fn try_devices(crew: &mut Crew, score: &mut Score, takes_refusals: bool) -> io::Result<()> {
    let mut trials = TRIALS.to_vec();
    if takes_refusals {
        trials.extend(TRIALS_OF_MEMORY);
    }
    let runs = crew.each(&trials, |desk, trial| trial(desk))?;
    score.count(&runs);
    println!("devices: {}", runs.len());
    Ok(())
}

fn plan_asked() -> Asked {
    Asked::of_one(Command::Check { workers: 1 }, PLAN.into(), Vec::new())
}

fn check(desk: &mut Desk, setup: Setup) -> io::Result<Said> {
    desk.run(Deed::Command, &plan_asked(), &setup)
}

fn report() -> Answer {
    Answer { status: 1, out: REPORT.to_owned(), refusal: String::new() }
}

fn judged(name: &str, wanted: Answer, said: &Said, is_right: bool) -> Option<Disagreement> {
    let case =
        Case { name: name.to_owned(), asked: plan_asked(), wanted: wanted.clone(), hints: None, is_thorough: false };
    let fault = (!is_right).then_some("the library says something else of its devices");
    Disagreement::of(&case, "devices", wanted, &said.answer, fault)
}

fn whole(desk: &mut Desk) -> io::Result<Option<Disagreement>> {
    let said = check(desk, Setup::WHOLE)?;
    let told = &said.told;
    let is_right = told.is_sound() && (told.first.calls, told.page.calls, told.interruptions) == (2, 1, 0);
    Ok(judged("a whole file", report(), &said, is_right && !told.refused))
}

fn pieces(desk: &mut Desk) -> io::Result<Option<Disagreement>> {
    let said = check(desk, Setup { pieces: [Some(1); 2], ..Setup::WHOLE })?;
    let is_right = said.told.first.calls == calls_of(PLAN.as_bytes(), 1);
    Ok(judged("a byte in each read", report(), &said, is_right))
}

fn failing_read(desk: &mut Desk) -> io::Result<Option<Disagreement>> {
    let said = check(desk, Setup { fail_at: [2, 0], ..Setup::WHOLE })?;
    Ok(judged("the read at the end fails", refused("read", ""), &said, said.told.first.failed))
}

fn room(desk: &mut Desk, fails: bool) -> io::Result<Option<Disagreement>> {
    let said = check(desk, Setup { room: Some(4), fails, ..Setup::WHOLE })?;
    let told = &said.told;
    let is_right = told.page.failed == fails && told.took_none != fails && told.page.calls == 2;
    Ok(judged("room for four bytes", refused("write", "pair"), &said, is_right))
}

fn interrupted(desk: &mut Desk) -> io::Result<Option<Disagreement>> {
    let said = check(desk, Setup { interrupts: [5, 0, 7], ..Setup::WHOLE })?;
    Ok(judged("interrupted calls", report(), &said, said.told.interruptions == 2 * 5 + 7))
}

fn last_turn_of_a_read(desk: &mut Desk) -> io::Result<Option<Disagreement>> {
    let said = check(desk, Setup { interrupts: [TURNS - 1, 0, 0], ..Setup::WHOLE })?;
    let is_right = said.told.interruptions == 2 * (TURNS as usize - 1);
    Ok(judged("a read gets through in its last turn", report(), &said, is_right))
}

fn last_turn_of_a_write(desk: &mut Desk) -> io::Result<Option<Disagreement>> {
    let said = check(desk, Setup { interrupts: [0, 0, TURNS - 1], ..Setup::WHOLE })?;
    let is_right = said.told.interruptions == TURNS as usize - 1;
    Ok(judged("a write gets through in its last turn", report(), &said, is_right))
}

fn no_turn_left_to_read(desk: &mut Desk) -> io::Result<Option<Disagreement>> {
    let said = check(desk, Setup { interrupts: [TURNS, 0, 0], ..Setup::WHOLE })?;
    let is_right = said.told.interruptions >= TURNS as usize && said.told.page.calls == 0;
    Ok(judged("a read that is interrupted too often", refused("read", ""), &said, is_right))
}

fn no_turn_left_to_write(desk: &mut Desk) -> io::Result<Option<Disagreement>> {
    let said = check(desk, Setup { interrupts: [0, 0, TURNS], ..Setup::WHOLE })?;
    let is_right = said.told.interruptions >= TURNS as usize && said.told.page.calls == 0;
    Ok(judged("a write that is interrupted too often", refused("write", ""), &said, is_right))
}

// The next read would fail, and is not made.
fn nothing_is_read_after_a_refusal(desk: &mut Desk) -> io::Result<Option<Disagreement>> {
    let command = Command::Capture { scl: "scl".to_owned(), sda: "sda".to_owned() };
    let asked = Asked::of_one(command, PLAN.into(), REFUSED_DUMP.into());
    let said = desk.run(Deed::Command, &asked, &Setup { fail_at: [0, 2], ..Setup::WHOLE })?;
    let is_right = said.told.is_sound() && said.told.second.calls == 1;
    Ok(judged("a capture that is refused in its first read", refused("V2 line 1", ""), &said, is_right))
}

// What is said to people of a device that fails: the case of a file has whole ones.
fn hint(desk: &mut Desk, setup: Setup, name: &str, lines: &str, out: &str) -> io::Result<Option<Disagreement>> {
    let said = desk.run(Deed::Hinted, &plan_asked(), &setup)?;
    Ok(judged(name, refused(&refusal_of(lines), out), &said, !said.told.is_sound() || said.told.refused))
}

// What the system said of the read that failed: no further one is made.
fn hint_on_a_read(desk: &mut Desk) -> io::Result<Option<Disagreement>> {
    let lines = "refused read\nhint: PLAN, the plan \"plan\", cannot be read to its end:\nhint: Input/output error (os error 5)\n";
    hint(desk, Setup { fail_at: [2, 0], ..Setup::WHOLE }, "a hint on a read that fails", lines, "")
}

fn hint_on_a_write(desk: &mut Desk) -> io::Result<Option<Disagreement>> {
    let lines = "refused write\nhint: standard output did not take the whole report\n";
    let setup = Setup { room: Some(4), ..Setup::WHOLE };
    hint(desk, setup, "a hint on a write that takes none", lines, "pair")
}

fn hint_on_memory(desk: &mut Desk) -> io::Result<Option<Disagreement>> {
    let lines = "refused memory\nhint: the system gave no more memory: is there a limit ('ulimit -v')?\n";
    // (the first two allocations are for lists of what is open, before the run)
    let setup = Setup { refused: Refused::One(3), ..Setup::WHOLE };
    hint(desk, setup, "a hint on memory", lines, "")
}

fn refused_memory(desk: &mut Desk, refused_ones: Refused) -> io::Result<Option<Disagreement>> {
    let said = check(desk, Setup { refused: refused_ones, ..Setup::WHOLE })?;
    Ok(judged("the first allocation is refused", refused("memory", ""), &said, said.told.refused))
}

fn memory_that_suffices(desk: &mut Desk) -> io::Result<Option<Disagreement>> {
    let enough = check(desk, Setup::WHOLE)?.told.allocations;
    let said = check(desk, Setup { refused: Refused::From(enough + 1), ..Setup::WHOLE })?;
    let is_right = !said.told.refused && said.told.allocations == enough;
    Ok(judged("memory for all that is asked for", report(), &said, is_right))
}

// What the program `calls` says of memory, where it needs no text.
fn calls_line(desk: &mut Desk, name: &str) -> io::Result<Option<Disagreement>> {
    let line = Line { program: Program::Calls, before: vec![name.to_owned()], files: vec![], after: vec![] };
    let said = desk.run_line(&line, &Setup::WHOLE)?;
    let wanted = Answer { status: 0, out: format!("{name}\n"), refusal: String::new() };
    Ok(judged(&format!("calls {name}"), wanted, &said, true))
}
