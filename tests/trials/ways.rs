//! The ways in which a case is run while there is memory, each with its runs.

use crate::cases::{Asked, Case};
use crate::commands::Command;
use crate::deeds::{calls_of, Deed};
use crate::runs::{self, Due, Run};
use crate::setups::Setup;

/// A way in which a case is run.
#[derive(Clone, Copy, Debug)]
pub enum Way {
    /// Each file comes in one piece, and standard output has room.
    Whole,
    /// Reads give 1, 2 or 7 bytes.
    InPieces,
    /// A read fails: each one, of whole files and of small pieces.
    FailingReads,
    /// Standard output takes so many bytes and then none, or fails then: for numbers of bytes below that of the report. Or it
    /// has room for the report alone.
    FailingWrites,
    /// Signals interrupt each call 1, 3 or 100 times.
    Interrupted,
    /// A brief of the plan stands in its place.
    OfBrief,
    /// A check by 1, 2, 3 and 8 workers.
    Workers,
    /// Calls of the libraries in place of a command.
    Calls,
    /// The command with hints, where the case says which there are.
    Hints,
    /// The command with objects in place of lines, and with hints, where the case says which there are.
    Objects,
    /// The same with `--explain`, of a command that takes it.
    Explained,
    /// What has ended is written before more of a dump is read: all of it at once, or a byte a read.
    Live,
}

impl Way {
    pub const ALL: [Way; 12] = [
        Way::Whole,
        Way::InPieces,
        Way::FailingReads,
        Way::FailingWrites,
        Way::Interrupted,
        Way::OfBrief,
        Way::Workers,
        Way::Calls,
        Way::Hints,
        Way::Objects,
        Way::Explained,
        Way::Live,
    ];

    pub fn name(self) -> &'static str {
        match self {
            Way::Whole => "whole",
            Way::InPieces => "in pieces",
            Way::FailingReads => "failing reads",
            Way::FailingWrites => "failing writes",
            Way::Interrupted => "interrupted",
            Way::OfBrief => "of a brief",
            Way::Workers => "workers",
            Way::Calls => "calls",
            Way::Hints => "hints",
            Way::Objects => "objects",
            Way::Explained => "explained",
            Way::Live => "live",
        }
    }

    /// The runs of a case in this way.
    pub fn runs(self, case: &Case) -> Vec<Run> {
        match self {
            Way::Whole => vec![run(Setup::WHOLE, Due::Wanted)],
            Way::InPieces => [1, 2, 7].map(in_pieces).to_vec(),
            Way::FailingReads => failing_reads(case),
            Way::FailingWrites => failing_writes(case),
            Way::Interrupted => [1, 3, 100].map(interrupted).to_vec(),
            Way::OfBrief => of_brief(&case.asked),
            Way::Workers => by_workers(&case.asked.command),
            Way::Calls => by_calls(&case.asked),
            Way::Hints => with_hints(case),
            Way::Objects => with_objects(case),
            Way::Explained => explained(&case.asked.command),
            Way::Live => live(&case.asked.command),
        }
    }
}

fn run(setup: Setup, due: Due) -> Run {
    Run { deed: Deed::Command, setup, due }
}

fn in_pieces(piece: usize) -> Run {
    run(Setup { pieces: [Some(piece); 2], ..Setup::WHOLE }, Due::Pieces(piece))
}

// Files that come seven bytes a read, all of whose reads are interrupted so often, and each write too.
fn interrupted(times: u32) -> Run {
    let setup = Setup { pieces: [Some(7); 2], interrupts: [times; 3], ..Setup::WHOLE };
    run(setup, Due::Interrupted(times))
}

// How many bytes one read of the program asks for.
const BLOCK: usize = 65_536;

// The most reads of a file in small pieces, with some to spare.
const MOST_CALLS: usize = 40;

// The pieces in which a file comes where a read fails: whole, and the smallest with which there are few reads.
fn pieces_of(text: &[u8]) -> [usize; 2] {
    [BLOCK, text.len() / MOST_CALLS + 1]
}

// Where the first file fails the second would fail too, and is not read.
fn failing_reads(case: &Case) -> Vec<Run> {
    let mut list = Vec::new();
    for piece in pieces_of(&case.asked.first) {
        for call in 1..=runs::calls_of(&case.asked.first, piece) {
            let setup = Setup { pieces: [Some(piece), None], fail_at: [call, 1], ..Setup::WHOLE };
            list.push(run(setup, Due::NoFirst));
        }
    }
    let Some(second) = case.asked.second_read() else {
        return list;
    };
    for piece in pieces_of(second) {
        for call in 1..=runs::calls_of(second, piece) {
            let setup = Setup { pieces: [None, Some(piece)], fail_at: [0, call], ..Setup::WHOLE };
            list.push(run(setup, Due::NoSecond));
        }
    }
    list
}

// Every number of bytes below that of the report, or at most so many of them where it is longer: of a thorough case, where it
// is a long plan or certificate.
const MOST_ROOMS: usize = 16;

const MOST_THOROUGH_ROOMS: usize = 512;

fn failing_writes(case: &Case) -> Vec<Run> {
    let report = case.wanted.out.len();
    let most = if case.is_thorough { MOST_THOROUGH_ROOMS } else { MOST_ROOMS };
    let mut list = Vec::new();
    for room in (0..report).step_by(report / most + 1) {
        for fails in [false, true] {
            list.push(run(Setup { room: Some(room), fails, ..Setup::WHOLE }, Due::Cut));
        }
    }
    list.push(run(Setup { room: Some(report), fails: true, ..Setup::WHOLE }, Due::Wanted));
    list
}

// Of commands that take a brief in the place of a plan, and were not given briefs alone.
fn of_brief(asked: &Asked) -> Vec<Run> {
    match &asked.command {
        _ if !asked.further.is_empty() => Vec::new(),
        Command::Check { .. }
        | Command::Certify
        | Command::Verify
        | Command::Capture { .. }
        | Command::Bench { .. }
        | Command::Order
        | Command::Print => vec![done(Deed::OfBrief)],
        _ => Vec::new(),
    }
}

fn by_workers(command: &Command) -> Vec<Run> {
    let workers: &[u32] = match command {
        Command::Check { workers: 1 } => &[1, 2, 3, 8],
        _ => &[],
    };
    workers.iter().map(|count| done(Deed::By(*count))).collect()
}

fn by_calls(asked: &Asked) -> Vec<Run> {
    calls_of(asked).iter().map(|call| done(Deed::Call(*call))).collect()
}

fn with_hints(case: &Case) -> Vec<Run> {
    case.hints.iter().map(|_| Run { deed: Deed::Hinted, setup: Setup::WHOLE, due: Due::Hints }).collect()
}

// Of the seats of a bench there are no objects.
fn with_objects(case: &Case) -> Vec<Run> {
    if let Command::Seats { .. } = case.asked.command {
        return Vec::new();
    }
    let mut list = vec![objects(false, false)];
    list.extend(case.hints.iter().map(|_| objects(true, false)));
    list
}

fn explained(command: &Command) -> Vec<Run> {
    match command {
        Command::Check { .. } | Command::Verify | Command::Order | Command::Bench { .. } | Command::Capture { .. } => {
            vec![objects(false, true)]
        }
        _ => Vec::new(),
    }
}

fn live(command: &Command) -> Vec<Run> {
    if !matches!(command, Command::Capture { .. } | Command::Decode { .. }) {
        return Vec::new();
    }
    [false, true].into_iter().flat_map(live_runs).collect()
}

/// A dump that comes at once, and one that comes a byte a read.
pub fn live_runs(objects: bool) -> [Run; 2] {
    let deed = Deed::Live { objects };
    let by_bytes = Setup { pieces: [Some(1); 2], ..Setup::WHOLE };
    [
        Run { deed, setup: Setup::WHOLE, due: Due::Live { objects } },
        Run { deed, setup: by_bytes, due: Due::Live { objects } },
    ]
}

fn objects(hints: bool, explain: bool) -> Run {
    Run { deed: Deed::Objects { hints, explain }, setup: Setup::WHOLE, due: Due::Objects { hints, explain } }
}

fn done(deed: Deed) -> Run {
    Run { deed, setup: Setup::WHOLE, due: Due::Wanted }
}
