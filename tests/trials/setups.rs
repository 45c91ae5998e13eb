//! The devices of a run, as the library devices.c makes them, and what it says of them afterwards.

use std::process::Command;

/// The devices of a run: two files that are read, the plan's first, standard output, and memory.
#[derive(Clone, Copy, Debug)]
pub struct Setup {
    /// A read of each file gives at most so many bytes.
    pub pieces: [Option<usize>; 2],
    /// The read of each file with this number fails, and none where it is 0.
    pub fail_at: [usize; 2],
    /// Standard output takes so many bytes in all.
    pub room: Option<usize>,
    /// Whether it then fails. Else it takes none.
    pub fails: bool,
    /// So often a signal interrupts each call: of the first file, of the second, of standard output.
    pub interrupts: [u32; 3],
    pub refused: Refused,
}

/// Which allocations are refused, numbered from 1 after the first file was opened.
#[derive(Clone, Copy, Debug, PartialEq, Eq)]
pub enum Refused {
    None,
    /// The one with this number.
    One(u64),
    /// The one with this number, and each one after it.
    From(u64),
}

impl Setup {
    /// Devices that do all at once.
    pub const WHOLE: Setup = Setup {
        pieces: [None, None],
        fail_at: [0, 0],
        room: None,
        fails: false,
        interrupts: [0, 0, 0],
        refused: Refused::None,
    };

    /// Tells the library what it is to do.
    pub fn put(&self, command: &mut Command) {
        for (k, name) in ["FIRST", "SECOND"].iter().enumerate() {
            if let Some(piece) = self.pieces[k] {
                command.env(format!("TRIAL_{name}_PIECE"), piece.to_string());
            }
            if self.fail_at[k] > 0 {
                command.env(format!("TRIAL_{name}_FAILS"), self.fail_at[k].to_string());
            }
        }
        for (k, name) in ["FIRST", "SECOND", "PAGE"].iter().enumerate() {
            if self.interrupts[k] > 0 {
                command.env(format!("TRIAL_{name}_INTERRUPTS"), self.interrupts[k].to_string());
            }
        }
        if let Some(room) = self.room {
            command.env("TRIAL_PAGE_ROOM", room.to_string());
            if self.fails {
                command.env("TRIAL_PAGE_FAILS", "1");
            }
        }
        match self.refused {
            Refused::None => {}
            Refused::One(number) => {
                command.env("TRIAL_REFUSED", number.to_string());
            }
            Refused::From(number) => {
                command.env("TRIAL_REFUSED_FROM", number.to_string());
            }
        }
    }
}

/// How a file was read, or standard output written: the calls that got through, and whether one of them failed.
#[derive(Clone, Copy, Debug, Default)]
pub struct Device {
    pub calls: usize,
    pub failed: bool,
}

/// What the library says of a run.
#[derive(Clone, Copy, Debug, Default)]
pub struct Told {
    /// Whether it says anything: not where a signal ended the program, and not where it is not there.
    pub is_there: bool,
    pub first: Device,
    pub second: Device,
    pub page: Device,
    /// Whether standard output took none.
    pub took_none: bool,
    pub interruptions: usize,
    pub allocations: u64,
    /// Whether an allocation was refused.
    pub refused: bool,
}

impl Told {
    /// What the line of the library says.
    pub fn of_line(line: &str) -> Option<Told> {
        let mut words = line.split_whitespace();
        let mut next = || words.next()?.parse::<u64>().ok();
        let told = Told {
            is_there: true,
            first: Device { calls: next()? as usize, failed: next()? == 1 },
            second: Device { calls: next()? as usize, failed: next()? == 1 },
            page: Device { calls: next()? as usize, failed: next()? == 1 },
            took_none: next()? == 1,
            interruptions: next()? as usize,
            allocations: next()?,
            refused: next()? == 1,
        };
        Some(told)
    }

    /// Whether it says that no device failed or took none.
    pub fn is_sound(&self) -> bool {
        self.is_there && !self.first.failed && !self.second.failed && !self.page.failed && !self.took_none
    }

    /// The calls of all devices that got through.
    pub fn calls(&self) -> usize {
        self.first.calls + self.second.calls + self.page.calls
    }
}
