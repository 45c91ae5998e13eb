//! Desks, at each of which one program runs after the other. A desk has a folder with the files that the programs read.

use crate::cases::{Asked, FURTHER, NAMES};
use crate::commands as words;
use crate::deeds::{line_of, Deed, Line, Program};
use crate::plain::Answer;
use crate::setups::{Setup, Told};
use std::fs;
use std::io;
use std::os::unix::process::ExitStatusExt;
use std::path::{Path, PathBuf};
use std::process::{Command, ExitStatus, Output, Stdio};

/// The programs that are tried, and the library that makes their devices.
#[derive(Clone, Debug)]
pub struct Programs {
    pub twire: PathBuf,
    pub calls: PathBuf,
    pub devices: PathBuf,
}

/// How a run ended, and what the library says of its devices.
#[derive(Clone, Debug)]
pub struct Said {
    pub answer: Answer,
    pub told: Told,
}

/// A folder in which one program runs at a time.
pub struct Desk {
    programs: Programs,
    folder: PathBuf,
    first: Held,
    second: Held,
    further: [Held; 2],
    report: PathBuf,
}

// A file, and what it holds, so that it is written only where that changes.
struct Held {
    path: PathBuf,
    text: Option<Vec<u8>>,
}

impl Held {
    fn hold(&mut self, text: &[u8]) -> io::Result<()> {
        if self.text.as_deref() != Some(text) {
            self.text = None;
            fs::write(&self.path, text)?;
            self.text = Some(text.to_owned());
        }
        Ok(())
    }
}

// A run that takes longer is ended: some wait for one another, and no other run takes a tenth of it.
const SECONDS: &str = "100";

impl Desk {
    pub fn new(programs: &Programs, folder: &Path) -> io::Result<Desk> {
        fs::create_dir_all(folder)?;
        let held = |name| Held { path: folder.join(name), text: None };
        Ok(Desk {
            programs: programs.clone(),
            folder: folder.to_owned(),
            first: held(NAMES[0]),
            second: held(NAMES[1]),
            further: FURTHER.map(held),
            report: folder.join("report"),
        })
    }

    /// What is said of a command with its files over whole devices.
    pub fn answer(&mut self, asked: &Asked) -> io::Result<Answer> {
        Ok(self.run(Deed::Command, asked, &Setup::WHOLE)?.answer)
    }

    /// What is said of a rehearsal that is drawn, and the waves: none where none were written.
    pub fn draw(&mut self, asked: &Asked) -> io::Result<(Answer, Vec<u8>)> {
        let wave = self.report.with_file_name("wave");
        let _ = fs::remove_file(&wave);
        self.first.hold(&asked.first)?;
        self.second.hold(&asked.second)?;
        let mut line = line_of(Deed::Command, asked);
        line.before.insert(1, format!("--wave={}", wave.display()));
        let said = self.run_line(&line, &Setup::WHOLE)?;
        Ok((said.answer, fs::read(&wave).unwrap_or_default()))
    }

    /// What is said of a command line over these files.
    pub fn say(
        &mut self,
        first: &[u8],
        second: &[u8],
        before: Vec<String>,
        files: Vec<&'static str>,
    ) -> io::Result<Answer> {
        self.first.hold(first)?;
        self.second.hold(second)?;
        let line = Line { program: Program::Twire, before, files, after: Vec::new() };
        Ok(self.run_line(&line, &Setup::WHOLE)?.answer)
    }

    /// What is said over such devices.
    pub fn run(&mut self, deed: Deed, asked: &Asked, setup: &Setup) -> io::Result<Said> {
        match deed {
            Deed::OfBrief => self.hold_brief(asked)?,
            _ => self.first.hold(&asked.first)?,
        }
        self.second.hold(&asked.second)?;
        for (held, text) in self.further.iter_mut().zip(&asked.further) {
            held.hold(text)?;
        }
        self.run_line(&line_of(deed, asked), setup)
    }

    // A brief of the plan in its place, where it has one. What it means is compared with the plan when briefs are tried.
    fn hold_brief(&mut self, asked: &Asked) -> io::Result<()> {
        let brief = Asked::of_one(words::Command::Brief, asked.first.clone(), Vec::new());
        let answer = self.answer(&brief)?;
        self.first.hold(if answer.status == 0 { answer.out.as_bytes() } else { &asked.first })
    }

    /// The same of a command line, over the files of the run before.
    pub fn run_line(&mut self, line: &Line, setup: &Setup) -> io::Result<Said> {
        let output = self.command(line, setup).output()?;
        Ok(Said { answer: answer_of(&output), told: self.told()? })
    }

    fn command(&self, line: &Line, setup: &Setup) -> Command {
        let program = match line.program {
            Program::Twire => &self.programs.twire,
            Program::Calls => &self.programs.calls,
        };
        let mut command = Command::new(program);
        command.args(&line.before).args(&line.files).args(&line.after);
        command.current_dir(&self.folder);
        command.stdin(Stdio::null()).env_clear();
        command.env("LD_PRELOAD", &self.programs.devices);
        command.env("TRIAL_FIRST", NAMES[0]).env("TRIAL_SECOND", line.files.get(1).unwrap_or(&NAMES[1]));
        command.env("TRIAL_REPORT", &self.report).env("TRIAL_SECONDS", SECONDS);
        setup.put(&mut command);
        command
    }

    // What the library says of the run that has just ended, and nothing where a signal ended it.
    fn told(&self) -> io::Result<Told> {
        let Ok(line) = fs::read_to_string(&self.report) else {
            return Ok(Told::default());
        };
        fs::remove_file(&self.report)?;
        Told::of_line(&line).ok_or_else(|| io::Error::other(format!("the library says '{line}'")))
    }
}

fn answer_of(output: &Output) -> Answer {
    Answer {
        status: status_of(output.status),
        out: String::from_utf8_lossy(&output.stdout).into_owned(),
        refusal: refusal_of(&String::from_utf8_lossy(&output.stderr)),
    }
}

// As a shell says it: 128 and the number of the signal that ended the program.
fn status_of(status: ExitStatus) -> u8 {
    let code = status.code().or(status.signal().map(|signal| 128 + signal));
    code.and_then(|code| u8::try_from(code).ok()).unwrap_or(u8::MAX)
}

/// What stands after `refused ` in the one line on standard error. Any other text stands as it is, after a mark.
pub fn refusal_of(err: &str) -> String {
    let line = err.strip_prefix("refused ").and_then(|rest| rest.strip_suffix('\n'));
    match line {
        Some(refusal) if !refusal.contains('\n') => refusal.to_owned(),
        _ if err.is_empty() => String::new(),
        _ => format!("on standard error: {err}"),
    }
}
