//! Stands in the place of twire: runs the program that TWIRE_OF_OBJECTS names with `--format json`, and writes the lines that
//! its objects stand for. So a suite that compares lines compares objects too. tests/json.sh builds it and uses it.
//!
//! The lines for people are in no object. They are taken from a run without objects, whose other lines have to be those that
//! the objects stand for.

#[path = "../trials/json.rs"]
mod json;
#[path = "../trials/object_lines.rs"]
mod object_lines;

use std::env;
use std::error::Error;
use std::ffi::OsString;
use std::fs::OpenOptions;
use std::io::{self, Write};
use std::process::{Command, ExitCode, Output, Stdio};

// The commands that write reports, and no plans, briefs and certificates.
const REPORTING: [&str; 7] = ["check", "verify", "order", "capture", "decode", "signals", "bench"];

// Those of them that have lines for people.
const EXPLAINED: [&str; 5] = ["check", "verify", "order", "capture", "bench"];

fn main() -> ExitCode {
    match run() {
        Ok(status) => ExitCode::from(status),
        Err(error) => {
            eprintln!("objects: {error}");
            ExitCode::from(99)
        }
    }
}

fn run() -> Result<u8, Box<dyn Error>> {
    let words: Vec<OsString> = env::args_os().skip(1).collect();
    // (with no word at all there is help)
    let output = ask(&words, !words.is_empty())?;
    let command = words.iter().find_map(|word| word.to_str().filter(|it| !it.starts_with('-')));
    let reports = command.is_some_and(|name| REPORTING.contains(&name));
    let (mut out, err) = in_lines(&output, reports)?;
    log(&output)?;
    // (of a summary each command has lines of its own but 'check', which has those for people)
    let asks = |name: &str| words.iter().any(|word| word == name);
    let is_explained = asks("--explain") || command == Some("check") && asks("--summary");
    if is_explained && command.is_some_and(|name| EXPLAINED.contains(&name)) {
        out = with_people(&ask(&words, false)?, &output, &out, &err)?;
    }
    // (as twire writes them: hints come after the report)
    io::stdout().write_all(&out)?;
    io::stderr().write_all(&err)?;
    output.status.code().and_then(|code| u8::try_from(code).ok()).ok_or("a signal ended the program".into())
}

// What the program says of these words, in objects or in lines.
fn ask(words: &[OsString], objects: bool) -> Result<Output, Box<dyn Error>> {
    let program = env::var_os("TWIRE_OF_OBJECTS").ok_or("TWIRE_OF_OBJECTS names no program")?;
    let mut command = Command::new(program);
    if objects {
        command.arg("--format=json");
    }
    Ok(command.args(words).stdin(Stdio::inherit()).output()?)
}

// The report of a run without objects, which says the same as one with objects, in these lines, and has those for people.
fn with_people(told: &Output, output: &Output, out: &[u8], err: &[u8]) -> Result<Vec<u8>, String> {
    let report = String::from_utf8_lossy(&told.stdout);
    let exact: String = report.split_inclusive('\n').filter(|line| !line.starts_with("    ")).collect();
    if told.status != output.status || exact.as_bytes() != out || told.stderr != err {
        return Err(format!("the objects stand for other lines than\n{exact}"));
    }
    Ok(told.stdout.clone())
}

// Help, and what is wrong with a command line, are no objects.
fn in_lines(output: &Output, reports: bool) -> Result<(Vec<u8>, Vec<u8>), String> {
    let is_help = contains(&output.stdout, "\nUsage: twire");
    let out = if reports && !is_help { lines(&output.stdout)? } else { output.stdout.clone() };
    // (the last one where there was no memory to read the words, of which one asks for objects)
    let is_plain = output.stderr.starts_with(b"error: ")
        || contains(&output.stderr, "\nUsage: twire")
        || output.stderr == b"refused memory\n";
    let err = if is_plain { output.stderr.clone() } else { lines(&output.stderr)? };
    Ok((out, err))
}

fn contains(text: &[u8], part: &str) -> bool {
    String::from_utf8_lossy(text).contains(part)
}

fn lines(text: &[u8]) -> Result<Vec<u8>, String> {
    let text = std::str::from_utf8(text).map_err(|error| error.to_string())?;
    Ok(object_lines::lines_of(text)?.into_bytes())
}

// Which kinds of objects there were is counted by the suite.
fn log(output: &Output) -> io::Result<()> {
    let Some(path) = env::var_os("OBJECTS_LOG") else {
        return Ok(());
    };
    let mut kinds = String::new();
    for text in [&output.stdout, &output.stderr] {
        for line in String::from_utf8_lossy(text).lines() {
            if let Some((kind, _)) = line.strip_prefix("{\"kind\":\"").and_then(|rest| rest.split_once('"')) {
                kinds.push_str(kind);
                kinds.push_str(if line.contains("\"explain\":") { " explained\n" } else { "\n" });
            }
        }
    }
    OpenOptions::new().create(true).append(true).open(path)?.write_all(kinds.as_bytes())
}
