//! Stands in the place of twire: runs the program that KEPT_OF names, hands on what it says, and adds the objects in that to the
//! file that KEPT names. With ALSO_OBJECTS it asks for a report in objects too, where one was asked for in lines. tests/schema.sh
//! builds it and uses it.

use std::env;
use std::error::Error;
use std::ffi::OsString;
use std::fs::{self, OpenOptions};
use std::io::{self, Write};
use std::os::unix::fs::FileTypeExt;
use std::process::{Command, ExitCode, Output, Stdio};

// The commands that write reports.
const REPORTING: [&str; 8] = ["check", "mend", "verify", "order", "capture", "decode", "signals", "bench"];

fn main() -> ExitCode {
    match run() {
        Ok(status) => ExitCode::from(status),
        Err(error) => {
            eprintln!("keep: {error}");
            ExitCode::from(99)
        }
    }
}

fn run() -> Result<u8, Box<dyn Error>> {
    let program = env::var_os("KEPT_OF").ok_or("KEPT_OF names no program")?;
    let words: Vec<OsString> = env::args_os().skip(1).collect();
    let output = Command::new(&program).args(&words).stdin(Stdio::inherit()).output()?;
    keep(&output)?;
    if env::var_os("ALSO_OBJECTS").is_some() && is_in_lines(&words) {
        let hints = (!has(&words, "--hints")).then_some("--hints=always");
        let mut asked = Command::new(&program);
        asked.arg("--format=json").args(hints).args(&words);
        // (what stands on standard input was read)
        keep(&asked.stdin(Stdio::null()).output()?)?;
    }
    io::stdout().write_all(&output.stdout)?;
    io::stderr().write_all(&output.stderr)?;
    output.status.code().and_then(|code| u8::try_from(code).ok()).ok_or("a signal ended the program".into())
}

// Whether a report is asked for in lines, no file is written beside it, and all can be read once more.
fn is_in_lines(words: &[OsString]) -> bool {
    let reports = words.iter().any(|word| REPORTING.iter().any(|name| word == name));
    let is_read = words.iter().any(|word| fs::metadata(word).is_ok_and(|it| it.file_type().is_fifo()));
    reports && !is_read && !["--format", "--wave", "--output", "-o", "--in-place"].iter().any(|option| has(words, option))
}

fn has(words: &[OsString], option: &str) -> bool {
    words.iter().any(|word| word.to_string_lossy().starts_with(option))
}

// Several programs may add objects at a time, so all of one run are written at once.
fn keep(output: &Output) -> Result<(), Box<dyn Error>> {
    let mut objects = Vec::new();
    for text in [&output.stdout, &output.stderr] {
        for line in text.split_inclusive(|byte| *byte == b'\n').filter(|line| line.starts_with(b"{\"kind\":")) {
            objects.extend_from_slice(line);
        }
    }
    let path = env::var_os("KEPT").ok_or("KEPT names no file")?;
    OpenOptions::new().create(true).append(true).open(path)?.write_all(&objects)?;
    Ok(())
}
