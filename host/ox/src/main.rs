//! `ox`, for the log desk: what importing a file would do, and why a file is refused. Whatever it says of a record, a list or a file is the
//! library's answer; this program reads files, lays the answers out and writes files.
//! Exit status: 0 done, 1 refused or not fresh, 2 bad usage or a file that cannot be read or written.
#![forbid(unsafe_code)]

mod args;
mod digest;
mod encoding;
mod files;
mod fresh;
mod html;
mod json;
mod list;
mod preview;
mod progress;
mod refused;
mod rewrite;
mod saved;
mod table;

use args::Command;
use std::io::{self, IsTerminal, Write};
use std::process::ExitCode;

/// What a command says on standard output and on standard error, in order, and its exit status.
#[derive(Default)]
struct Said {
    parts: Vec<Part>,
    status: u8,
}

enum Part {
    Out(String),
    Err(String),
}

impl Said {
    fn out(&mut self, text: impl Into<String>) {
        self.parts.push(Part::Out(text.into()));
    }

    fn err(&mut self, text: impl Into<String>) {
        self.parts.push(Part::Err(text.into()));
    }

    /// The worst of the statuses counts.
    fn status(&mut self, status: u8) {
        self.status = self.status.max(status);
    }
}

/// Why a command did nothing.
enum Failure {
    /// A file that cannot be read or written.
    File(String),
    /// The library refuses.
    Refused(String),
}

impl Failure {
    /// What is said of it, and the exit status.
    fn told(self) -> (String, u8) {
        match self {
            Failure::File(what) => (format!("ox: {what}\n"), 2),
            Failure::Refused(what) => (what, 1),
        }
    }
}

fn done(text: impl Into<String>) -> Result<Said, Failure> {
    Ok(Said { parts: vec![Part::Out(text.into())], status: 0 })
}

fn run() -> Result<Said, Failure> {
    match args::command(std::env::args_os()) {
        Command::Preview(asked) => preview::run(&asked, is_coloured()),
        Command::List { from, out } => list::make(&from, &out),
        Command::ListShow { list } => list::show(&list),
        Command::Fresh(asked) => fresh::run(&asked),
        Command::Rewrite { from, out } => rewrite::run(&from, &out),
        Command::Completions(shell) => done(args::completions(shell)),
    }
}

/// Colours are for a terminal, and for who did not ask to have none.
fn is_coloured() -> bool {
    io::stdout().is_terminal() && std::env::var_os("NO_COLOR").is_none_or(|value| value.is_empty())
}

/// Writes to standard output. Where nobody reads any more there is nothing left to do, which is no failure.
fn say(text: &str) -> bool {
    let mut out = io::stdout().lock();
    match out.write_all(text.as_bytes()).and_then(|()| out.flush()) {
        Err(error) if error.kind() != io::ErrorKind::BrokenPipe => {
            complain(&format!("ox: standard output: {error}\n"));
            false
        }
        _ => true,
    }
}

/// Writes to standard error; where that is closed too there is nobody to tell.
fn complain(text: &str) {
    let _ = io::stderr().write_all(text.as_bytes());
}

fn main() -> ExitCode {
    let said = run().unwrap_or_else(|failure| {
        let (text, status) = failure.told();
        Said { parts: vec![Part::Err(text)], status }
    });
    let all_said = said.parts.iter().all(|part| match part {
        Part::Out(text) => say(text),
        Part::Err(text) => {
            complain(text);
            true
        }
    });
    ExitCode::from(if all_said { said.status } else { 2 })
}
