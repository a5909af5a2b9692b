//! Recorded answers of Rust's std and the original, one a line: written by `record`, replayed through the library as a
//! group, and by a Rattle program. An area is one file of vectors; a new one is a module with an `AREA`, named below.

mod dedupe;
mod frequency;
mod model;
mod normalize;
mod plan;
mod reading;
mod text;
mod writing;

#[cfg(original)]
pub use model::COLUMNS;

use crate::generate::Random;
use crate::harness::{Group, Input, Run};
use crate::notation::Argument;
use oxbreathe::Refusal;
use std::collections::HashSet;
use std::path::{Path, PathBuf};
use std::process::ExitCode;

const AREAS: [Area; 8] =
    [text::AREA, frequency::AREA, normalize::AREA, reading::AREA, writing::AREA, model::AREA, dedupe::AREA, plan::AREA];

struct Area {
    /// The file's name without `.txt`.
    name: &'static str,
    /// Comment lines that open the file, without their `#`.
    head: &'static [&'static str],
    /// A longer line is left out: a Rattle program reads lines into a buffer of fixed size.
    longest: usize,
    operations: &'static [Operation],
    /// What to record: operations by name, with their arguments.
    questions: fn(&mut Random) -> Vec<Question>,
}

struct Operation {
    name: &'static str,
    theirs: Answer,
    ours: Answer,
}

type Answer = fn(&[Argument]) -> String;
type Question = (&'static str, Vec<Argument>);

impl Area {
    fn operation(&self, name: &str) -> Option<&Operation> {
        self.operations.iter().find(|o| o.name == name)
    }
}

/// The library's answer, or its refusal in words, which no vector has for an answer.
fn told<T>(answer: Result<T, Refusal>, show: impl FnOnce(T) -> String) -> String {
    answer.map_or_else(|refusal| refusal.to_string(), show)
}

// Replaying

/// Every vector of the folder, a group a file, and every file of the samples: the library's answer and, so that a record never goes
/// stale, theirs.
pub fn run(run: &mut Run, folder: &Path, samples: &Path) {
    for area in AREAS {
        let file = folder.join(area.name).with_extension("txt");
        let Ok(lines) = std::fs::read_to_string(&file) else {
            run.left_out(&format!("no vectors at {}", file.display()));
            continue;
        };
        run.group(&format!("vectors/{}", area.name), |g| {
            lines.lines().filter(|line| !line.starts_with('#')).for_each(|line| replay(g, &area, line));
        });
    }
    let shown: Vec<(Vec<u8>, Vec<u8>)> = (1..)
        .map(|number| sample(samples, number))
        .map_while(|[file, printed]| Some((std::fs::read(file).ok()?, std::fs::read(printed).ok()?)))
        .collect();
    if shown.is_empty() {
        return run.left_out(&format!("no files at {}", samples.display()));
    }
    run.group("vectors/showplan", |g| {
        for (text, printed) in &shown {
            let printed = String::from_utf8_lossy(printed);
            g.same(&text[..], plan::printed(&plan::showplan(text)), printed.to_string());
            g.same(&text[..], plan::expected(text), printed.to_string());
        }
    });
}

/// A file to plan, and what showplan prints of it.
fn sample(folder: &Path, number: usize) -> [PathBuf; 2] {
    ["adi", "txt"].map(|kind| folder.join(format!("{number:02}.{kind}")))
}

fn replay(g: &mut Group, area: &Area, line: &str) {
    let Some((operation, arguments, recorded)) = read(area, line) else {
        return g.same(Line(line), "cannot be read", "a vector");
    };
    g.same(Line(line), (operation.ours)(&arguments), recorded.to_string());
    g.same(Line(line), (operation.theirs)(&arguments), recorded.to_string());
}

/// Shown as it stands in the file.
struct Line<'a>(&'a str);

impl Input for Line<'_> {
    fn size(&self) -> usize {
        self.0.len()
    }
    fn show(&self) -> String {
        self.0.to_string()
    }
}

fn read<'a>(area: &'a Area, line: &'a str) -> Option<(&'a Operation, Vec<Argument>, &'a str)> {
    let (question, answer) = line.split_once(" = ")?;
    let mut words = question.split(' ');
    let operation = area.operation(words.next()?)?;
    Some((operation, words.map(Argument::read).collect::<Option<_>>()?, answer))
}

// Recording

/// Of a line, where an area wants no more.
const LONGEST_LINE: usize = 400;

pub fn record(folder: &Path, samples: &Path, seed: u64) -> ExitCode {
    match recorded(folder, samples, seed) {
        Ok(()) => ExitCode::SUCCESS,
        Err(error) => {
            eprintln!("{error}");
            ExitCode::FAILURE
        }
    }
}

fn recorded(folder: &Path, samples: &Path, seed: u64) -> Result<(), String> {
    let write =
        |file: &Path, bytes: &[u8]| std::fs::write(file, bytes).map_err(|error| format!("{}: {error}", file.display()));
    for area in AREAS {
        let file = folder.join(area.name).with_extension("txt");
        let lines = lines(&area, seed);
        write(&file, lines.as_bytes())?;
        let vectors = lines.lines().filter(|line| !line.starts_with('#')).count();
        println!("{}: {vectors} vectors, {} bytes", file.display(), lines.len());
    }
    for (number, text) in (1..).zip(plan::files(&mut Random::new(seed))) {
        let [file, printed] = sample(samples, number);
        write(&file, &text)?;
        write(&printed, plan::expected(&text).as_bytes())?;
    }
    Ok(())
}

fn lines(area: &Area, seed: u64) -> String {
    let mut lines: Vec<String> = area.head.iter().map(|line| format!("# {line}")).collect();
    lines.push(format!("# Recorded by `make record`, seed {seed}; not to be edited."));
    let mut seen = HashSet::new();
    for (name, arguments) in (area.questions)(&mut Random::new(seed)) {
        let operation = area.operation(name).expect("an operation of the area");
        let shown: Vec<String> = arguments.iter().map(Argument::show).collect();
        let line = format!("{name} {} = {}", shown.join(" "), (operation.theirs)(&arguments));
        if line.len() <= area.longest && seen.insert(line.clone()) {
            lines.push(line);
        }
    }
    lines.join("\n") + "\n"
}
