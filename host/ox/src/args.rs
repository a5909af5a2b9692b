//! What was asked for: the command line, its help, and the completions of shells.

use crate::files::{In, Out};
use clap::builder::PossibleValuesParser;
use clap::error::ErrorKind;
use clap::{Arg, ArgAction, ArgMatches, Command as Clap, ValueHint, value_parser};
use clap_complete::Shell;
use oxbreathe::plan::{Fate, Reason};
use std::ffi::OsString;
use std::path::PathBuf;

/// One command with what it needs.
pub enum Command {
    Preview(Preview),
    List { from: In, out: Out },
    ListShow { list: In },
    Fresh(Fresh),
    Rewrite { from: In, out: Out },
    Completions(Shell),
}

/// What a preview is made of, beside the file.
#[derive(Clone)]
pub struct Against {
    /// None is a log with no contact.
    pub log: Option<In>,
    pub window: i64,
    pub download: bool,
}

pub struct Preview {
    pub files: Vec<In>,
    pub against: Against,
    /// The fates to show, none for all.
    pub only: Vec<String>,
    pub form: Form,
}

pub enum Form {
    Table,
    Summary,
    Json,
    Html(Out),
}

pub struct Fresh {
    pub plan: In,
    /// Where the previewed files are now, in the order of their previews; none: under the names that they had.
    pub files: Vec<In>,
    pub list: In,
    pub window: i64,
    pub download: bool,
}

/// The seconds that two contacts may be apart and still be one, unless told otherwise.
const WINDOW: &str = "1800";

/// The list that is always the same: where no list is named, this variable names one.
const LOG: &str = "OX_LOG";

/// Each fate, in the order of the library's numbers; the reason does not matter here.
pub fn fates() -> impl Iterator<Item = Fate> {
    (1..).map_while(|number| Fate::numbered(number, 0).or_else(|| Fate::numbered(number, Reason::NoCall.number())))
}

/// The command that the words are for; where there is none, or help was asked for, clap says so and the program ends.
pub fn command(words: impl Iterator<Item = OsString>) -> Command {
    let mut given = clap().try_get_matches_from(spread(words)).unwrap_or_else(|wrong| wrong.exit());
    let (name, mut given) = given.remove_subcommand().unwrap_or_default();
    let asked = match &*name {
        "preview" => preview(&mut given),
        "list" => list(&mut given),
        "fresh" => fresh(&mut given),
        "rewrite" => Ok(Command::Rewrite { from: input(&mut given, "IN"), out: output(&mut given, "OUT") }),
        _ => Ok(Command::Completions(given.remove_one("SHELL").unwrap_or(Shell::Bash))),
    };
    asked.unwrap_or_else(|Wrong { mut of, kind, what }| of.error(kind, what).exit())
}

/// Behind `--only` several fates may stand: each gets an `--only` of its own, so that a file may follow them.
fn spread(words: impl Iterator<Item = OsString>) -> Vec<OsString> {
    let mut spread: Vec<OsString> = Vec::new();
    for word in words {
        let fates_before = spread.iter().rev().take_while(|word| is_fate(word)).count();
        let only = spread.iter().rev().nth(fates_before).is_some_and(|word| word == "--only");
        if fates_before > 0 && only && is_fate(&word) && spread.iter().all(|word| word != "--") {
            spread.push("--only".into());
        }
        spread.push(word);
    }
    spread
}

fn is_fate(word: &OsString) -> bool {
    fates().any(|fate| *word == *fate.name())
}

fn list_of_always() -> Option<PathBuf> {
    std::env::var_os(LOG).filter(|path| !path.is_empty()).map(PathBuf::from)
}

fn path(given: &mut ArgMatches, name: &str) -> Option<PathBuf> {
    given.remove_one(name)
}

fn input(given: &mut ArgMatches, name: &str) -> In {
    In::named(path(given, name).unwrap_or_default())
}

fn output(given: &mut ArgMatches, name: &str) -> Out {
    Out { path: path(given, name).unwrap_or_default(), force: given.get_flag("force") }
}

/// What is wrong with the words of a command, where clap itself cannot tell.
struct Wrong {
    of: Clap,
    kind: ErrorKind,
    what: String,
}

impl Wrong {
    fn new(name: &str, of: Clap, kind: ErrorKind, what: impl Into<String>) -> Wrong {
        Wrong { of: of.bin_name(format!("ox {name}")), kind, what: what.into() }
    }
}

/// Standard input can be read once.
fn read_once<'a>(name: &str, of: Clap, inputs: impl Iterator<Item = &'a In>) -> Result<(), Wrong> {
    if inputs.filter(|input| input.is_standard()).count() > 1 {
        return Err(Wrong::new(name, of, ErrorKind::ArgumentConflict, "standard input (-) can be read only once"));
    }
    Ok(())
}

fn preview(given: &mut ArgMatches) -> Result<Command, Wrong> {
    let files: Vec<In> = given.remove_many::<PathBuf>("FILE").into_iter().flatten().map(In::named).collect();
    let form = match path(given, "html") {
        Some(_) if files.len() > 1 => {
            let what = "a page (--html) is of one file";
            return Err(Wrong::new("preview", preview_words(), ErrorKind::ArgumentConflict, what));
        }
        Some(path) => Form::Html(Out { path, force: given.get_flag("force") }),
        None if given.get_flag("json") => Form::Json,
        None if given.get_flag("summary") => Form::Summary,
        None => Form::Table,
    };
    let against = Against {
        log: path(given, "log").or_else(list_of_always).map(In::named),
        window: given.remove_one("window").unwrap_or_default(),
        download: given.get_flag("download"),
    };
    read_once("preview", preview_words(), files.iter().chain(&against.log))?;
    let only = given.remove_many("only").into_iter().flatten().collect();
    Ok(Command::Preview(Preview { files, against, only, form }))
}

/// The list that is named, or else the one that is always the same.
fn named_list(name: &str, of: Clap, given: &mut ArgMatches) -> Result<In, Wrong> {
    let named = path(given, "LIST").or_else(list_of_always).map(In::named);
    let what = format!("no LIST, and {LOG} names none");
    named.ok_or_else(|| Wrong::new(name, of, ErrorKind::MissingRequiredArgument, what))
}

fn list(given: &mut ArgMatches) -> Result<Command, Wrong> {
    match given.remove_subcommand() {
        Some((_, mut given)) => Ok(Command::ListShow { list: named_list("list show", show_words(), &mut given)? }),
        None => Ok(Command::List { from: input(given, "FROM"), out: output(given, "OUT") }),
    }
}

fn fresh(given: &mut ArgMatches) -> Result<Command, Wrong> {
    let asked = Fresh {
        plan: input(given, "PLAN"),
        files: given.remove_many::<PathBuf>("file").into_iter().flatten().map(In::named).collect(),
        list: named_list("fresh", fresh_words(), given)?,
        window: given.remove_one("window").unwrap_or_default(),
        download: given.get_flag("download"),
    };
    read_once("fresh", fresh_words(), asked.files.iter().chain([&asked.plan, &asked.list]))?;
    Ok(Command::Fresh(asked))
}

/// The completions of a shell. Those for bash offer `<FILE>...` as a word to choose: it is left out, and files are completed in its place.
pub fn completions(shell: Shell) -> String {
    let mut script = Vec::new();
    clap_complete::generate(shell, &mut clap(), "ox", &mut script);
    let script = String::from_utf8_lossy(&script).into_owned();
    if shell != Shell::Bash {
        return script;
    }
    let choices = |line: &str| {
        let words = line.split(' ').filter(|word| !word.starts_with(['<', '[']));
        words.collect::<Vec<_>>().join(" ").trim_end_matches('"').to_string() + "\""
    };
    let kept = |line: &str| {
        if line.trim_start().starts_with("opts=\"-") { choices(line) } else { line.to_string() }
    };
    script.lines().map(|line| kept(line) + "\n").collect()
}

// ---- the words that are known

fn flag(name: &'static str, help: &'static str) -> Arg {
    Arg::new(name).long(name).action(ArgAction::SetTrue).help(help)
}

fn file(name: &'static str, help: &'static str) -> Arg {
    Arg::new(name).value_parser(value_parser!(PathBuf)).value_hint(ValueHint::FilePath).help(help)
}

fn option(name: &'static str, value: &'static str, help: &'static str) -> Arg {
    file(name, help).long(name).value_name(value)
}

fn window() -> Arg {
    let help = "Two contacts are one when they are no further apart than this";
    Arg::new("window")
        .long("window")
        .value_name("SECONDS")
        .value_parser(|seconds: &str| seconds.parse::<i64>().map_err(|_| "no whole number of seconds"))
        .allow_negative_numbers(true)
        .default_value(WINDOW)
        .help(help)
}

fn force() -> Arg {
    flag("force", "Lets OUT be overwritten")
}

fn subcommand(name: &'static str, about: &'static str, more: &'static str) -> Clap {
    Clap::new(name).about(about).after_help(more).disable_version_flag(true)
}

fn clap() -> Clap {
    Clap::new("ox")
        .bin_name("ox")
        .version(env!("CARGO_PKG_VERSION"))
        .long_version(version())
        .about("What importing a log file (ADIF) would do, before anything is imported")
        .after_help(EXAMPLES)
        .subcommand_required(true)
        .arg_required_else_help(true)
        .disable_help_subcommand(true)
        .subcommand(preview_words())
        .subcommand(list_words())
        .subcommand(fresh_words())
        .subcommand(
            subcommand("rewrite", "Reads a file, normalises its contacts and writes them back", REWRITE)
                .arg(file("IN", "The log to read (ADIF); - is standard input").required(true))
                .arg(file("OUT", "The log to write").required(true))
                .arg(force()),
        )
        .subcommand(
            subcommand("completions", "Prints the completions for a shell", COMPLETIONS)
                .arg(Arg::new("SHELL").required(true).value_parser(value_parser!(Shell)).help("The shell")),
        )
}

fn preview_words() -> Clap {
    let fates = PossibleValuesParser::new(fates().map(Fate::name));
    subcommand("preview", "The fate of each record: to import, duplicate, confirmed, unusable", PREVIEW)
        .arg(
            file("FILE", "The log files to preview (ADIF), each by itself; - is standard input")
                .required(true)
                .num_args(1..),
        )
        .arg(option(
            "log",
            "LIST",
            "The contacts that the log has (ox list makes one) [env: OX_LOG, else an empty log]",
        ))
        .arg(window())
        .arg(flag("download", "FILE is a download of confirmations: nothing of it is imported"))
        .arg(
            Arg::new("only")
                .long("only")
                .value_name("FATE")
                .value_parser(fates)
                .value_delimiter(',')
                .action(ArgAction::Append)
                .help("Shows the records with this fate; several may follow each other"),
        )
        .arg(flag("summary", "Shows no records, only what they come to").conflicts_with_all(["json", "html", "only"]))
        .arg(flag("json", "Prints the preview as JSON, to be saved for ox fresh").conflicts_with("html"))
        .arg(option("html", "OUT", "Writes a page for the browser and the printer, also of a refused file"))
        .arg(force().requires("html"))
}

fn show_words() -> Clap {
    subcommand("show", "Prints a contact list", LIST_SHOW)
        .arg(file("LIST", "The list; - is standard input [env: OX_LOG]"))
}

fn list_words() -> Clap {
    subcommand("list", "Makes a contact list of a log, for preview's --log; ox list show prints one", LIST)
        .arg(file("FROM", "The log (ADIF); - is standard input").required(true))
        .arg(file("OUT", "The list to write").required(true))
        .arg(force())
        .subcommand(show_words())
        .disable_help_subcommand(true)
        .subcommand_negates_reqs(true)
        .args_conflicts_with_subcommands(true)
}

fn fresh_words() -> Clap {
    subcommand("fresh", "Tells whether a saved preview still holds", FRESH)
        .arg(file("PLAN", "What ox preview --json printed; - is standard input").required(true))
        .arg(file("LIST", "The list as it is now [env: OX_LOG]"))
        .arg(
            option("file", "FILE", "Where the previewed file is now; as often as there are previews in PLAN")
                .action(ArgAction::Append),
        )
        .arg(window())
        .arg(flag("download", "FILE is to be taken as a download of confirmations"))
}

/// The version, and what the proved library was built from and with.
pub fn version() -> String {
    format!("{}\nsources {}\nkit {}", env!("CARGO_PKG_VERSION"), oxbreathe::SOURCES, oxbreathe::KIT)
}

const EXAMPLES: &str = "\
Examples:
  ox preview samples/club.adi
  ox list samples/station.adi station.list
  ox preview samples/fieldday.adi --log station.list --only duplicate-in-log

ox COMMAND --help tells more, with examples.
Exit status: 0 done, 1 refused or not fresh, 2 bad usage or a file that cannot be read or written.";

const PREVIEW: &str = "\
Nothing is changed. Several files are previewed each by itself, and a table of them follows: a contact that stands in two
of them counts in both. Exit status 1 if any is refused.

Examples:
  ox list samples/station.adi station.list
  ox preview samples/fieldday.adi --log station.list --only duplicate-in-log
  ox preview --summary samples/*.adi
  ox preview samples/fieldday.adi --log station.list --json >plan.json
  ox preview samples/lotw.adi --log station.list --download --html lotw.html
  unzip -p club.zip | ox preview -";

const LIST: &str = "\
A contact's id is the number of its record. Records that are unusable are left out, and named. (A log of the name show is
./show.)

Examples:
  ox list samples/station.adi station.list
  ox list show station.list";

const LIST_SHOW: &str = "\
Example:
  ox list show station.list";

const FRESH: &str = "\
A preview holds where everything that it was made of is the same: the list and the file, by their SHA-256; the window; and
whether it was of a download. The file is looked for under the name that it had, or where --file says. What is not the same
is told. Exit status 0 if the preview holds, 1 if not.

Examples:
  ox preview samples/fieldday.adi --log station.list --json >plan.json
  ox fresh plan.json station.list && echo go ahead
  ox fresh plan.json station.list --file inbox/fieldday.adi";

const REWRITE: &str = "\
Modes and bands as ADIF names them, names of fields in capitals and in order, a record a line. The header and the comments
of IN are not kept. What a contact cannot hold (a FREQ that is no number) is left out, and named.

Example:
  ox rewrite samples/club.adi club-tidy.adi";

const COMPLETIONS: &str = "\
Example:
  ox completions bash >~/.local/share/bash-completion/completions/ox";

#[cfg(test)]
mod tests {
    use super::*;

    #[test]
    fn words_are_sound() {
        clap().debug_assert();
    }

    #[test]
    fn fates_are_spread() {
        let spread = |words: &str| {
            let words = super::spread(words.split(' ').map(OsString::from));
            words.iter().map(|word| word.to_string_lossy().into_owned()).collect::<Vec<_>>().join(" ")
        };
        assert_eq!(
            spread("ox preview --only ignored unusable x.adi"),
            "ox preview --only ignored --only unusable x.adi"
        );
        assert_eq!(spread("ox preview ignored unusable"), "ox preview ignored unusable");
        assert_eq!(
            spread("ox preview --only ignored confirmed unmatched"),
            "ox preview --only ignored --only confirmed --only unmatched"
        );
        assert_eq!(spread("ox preview -- --only ignored confirmed"), "ox preview -- --only ignored confirmed");
    }
}
