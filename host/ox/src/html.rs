//! The preview as one page, and a page of a refused file to be sent to the club: no script is needed to read or print them; one sorts, filters
//! and pages the tables.

use crate::preview::{Record, Shown};
use crate::{list, table};
use oxbreathe::contacts::Contact;
use oxbreathe::plan::{Confirmation, Fate};
use std::collections::BTreeMap;
use std::ops::Range;

/// What a page is made of and by: told at its foot, so that a preview can be held against its file and its list.
pub struct Origin<'a> {
    /// The file's name, as it was given.
    pub file: &'a str,
    /// In 64 hexadecimal digits.
    pub file_sha256: &'a str,
    /// The list's name and its SHA-256; none is an empty log.
    pub log: Option<(&'a str, &'a str)>,
    pub download: bool,
    pub window: i64,
    pub made: &'a str,
    /// The tool and its version.
    pub by: &'a str,
}

/// Of a refused file: what is wrong with it, where, and what to do.
pub struct Fault<'a> {
    pub number: u32,
    pub meaning: &'a str,
    /// The field, the place and the lengths, as far as they are known; or empty.
    pub facts: &'a str,
    pub excerpt: Option<Excerpt<'a>>,
    /// One paragraph a line; or empty.
    pub advice: &'a str,
}

/// The line of a file that it is refused for.
pub struct Excerpt<'a> {
    pub line: usize,
    pub shown: &'a str,
    /// What of it is meant, in characters.
    pub meant: Range<usize>,
}

/// A text as it stands in a page: on one line, and never as markup.
fn escaped(text: &str) -> String {
    let mut out = String::with_capacity(text.len());
    for c in table::plain(text).chars() {
        match c {
            '&' => out += "&amp;",
            '<' => out += "&lt;",
            '>' => out += "&gt;",
            '"' => out += "&quot;",
            c => out.push(c),
        }
    }
    out
}

/// A name inside a sentence: what is written from right to left in it stays in it.
fn isolated(name: &str) -> String {
    format!("<bdi>{}</bdi>", escaped(name))
}

pub fn page(origin: &Origin, shown: &Shown) -> String {
    let name = escaped(origin.file);
    let kind = if origin.download { "download of confirmations" } else { "import" };
    let log = origin.log.map_or("an empty log".to_string(), |(name, _)| isolated(name));
    let mut body = format!(
        "<h1>Preview of {name}</h1>\n<p class=\"summary\">{}</p>\n\
         <p>A preview of the {kind}, against {log}: {}; window {} seconds. Nothing was changed.</p>\n",
        escaped(&shown.plan.summary()),
        list::marked(shown.plan.mark),
        origin.window,
    );
    let counts = counted(shown.plan.fates.iter().copied());
    body += &bar(&counts);
    let (records, all) = (shown.records.len(), shown.plan.fates.len());
    if records < all {
        let counts = counted(shown.records.iter().map(|record| record.fate));
        let names: Vec<_> = counts.iter().map(|(name, _)| *name).collect();
        let names = if names.is_empty() { String::new() } else { format!(": {}", names.join(", ")) };
        body += &format!("<p>{records} of {all} records{names}</p>\n");
    }
    body += &tabled(
        "records",
        &format!("Records of {name} and what would become of each"),
        ["No", "Call", "Date", "Time", "Band", "Mode", "Fate", "Reason"],
        &shown.records.iter().map(record).collect::<String>(),
    );
    if !shown.confirmations.is_empty() {
        body += "<h2>Newly confirmed</h2>\n";
        body += &tabled(
            "confirmations",
            "Contacts of the log that are newly confirmed",
            ["Id", "Call", "Date", "Time", "Band", "Mode", "By", "On"],
            &shown.confirmations.iter().map(confirmation).collect::<String>(),
        );
    }
    let width = |(name, count): &(&str, usize)| format!("#bar .{name} {{ flex-grow: {count}; }}\n");
    document(origin, &format!("Preview of {name}"), &counts.iter().map(width).collect::<String>(), &body, Some(SCRIPT))
}

/// Each fate that occurs and how often, in the order of the library's numbers; the reason does not matter here.
fn counted(fates: impl Iterator<Item = Fate>) -> Vec<(&'static str, usize)> {
    let mut counts = BTreeMap::new();
    for fate in fates {
        counts.entry(fate.number()).or_insert((fate.name(), 0)).1 += 1;
    }
    counts.into_values().collect()
}

/// The counts as one bar; each part is a label of its fate, and with the script a switch.
fn bar(counts: &[(&str, usize)]) -> String {
    let part =
        |(name, count): &(&str, usize)| format!("<li class=\"{name}\"><span><b>{count}</b> {name}</span></li>\n");
    format!("<ul id=\"bar\" aria-label=\"Records by fate\">\n{}</ul>\n", counts.iter().map(part).collect::<String>())
}

/// A table. Where a script runs, what `noscript` holds is a text to the browser, and no table of some 100,000 cells. The roles are those that
/// it has by itself: where the style lays it out as cards, some browsers forget them.
fn tabled(id: &str, caption: &str, heads: [&str; 8], rows: &str) -> String {
    let head = |name: &&str| {
        let order = match *name {
            "No" | "Id" => " data-order=\"number\"",
            "Band" => " data-order=\"band\"",
            _ => "",
        };
        format!("<th scope=\"col\" role=\"columnheader\"{order}><span>{name}</span></th>")
    };
    format!(
        "<section>\n<noscript class=\"{id}\">\n<table id=\"{id}\" role=\"table\">\n<caption>{caption}</caption>\n\
         <thead role=\"rowgroup\"><tr role=\"row\">{}</tr></thead>\n<tbody role=\"rowgroup\">\n{rows}</tbody>\n</table>\n</noscript>\n</section>\n",
        heads.iter().map(head).collect::<String>()
    )
}

/// A call of more characters than this is none, and may be broken.
const LONGEST_CALL: usize = 16;

/// A row of a table: a number, a call, which heads the row, and what else there is.
fn row(class: &str, number: &str, call: &str, rest: [&str; 6]) -> String {
    let long = if call.chars().count() > LONGEST_CALL { " class=\"long\"" } else { "" };
    let rest: String = rest.iter().map(|text| format!("<td>{}</td>", escaped(text))).collect();
    format!("<tr class=\"{class}\"><td>{number}</td><th scope=\"row\"{long}>{}</th>{rest}</tr>\n", escaped(call))
}

fn record(record: &Record) -> String {
    let Record { number, call, date, time, band, mode, fate } = record;
    row(fate.name(), &number.to_string(), call, [date, time, band, mode, fate.name(), record.reason()])
}

fn confirmation((confirmation, contact): &(Confirmation, Contact)) -> String {
    let Contact { call, date, time, band, mode, .. } = contact;
    let on = confirmation.date.unwrap_or_default();
    row("confirmed", &confirmation.id.to_string(), call, [date, time, band, mode, confirmation.service.name(), on])
}

pub fn refused(origin: &Origin, fault: &Fault) -> String {
    let name = escaped(origin.file);
    let mut body = format!(
        "<h1>Refused: {name}</h1>\n<p class=\"summary\">Refused {}: {}</p>\n\
         <p>The file cannot be read as it is. Nothing of it was imported, and nothing was changed.</p>\n",
        fault.number,
        escaped(fault.meaning),
    );
    if !fault.facts.is_empty() || fault.excerpt.is_some() {
        body += "<h2>Where</h2>\n";
    }
    if !fault.facts.is_empty() {
        body += &format!("<p>{}</p>\n", escaped(fault.facts));
    }
    if let Some(excerpt) = &fault.excerpt {
        body += &excerpted(excerpt);
    }
    if !fault.advice.is_empty() {
        let lines: String =
            fault.advice.lines().map(|line| format!("<p class=\"advice\">{}</p>\n", escaped(line))).collect();
        body += &format!("<h2>What to do</h2>\n{lines}");
    }
    document(origin, &format!("Refused: {name}"), "", &body, None)
}

/// The line with the place marked; a place behind its end is a blank.
fn excerpted(excerpt: &Excerpt) -> String {
    let Excerpt { line, shown, meant } = excerpt;
    let part = |from: usize, to: usize| escaped(&shown.chars().take(to).skip(from).collect::<String>());
    let marked = part(meant.start, meant.end);
    format!(
        "<figure>\n<figcaption>Line {line} of the file, the place marked:</figcaption>\n<pre>{}<mark>{}</mark>{}</pre>\n</figure>\n",
        part(0, meant.start),
        if marked.is_empty() { "\u{a0}" } else { &marked },
        part(meant.end, usize::MAX),
    )
}

/// A whole page. The browser takes no style and runs no script but those that bear the SHA-256 of the file, which no text in that file can
/// hold; and it fetches nothing.
fn document(origin: &Origin, title: &str, style: &str, body: &str, script: Option<&str>) -> String {
    let key = escaped(origin.file_sha256);
    let scripts = if script.is_some() { format!(" script-src 'nonce-{key}';") } else { String::new() };
    let early = script.map_or(String::new(), |_| format!("<script nonce=\"{key}\">{EARLY}</script>\n"));
    let late = script.map_or(String::new(), |script| format!("<script nonce=\"{key}\">\n{script}</script>\n"));
    format!(
        "<!DOCTYPE html>\n<html lang=\"en\">\n<head>\n<meta charset=\"utf-8\">\n\
         <meta http-equiv=\"Content-Security-Policy\" content=\"default-src 'none'; style-src 'nonce-{key}';{scripts} \
         base-uri 'none'; form-action 'none'\">\n\
         <meta name=\"viewport\" content=\"width=device-width, initial-scale=1\">\n<title>{title}</title>\n\
         <style nonce=\"{key}\">\n{STYLE}{style}</style>\n{early}</head>\n<body>\n<main>\n{body}</main>\n{}{late}</body>\n</html>\n",
        foot(origin),
    )
}

/// What the page was made of, when and by what.
fn foot(origin: &Origin) -> String {
    let told = |what: &str, name: &str, sha256: &str| {
        let (name, sha256) = (isolated(name), escaped(sha256));
        format!("<dt>{what}</dt><dd>{name}<br>SHA-256 <code>{sha256}</code></dd>\n")
    };
    format!(
        "<footer>\n<dl>\n{}{}<dt>Made</dt><dd>{}</dd>\n<dt>By</dt><dd>{}</dd>\n</dl>\n</footer>\n",
        told("File", origin.file, origin.file_sha256),
        origin.log.map_or(String::new(), |(name, sha256)| told("List", name, sha256)),
        escaped(origin.made),
        escaped(origin.by),
    )
}

const STYLE: &str = include_str!("page.css");
const SCRIPT: &str = include_str!("page.js");
/// Where the script fails, the tables are shown as they would be without it.
const EARLY: &str = "onerror = () => { \
    for (const held of document.querySelectorAll('noscript')) held.parentNode.innerHTML = held.textContent; };";
