//! Text laid out in columns for a terminal.

use oxbreathe::contacts::Contact;
use oxbreathe::plan::Fate;
use std::iter::once;

/// A text of a file as it can be shown on one line: what would move the cursor, change colours or turn the reading order becomes a mark.
pub fn plain(text: &str) -> String {
    let shown = |c: char| match c {
        '\t' => ' ',
        '\u{2028}' | '\u{2029}' | '\u{202a}'..='\u{202e}' | '\u{2066}'..='\u{2069}' => '\u{fffd}',
        c if c.is_control() => '\u{fffd}',
        c => c,
    };
    text.chars().map(shown).collect()
}

/// The widest that a column gets.
const WIDEST: usize = 24;

/// A cell: one line, cut where it is too long.
pub fn cell(text: &str) -> String {
    let mut cut: String = text.chars().take(WIDEST).collect();
    if cut.len() < text.len() {
        cut.pop();
        cut.push('…');
    }
    plain(&cut)
}

/// The colour of a fate on a terminal, by its number in the codes.
pub fn colour(fate: Fate) -> u8 {
    match fate {
        Fate::Importable => 32,
        Fate::DuplicateInLog | Fate::DuplicateInFile => 33,
        Fate::Unusable(_) => 31,
        Fate::Confirmed => 36,
        Fate::Unmatched => 35,
        Fate::Ignored => 90,
    }
}

/// The columns of a contact, in every table.
const CONTACT: [&str; 5] = ["call", "date", "time", "band", "mode"];

/// The cells of a contact under them.
pub fn contact(contact: &Contact) -> [String; 5] {
    [contact.call, contact.date, contact.time, contact.band, contact.mode].map(cell)
}

/// A row of a table, perhaps coloured.
pub struct Row {
    pub cells: Vec<String>,
    pub colour: Option<u8>,
}

/// A number, a contact and what is said of it.
pub fn row<const N: usize>(number: String, contact: [String; 5], said: [String; N], colour: Option<u8>) -> Row {
    Row { cells: once(number).chain(contact).chain(said).collect(), colour }
}

/// Such rows under their head, the numbers to the right.
pub fn of_contacts<const N: usize>(number: &str, said: [&str; N], rows: &[Row]) -> String {
    let head: Vec<&str> = once(number).chain(CONTACT).chain(said).collect();
    laid_out(&head, &[0], rows)
}

/// Rows under their head; the columns of these numbers stand to the right.
pub fn laid_out(head: &[&str], to_the_right: &[usize], rows: &[Row]) -> String {
    let mut widths: Vec<usize> = head.iter().map(|cell| cell.chars().count()).collect();
    for row in rows {
        for (width, cell) in widths.iter_mut().zip(&row.cells) {
            *width = cell.chars().count().max(*width);
        }
    }
    let line = |cells: &mut dyn Iterator<Item = &str>| {
        let padded = cells.zip(&widths).enumerate().map(|(column, (cell, &width))| {
            if to_the_right.contains(&column) { format!("{cell:>width$}") } else { format!("{cell:width$}") }
        });
        padded.collect::<Vec<_>>().join("  ").trim_end().to_string()
    };
    let mut text = line(&mut head.iter().copied()) + "\n";
    for Row { cells, colour } in rows {
        let line = line(&mut cells.iter().map(String::as_str));
        text += &colour.map_or(format!("{line}\n"), |colour| format!("\x1b[{colour}m{line}\x1b[0m\n"));
    }
    text
}
