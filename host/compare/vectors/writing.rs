//! The vectors of the writer, answered by the rules of `crate::writing` on Rust's str, which the comparison holds against the
//! original.

use super::{Area, LONGEST_LINE, Operation, Question};
use crate::generate::Random;
use crate::notation::Argument::{self, Number, Text};
use crate::notation::bars;
use crate::writing::{JOURNAL, any, damaged, document, expected, export_header, fitting, station_fields, strs};
use oxbreathe::sys::{self, Written};

pub const AREA: Area = Area {
    name: "writing",
    head: &[
        "What writing gives, one vector a line: OPERATION TEXT COUNT ROOM NUMBER.. = ANSWER. write: the text, the count of",
        "rows, and the numbers of the table. journal: no text. export, station: places and lengths of the texts of the call,",
        "in its order. The answer: the refusal or 0, the bytes written, and the whole output of ROOM bytes, points before.",
    ],
    longest: LONGEST_LINE,
    operations: &[
        Operation {
            name: "write",
            theirs: |a| shown(a, expected(a[0].text(), &table(a), count(a), room(a))),
            ours: |a| answered(a, |out| sys::write(a[0].text(), &table(a), count(a), out)),
        },
        Operation {
            name: "journal",
            theirs: |a| shown(a, fitting(JOURNAL.to_string(), room(a))),
            ours: |a| answered(a, sys::journal_header),
        },
        Operation {
            name: "export",
            theirs: |a| shown(a, strs(texts(a)).and_then(|texts| fitting(export_header(texts), room(a)))),
            ours: |a| {
                let [version, program, created] = texts(a);
                answered(a, |out| sys::export_header(version, program, created, out))
            },
        },
        Operation {
            name: "station",
            theirs: |a| shown(a, strs(texts(a)).and_then(|texts| fitting(station_fields(texts), room(a)))),
            ours: |a| {
                let [call, grid, name, state, county, cq, itu] = texts(a);
                answered(a, |out| sys::station_fields(call, grid, name, state, county, cq, itu, out))
            },
        },
    ],
    questions,
};

fn count(a: &[Argument]) -> usize {
    a[1].number() as usize
}

fn room(a: &[Argument]) -> usize {
    a[2].number() as usize
}

fn table(a: &[Argument]) -> Vec<u32> {
    a[3..].iter().map(|n| n.number() as u32).collect()
}

fn texts<const N: usize>(a: &[Argument]) -> [&[u8]; N] {
    let places = table(a);
    std::array::from_fn(|i| &a[0].text()[places[2 * i] as usize..][..places[2 * i + 1] as usize])
}

fn shown(a: &[Argument], written: Result<Vec<u8>, u32>) -> String {
    let mut out = vec![b'.'; room(a)];
    let (refusal, length) = match written {
        Ok(text) => {
            out[..text.len()].copy_from_slice(&text);
            (0, text.len())
        }
        Err(refusal) => (refusal, 0),
    };
    format!("{refusal} {length} {}", bars(&out))
}

fn answered(a: &[Argument], ours: impl FnOnce(&mut [u8]) -> Written) -> String {
    let mut out = vec![b'.'; room(a)];
    let Written { refusal, length } = ours(&mut out);
    format!("{refusal} {length} {}", bars(&out))
}

fn question(operation: &'static str, text: &[u8], count: usize, room: usize, numbers: &[u32]) -> Question {
    let mut arguments = vec![Text(text.to_vec()), Number(count as u64), Number(room as u64)];
    arguments.extend(numbers.iter().map(|&n| Number(n as u64)));
    (operation, arguments)
}

/// Each refusal's edges, random rows, whole and damaged, and the headers; in outputs that are short, exact and longer.
fn questions(random: &mut Random) -> Vec<Question> {
    let mut all: Vec<Question> = [0, 1, 44, 45, 46, 60].map(|room| question("journal", b"", 0, room, &[])).into();
    for name in ["A", "a", "", "A B", " A", "A ", "A:", ">", "<", "eor", "EOH", "App_LoTW_eof", "\u{3000}", "\u{e9}"] {
        let text = [name.as_bytes(), b"<EOR>\n"].concat();
        all.push(question("write", &text, 1, 40, &[1, 0, name.len() as u32, name.len() as u32, 6]));
    }
    for row in
        [[0, 0, 1, 1, 1], [2, 0, 1, 1, 1], [1, 3, 1, 0, 0], [1, 0, 1, 2, 2], [1, 3, 0, 3, 0], [1, 0, 1, 0, u32::MAX]]
    {
        all.push(question("write", b"aBc", 1, 40, &row));
        all.push(question("write", b"aBc", 2, 40, &row));
    }
    for i in 0..260 {
        let rows = if i % 2 == 0 { document(random) } else { damaged(random) };
        let rows_in = rows.count() + (random.below(15) == 0) as usize;
        let full = expected(&rows.text, &rows.table, rows_in, 200).map_or(30, |text| text.len());
        let room = random.pick(&[full, full, full + 3, full.saturating_sub(1), 0]);
        if rows.table.len() <= 60 && room <= 200 {
            all.push(question("write", &rows.text, rows_in, room, &rows.table));
        }
    }
    for i in 0..120 {
        let (operation, parts) = if i % 2 == 0 { ("export", 3) } else { ("station", 7) };
        let (mut text, mut places) = (Vec::new(), Vec::new());
        for _ in 0..parts {
            let part = any(random);
            let part = &part[..part.len().min(9)];
            places.extend([text.len() as u32, part.len() as u32]);
            text.extend_from_slice(part);
        }
        let room = random.pick(&[0, 60, 100, 130, 160]);
        all.push(question(operation, &text, 0, room, &places));
    }
    all
}
