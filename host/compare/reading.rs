//! The reader against a plain second statement of its rules, each field of each answer and each number of the table; and,
//! where the original's sources are at hand, against `parse_adif`.

use crate::generate::{Placed, Random, bytes, damage, every, utf8};
use crate::harness::{Group, Run};
use crate::places::{self, Refused};
use crate::rust;
use oxbreathe::sys::{self, ReadAnswer};
use oxbreathe::{LONGEST, Refusal, reading};
use std::collections::BTreeMap;

pub fn run(run: &mut Run) {
    run.group("reading/short", short);
    run.group("reading/parts", parts);
    run.group("reading/random", random);
    run.group("reading/tables", tables);
    run.group("reading/places", places);
    run.group("reading/limits", limits);
    run.group("reading/stack", stack);
}

// The rules once more, on Rust's str.

type Places = (usize, usize);

/// A record: of each name in capitals, the places of name and value.
type Record = BTreeMap<String, (Places, Places)>;

fn answer(refusal: u32, place: usize) -> ReadAnswer {
    ReadAnswer { refusal, place, ..ReadAnswer::default() }
}

/// The answer and the table that a text is to give.
pub fn expected(text: &[u8], numbers: usize) -> (ReadAnswer, Vec<u32>) {
    let mut table = vec![0; numbers];
    let read = match std::str::from_utf8(text) {
        _ if text.len() > LONGEST => Err(answer(1, 0)),
        Err(e) => Err(answer(2, e.valid_up_to())),
        Ok(text) => records(text, numbers / 5),
    };
    let records = match read {
        Ok(records) => records,
        Err(refusal) => return (refusal, table),
    };
    let rows: Vec<u32> = (1..).zip(&records).flat_map(|(number, record)| lines(number, record)).collect();
    table[..rows.len()].copy_from_slice(&rows);
    (ReadAnswer { records: records.len(), rows: rows.len() / 5, ..ReadAnswer::default() }, table)
}

/// The refusal that an answer tells.
pub fn refusal(answer: &ReadAnswer) -> Refusal {
    let ReadAnswer { refusal, place, name, name_length, wanted, left, .. } = *answer;
    Refusal { name_place: name, name_length, wanted, left, ..rust::refusal(refusal, place) }
}

fn lines(number: u32, record: &Record) -> impl Iterator<Item = u32> {
    let five = |(name, value): &(Places, Places)| [name.0, name.1, value.0, value.1].map(|n| n as u32);
    record.values().flat_map(move |field| std::iter::once(number).chain(five(field))).collect::<Vec<_>>().into_iter()
}

fn records(text: &str, room: usize) -> Result<Vec<Record>, ReadAnswer> {
    let (mut closed, mut hand, mut used) = (Vec::new(), Record::new(), 0);
    let mut close = |closed: &mut Vec<Record>, hand: &mut Record, place: usize| {
        if hand.is_empty() {
            return Ok(());
        }
        if closed.len() == 65_535 {
            return Err(answer(9, place));
        }
        if used + hand.len() > room {
            return Err(answer(10, place));
        }
        used += hand.len();
        closed.push(std::mem::take(hand));
        Ok(())
    };
    let mut at = 0;
    while let Some(start) = text[at..].find('<').map(|i| at + i) {
        let open = start + 1;
        let Some(end) = text[open..].find('>').map(|i| open + i) else { return Err(answer(3, start)) };
        let inside = &text[open..end];
        at = end + 1;
        let (written, rest) = inside.split_once(':').map_or((inside, None), |(name, rest)| (name, Some(rest)));
        // an empty name is at place 0
        let name = match written.trim().len() {
            0 => (0, 0),
            length => (open + written.len() - written.trim_start().len(), length),
        };
        let raised = written.trim().to_ascii_uppercase();
        let refused = |number| ReadAnswer { name: name.0, name_length: name.1, ..answer(number, start) };
        match raised.as_str() {
            "EOH" => hand.clear(),
            "EOR" => close(&mut closed, &mut hand, start)?,
            "APP_LOTW_EOF" => break,
            _ => {
                let length = rest.ok_or(refused(4))?.split(':').next().unwrap().trim();
                let wanted: u64 = length.parse().map_err(|_| refused(5))?;
                let left = (text.len() - at) as u64;
                if wanted > left {
                    return Err(ReadAnswer { wanted, left, ..refused(6) });
                }
                let value = (at, wanted as usize);
                at += wanted as usize;
                if !text.is_char_boundary(at) {
                    return Err(refused(7));
                }
                if hand.len() == 256 && !hand.contains_key(&raised) {
                    return Err(answer(8, start));
                }
                hand.insert(raised, (name, value));
            }
        }
    }
    if !closed.is_empty() {
        close(&mut closed, &mut hand, text.len())?;
    }
    Ok(closed)
}

// What they are compared on.

/// A text and how many numbers the table has: the library beside the rules, and beside the original.
fn same(g: &mut Group, text: &[u8], numbers: usize) {
    let mut table = vec![0xEEEE_EEEE; numbers];
    let read = sys::read(text, &mut table);
    g.same((text, numbers as u64), (read, table.clone()), expected(text, numbers));
    #[cfg(original)]
    beside::same(g, text, &read, &table);
}

#[cfg(original)]
mod beside {
    //! The original, which knows no limits and panics where a sum wraps.
    use super::*;
    use crate::harness::unless_panics;
    use original::adif::{AdifError, parse_adif};

    pub fn same(g: &mut Group, text: &[u8], read: &ReadAnswer, table: &[u32]) {
        let Ok(text) = std::str::from_utf8(text) else { return };
        if matches!(read.refusal, 1 | 8..=10) || text.len() > LONGEST {
            return;
        }
        let theirs = match unless_panics(|| parse_adif(text)) {
            Some(theirs) => theirs,
            // the one difference: a length whose end wraps is 6 here
            None => return g.same(text, (read.refusal, read.wanted > usize::MAX as u64 - LONGEST as u64), (6, true)),
        };
        g.same(text, ours(text, read, table), theirs);
    }

    fn ours(text: &str, read: &ReadAnswer, table: &[u32]) -> Result<Vec<BTreeMap<String, String>>, AdifError> {
        let part = |place: u32, length: u32| &text[place as usize..(place + length) as usize];
        let name = || text[read.name..read.name + read.name_length].to_ascii_uppercase();
        match read.refusal {
            3 => return Err(AdifError::UnterminatedTag),
            4 => return Err(AdifError::MissingLength(name())),
            5 => return Err(AdifError::BadLength(name())),
            6 => {
                let (want, have) = (read.wanted as usize, read.left as usize);
                return Err(AdifError::TruncatedValue { field: name(), want, have });
            }
            7 => return Err(AdifError::NonUtf8(name())),
            _ => {}
        }
        let mut records = vec![BTreeMap::new(); read.records];
        for row in table[..read.rows * 5].chunks(5) {
            let field = (part(row[1], row[2]).to_ascii_uppercase(), part(row[3], row[4]).to_string());
            records[row[0] as usize - 1].extend([field]);
        }
        Ok(records)
    }
}

/// Every text of up to 6 bytes over alphabets that reach every branch.
fn short(g: &mut Group) {
    let texts: [&[&[u8]]; 3] = [
        &[b"<", b">", b":", b"1", b"A", "é".as_bytes()],
        &[b"<", b">", b":", b"0", b"+", b" "],
        &[b"<", b">", b"E", b"o", b"R", b"h"],
    ];
    for alphabet in texts {
        for text in every(alphabet, 6) {
            if text.len() < 4 || g.takes(20) {
                same(g, &text, 12);
            }
        }
    }
    for text in every(&bytes(b"<>:Aa1+0 EORH\xC3"), 4) {
        if text.len() < 3 || g.takes(20) {
            same(g, &text, 12);
        }
    }
}

/// Every run of up to 5 whole parts: fields that repeat names, control tags, comments.
fn parts(g: &mut Group) {
    let parts: [&[u8]; 10] = [
        b"<B:1>x", b"<b:2>yy", b"<A:0>", b"< a : +1 :S>z", b"<EOR>", b"< eoh >", b"<APP_LoTW_EOF>", b"<:5><EOR>",
        b"\n", b"<A",
    ];
    for text in every(&parts, 5) {
        if text.len() < 12 || g.takes(20) {
            same(g, &text, 17);
        }
    }
}

const NAMES: &[&str] = &[
    "CALL", "call", "Call", "BAND", "band ", " MODE", "QSO_DATE", "TIME_ON", "FREQ", "FREQ_RX", "RST_SENT", "A", "a",
    "B", "", " ", "APP_X", "NAME_INTL", "é", "\u{3000}x\u{A0}", "EO", "EORR", "A<B", "[", "_", "Z",
];

/// A document of some fields and records, with comments, headers, types and odd lengths.
pub fn document(random: &mut Random) -> Vec<u8> {
    let mut text = Vec::new();
    for _ in 0..random.place(14) {
        match random.below(12) {
            0 => text.extend(random.pick(&[&b"<EOH>"[..], b"<eoh>", b"< Eoh:x>"])),
            1 | 2 => text.extend(random.pick(&[&b"<EOR>"[..], b"<eor>", b"<eOr >", b"<EOR:3:4>"])),
            3 if random.below(6) == 0 => text.extend(b"<APP_LOTW_EOF>"),
            3 => {
                let length = random.place(6);
                text.extend(utf8(random, length));
            }
            _ => field(random, &mut text),
        }
    }
    text
}

fn field(random: &mut Random, text: &mut Vec<u8>) {
    let length = random.pick(&[0, 1, 1, 2, 4, 4, 8, 30]);
    let value = match random.below(8) {
        0 => b"<EOR><EOR><A:1>x<EOR>"[..length.min(21)].to_vec(),
        _ => utf8(random, length),
    };
    let (before, after) =
        (random.pick(&["", "", "", "+", "0", " ", "\u{2003}"]), random.pick(&["", "", "", " ", ":S", ":S:x"]));
    let told = match random.below(40) {
        0 => random.number(),
        1 => value.len() as u64 + 1,
        2 => (value.len() as u64).saturating_sub(1),
        _ => value.len() as u64,
    };
    text.extend(format!("<{}:{before}{told}{after}>", random.pick(NAMES)).bytes());
    text.extend(value);
}

/// Random documents, whole and damaged, in a table of random size.
fn random(g: &mut Group) {
    for _ in 0..g.depth(20_000, 2_000_000) {
        let mut text = document(&mut g.random);
        if g.random.below(3) == 0 {
            damage(&mut g.random, &mut text);
        }
        let numbers = g.random.pick(&[0, 4, 5, 9, 12, 40, 100, 100, 100]);
        let placed = Placed::new(&mut g.random, &text);
        same(g, placed.text(), numbers);
    }
}

/// Tables one row short, one number short, exactly full, and with numbers left over; and the wrapper over them.
fn tables(g: &mut Group) {
    for _ in 0..g.depth(500, 20_000) {
        let text = document(&mut g.random);
        let full = 5 * expected(&text, 5_000).0.rows;
        for numbers in [full.saturating_sub(5), full.saturating_sub(1), full, full + 1, full + 7] {
            same(g, &text, numbers);
            let (answer, rows) = expected(&text, numbers / 5 * 5);
            let mut table = vec![[7; 5]; numbers / 5];
            let ours = reading::read(&text, &mut table).map(|read| {
                let numbers = |part: &str| (part.as_ptr() as usize - text.as_ptr() as usize, part.len());
                let fields = |record: reading::Record| {
                    record
                        .fields()
                        .map(move |field| (record.number(), numbers(field.name), numbers(field.value)))
                        .collect()
                };
                (read.len(), read.records().flat_map::<Vec<_>, _>(fields).collect::<Vec<_>>())
            });
            let five = |row: &[u32]| (row[0], (row[1] as usize, row[2] as usize), (row[3] as usize, row[4] as usize));
            let theirs = (answer.records, rows[..answer.rows * 5].chunks(5).map(five).collect());
            let theirs = if answer.refusal == 0 { Ok(theirs) } else { Err(refusal(&answer)) };
            g.same((&text[..], numbers as u64), ours, theirs);
        }
    }
}

/// Texts that are refused where their parts say, and what the wrapper makes of the place.
fn places(g: &mut Group) {
    for case in places::refused() {
        placed(g, &case);
    }
    for _ in 0..g.depth(2_000, 200_000) {
        let case = places::random(&mut g.random);
        placed(g, &case);
    }
}

fn placed(g: &mut Group, Refused { text, rows, refusal, at }: &Refused) {
    same(g, text, rows * 5);
    let mut table = vec![[7; 5]; *rows];
    let told = reading::read(text, &mut table).map(|read| read.len());
    let told = told.map_err(|why| (why.number(), why.place, why.at(text)));
    g.same(&text[..], told, Err((*refusal, Some(at.start), Some(at.clone()))));
}

/// What a limit refuses and what it lets through: 255 to 257 names, in a header too; 65,534 to 65,536 records; the
/// longest text and one byte more.
fn limits(g: &mut Group) {
    for names in 255..=257 {
        let fields: String = (0..names).map(|i| format!("<N{:03}:1>x", (i * 7) % names)).collect();
        for end in ["<EOR>", "<EOH><A:1>y<EOR>", "<N000:1>z<EOR>", ""] {
            let text = format!("{fields}{end}");
            for numbers in [0, 5 * names - 5, 5 * names - 1, 5 * names, 5 * names + 3] {
                same(g, text.as_bytes(), numbers);
            }
        }
    }
    for records in 65_534..=65_536 {
        let text = "<A:1>x<EOR>".repeat(records);
        same(g, text.as_bytes(), 5 * 65_536);
        same(g, (text + "<A:1>x").as_bytes(), 5 * 65_536);
    }
    for length in [LONGEST - 1, LONGEST, LONGEST + 1] {
        let mut text = b"<NOTE:16777180>".to_vec();
        text.resize(length - 5, b'<');
        text.extend(b"<EOR>");
        same(g, &text, 12);
        let mut many = b"<CALL:4>W1AW<EOR>".repeat(60_000);
        many.resize(length, b' ');
        same(g, &many, 300_000);
    }
}

/// The call takes less than 64 KiB of stack: on a painted stack, what lies further down stays as it was.
fn stack(g: &mut Group) {
    let fields: String = (0..256).map(|i| format!("<N{i}:1>x")).collect();
    let text = format!("{fields}<EOR>").repeat(3);
    let used = std::thread::Builder::new().stack_size(4 << 20).spawn(move || stack_of(text.as_bytes())).unwrap().join();
    let used = used.unwrap();
    g.same(used as u64, used < 64 << 10, true);
}

const PAINTED: usize = 256 << 10;
const PAINT: u8 = 0xA5;

/// How far down the stack the reading of the text has written.
#[inline(never)]
fn stack_of(text: &[u8]) -> usize {
    let mut table = vec![0; 5_000];
    let low = paint();
    std::hint::black_box(sys::read(text, &mut table));
    // Safe: the bytes are of this thread's own stack, where `paint` has just written them.
    let kept = (0..PAINTED).take_while(|&i| unsafe { low.add(i).read_volatile() } == PAINT).count();
    PAINTED - kept
}

/// Paints the stack below its caller, and tells where the paint begins.
#[inline(never)]
fn paint() -> *const u8 {
    let mut below = [PAINT; PAINTED];
    std::hint::black_box(&mut below).as_ptr()
}
