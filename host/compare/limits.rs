//! What each call refuses that takes a text or a list, by the table of docs/SCOPE.md and the order below it: each of its
//! texts one byte too long, not UTF-8, and both. A refused call leaves its tables zero, its outputs untouched, and nothing in its answer but what it tells.

use crate::contacts::USED;
use crate::files::EMPTY;
use crate::harness::{Group, Run};
use oxbreathe::LONGEST;
use oxbreathe::sys::{self, Place, Qso, Record};

pub fn run(run: &mut Run) {
    run.group("limits/texts", texts);
}

/// A call, texts that it takes, and which refusals it gives where one of them is too long, is not UTF-8, or is both.
struct Call {
    name: &'static str,
    sound: &'static [&'static [u8]],
    long: u32,
    bad: u32,
    both: u32,
    /// The refusal, and whether a refused call has left and told nothing else.
    ask: fn(&[&[u8]]) -> (u32, bool),
}

/// 1, then 2 on a plain text.
const fn plain(name: &'static str, sound: &'static [&'static [u8]], ask: fn(&[&[u8]]) -> (u32, bool)) -> Call {
    Call { name, sound, long: 1, bad: 2, both: 1, ask }
}

/// 1, then 11 on a text with rows or a contact.
const fn placed(name: &'static str, sound: &'static [&'static [u8]], ask: fn(&[&[u8]]) -> (u32, bool)) -> Call {
    Call { name, sound, long: 1, bad: 11, both: 1, ask }
}

/// 11 for a text that is not UTF-8, 1, 13.
const fn header(name: &'static str, sound: &'static [&'static [u8]], ask: fn(&[&[u8]]) -> (u32, bool)) -> Call {
    Call { name, sound, long: 1, bad: 11, both: 11, ask }
}

/// 1, 17: the last byte of a list of one contact is its mode's.
const fn list(name: &'static str, sound: &'static [&'static [u8]], ask: fn(&[&[u8]]) -> (u32, bool)) -> Call {
    Call { name, sound, long: 1, bad: 17, both: 1, ask }
}

/// A refused answer is the empty one with the refusal and, of 2, its place.
macro_rules! told {
    ($answer:expr, $kind:ident) => {{
        let a = $answer;
        let place = if a.refusal == 2 { a.place } else { 0 };
        (a.refusal, a.refusal == 0 || a == sys::$kind { refusal: a.refusal, place, ..Default::default() })
    }};
}

/// What a call that writes answers, and whether it left the output alone where it refused.
fn written(write: impl FnOnce(&mut [u8]) -> (u32, usize)) -> (u32, bool) {
    let mut out = [7; 200];
    let (refusal, length) = write(&mut out);
    (refusal, refusal == 0 || (length == 0 && out == [7; 200]))
}

/// The contact of the call W1AW over a text that begins with it.
fn contact() -> Qso {
    let mut qso = Qso::default();
    qso.columns[0] = Place { kind: 1, start: 0, len: 4 };
    qso
}

const CALL: &[u8] = b"W1AW";
const ROW: [u32; 5] = [1, 0, 2, 2, 2];
const LIST: &[u8] = b"\x01\0\0\0\x01\0\x23\0\0\0\0\0\0\0\x07\0\x04W1AW\x0820260301\x041200\x0340m\x02CW";
const FILE: &[u8] = b"<CALL:4>W1AW <QSO_DATE:8>20260301 <TIME_ON:4>1200 <BAND:3>40M <MODE:3>USB <EOR>";

const CALLS: &[Call] = &[
    plain("text_check", &[CALL], |t| told!(sys::text_check(t[0]), Checked)),
    plain("text_trim", &[CALL], |t| told!(sys::text_trim(t[0]), Trimmed)),
    plain("text_blank", &[CALL], |t| told!(sys::text_blank(t[0]), Told)),
    plain("text_same", &[CALL; 2], |t| told!(sys::text_same(t[0], t[1]), Told)),
    plain("text_same_raised", &[CALL; 2], |t| told!(sys::text_same_raised(t[0], t[1]), Told)),
    plain("text_order_raised", &[CALL; 2], |t| told!(sys::text_order_raised(t[0], t[1]), Ordered)),
    plain("text_find", &[CALL], |t| told!(sys::text_find(t[0], 0, b'A'), Found)),
    plain("text_unsigned", &[CALL], |t| told!(sys::text_unsigned(t[0]), Numbered)),
    plain("text_signed", &[CALL], |t| told!(sys::text_signed(t[0]), Numbered)),
    plain("band_canonical", &[b"40m"], |t| told!(sys::band_canonical(t[0]), Placed)),
    plain("band_known", &[b"40m"], |t| told!(sys::band_known(t[0]), Told)),
    plain("mode_normalize", &[b"FT4", b"FT4"], |t| told!(sys::mode_normalize(t[0], t[1], true), Normalized)),
    plain("mode_normalize", &[b"FT4", b"FT4"], |t| told!(sys::mode_normalize(t[0], t[1], false), Normalized)),
    plain("mode_class", &[b"FT4"], |t| told!(sys::mode_class(t[0]), Classified)),
    plain("class_named", &[b"cw"], |t| told!(sys::class_named(t[0]), Classified)),
    plain("mhz_to_hz", &[b"7.1"], |t| told!(sys::mhz_to_hz(t[0]), Frequency)),
    plain("column", &[b"CALL"], |t| told!(sys::column(t[0]), ColumnAnswer)),
    plain("parse_dt", &[b"20260301", b"1200"], |t| told!(sys::parse_dt(t[0], t[1]), Timed)),
    plain("read", &[FILE], |t| {
        let mut table = [7; 31];
        let (refusal, rest) = told!(sys::read(t[0], &mut table), ReadAnswer);
        (refusal, rest && (refusal == 0 || table == [0; 31]))
    }),
    placed("write", &[CALL], |t| {
        written(|out| {
            let answer = sys::write(t[0], &ROW, 1, out);
            (answer.refusal, answer.length)
        })
    }),
    placed("record_to_qso", &[CALL], |t| mapped(sys::record_to_qso(t[0], &ROW, 0, 1))),
    placed("record_to_normal_qso", &[CALL], |t| mapped(sys::record_to_normal_qso(t[0], &ROW, 0, 1))),
    placed("normalize_qso", &[CALL], |t| {
        let answer = sys::normalize_qso(t[0], contact());
        (answer.refusal, answer.refusal == 0 || answer.qso == contact())
    }),
    placed("write_qso", &[CALL], |t| {
        written(|out| {
            let answer = sys::write_qso(t[0], contact(), &[], 0, out);
            (answer.refusal, answer.length)
        })
    }),
    placed("in_log", &[CALL; 2], |t| told!(sys::in_log(t[0], contact(), t[1], contact()), Told)),
    placed("in_file", &[CALL; 2], |t| told!(sys::in_file(t[0], contact(), t[1], contact()), Told)),
    placed("same_natural_key", &[CALL; 2], |t| told!(sys::same_natural_key(t[0], contact(), t[1], contact()), Told)),
    placed("within_window", &[CALL; 2], |t| told!(sys::within_window(t[0], contact(), t[1], contact(), 9), Told)),
    placed("is_duplicate", &[CALL; 2], |t| told!(sys::is_duplicate(t[0], contact(), t[1], contact(), 9), Told)),
    header("export_header", &[b"3.1.6", b"0.1", b"20260301 120000"], |t| {
        written(|out| {
            let answer = sys::export_header(t[0], t[1], t[2], out);
            (answer.refusal, answer.length)
        })
    }),
    header("station_fields", &[CALL, b"JO62", b"Ann", b"MA", b"Suffolk", b"5", b"8"], |t| {
        written(|out| {
            let answer = sys::station_fields(t[0], t[1], t[2], t[3], t[4], t[5], t[6], out);
            (answer.refusal, answer.length)
        })
    }),
    list("contacts_check", &[LIST], |t| {
        let answer = sys::contacts_check(t[0]);
        (answer.refusal, answer.refusal == 0 || (answer.contacts, answer.largest) == (0, 0))
    }),
    list("contacts_fresh", &[LIST], |t| {
        let answer = sys::contacts_fresh(1, 7, t[0]);
        (answer.refusal, answer.fresh == (answer.refusal == 0))
    }),
    list("contacts_index", &[LIST], |t| {
        let mut index = [USED; 3];
        let answer = sys::contacts_index(t[0], &mut index);
        (answer.refusal, answer.refusal == 0 || index == [Record::default(); 3])
    }),
    list("contacts_search", &[LIST; 2], |t| {
        let (mut index, mut found) = ([USED; 3], [7; 3]);
        let answer = sys::contacts_search(t[0], t[1], 9, &mut index, &mut found);
        (answer.refusal, answer.refusal == 0 || (index == [Record::default(); 3] && found == [0; 3]))
    }),
    // a text that a length byte cannot count, or that is not UTF-8, makes no contact: 17
    Call {
        name: "contacts_append",
        sound: &[CALL, b"20260301", b"1200", b"40m", b"CW"],
        long: 1,
        bad: 17,
        both: 1,
        ask: |t| {
            let mut out = [7; 200];
            out[..5].copy_from_slice(&EMPTY);
            let before = out;
            let answer = sys::contacts_append(&mut out, 5, 0, 0, 1, 0, t[0], t[1], t[2], t[3], t[4]);
            (answer.refusal, answer.refusal == 0 || (answer.length == 0 && out == before))
        },
    },
    plain("plan", &[FILE], |t| planned(t[0], LIST)),
    list("plan", &[LIST], |t| planned(FILE, t[0])),
];

fn mapped(answer: sys::QsoAnswer) -> (u32, bool) {
    (answer.refusal, answer.refusal == 0 || answer.qso == Qso::default())
}

fn planned(text: &[u8], list: &[u8]) -> (u32, bool) {
    let (mut table, mut index, mut fates, mut confirmations) = ([7; 31], [USED; 3], [[7; 28]; 3], [[7; 5]; 3]);
    let (refusal, rest) =
        told!(sys::plan(text, list, 9, false, &mut table, &mut index, &mut fates, &mut confirmations), PlanAnswer);
    let zero =
        table == [0; 31] && index == [Record::default(); 3] && fates == [[0; 28]; 3] && confirmations == [[0; 5]; 3];
    (refusal, rest && (refusal == 0 || zero))
}

fn texts(g: &mut Group) {
    for Call { name, sound, long, bad, both, ask } in CALLS {
        g.same(*name, ask(sound), (0, true));
        for k in 0..sound.len() {
            let mut with = |text: &[u8], refusal: u32| {
                let mut texts = sound.to_vec();
                texts[k] = text;
                g.same((*name, k as u64), ask(&texts), (refusal, true));
            };
            let mut broken = sound[k].to_vec();
            *broken.last_mut().unwrap() = 0xFF;
            with(&broken, *bad);
            // blanks behind it, so that what is trimmed and written would still be short
            let mut text = sound[k].to_vec();
            text.resize(LONGEST + 1, b' ');
            with(&text, *long);
            text.fill(b' ');
            with(&text, *long);
            text[LONGEST] = 0xFF;
            with(&text, *both);
        }
    }
}
