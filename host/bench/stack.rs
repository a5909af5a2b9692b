//! How much stack each exported call takes: it runs on a painted stack, on a large input, and the paint that is left tells how far down it
//! wrote, from its caller's frame on. The Rust function around the call is counted with it.

use oxbreathe::sys::{self, Counts, Qso};
use std::hint::black_box;

const PAINTED: usize = 1 << 20;
const PAINT: u8 = 0xA5;

/// A call's name and the stack that it took.
type Taken = (&'static str, usize);

/// Three calls a line, one below the other.
pub fn print() {
    let taken = all();
    let lines = taken.len().div_ceil(3);
    for i in 0..lines {
        let line = taken.iter().skip(i).step_by(lines).map(|(call, bytes)| format!("{call:<23} {bytes:>5}"));
        println!("{}", line.collect::<Vec<_>>().join("   "));
    }
}

/// What the call took, on a thread of its own.
fn taken<A>(call: &'static str, run: impl FnOnce() -> A + Send) -> Taken {
    let bytes = std::thread::scope(|scope| {
        let thread = std::thread::Builder::new().stack_size(4 * PAINTED);
        thread.spawn_scoped(scope, || depth(run)).expect("a thread").join().expect("a call that ends")
    });
    (call, bytes)
}

#[inline(never)]
fn depth<A>(run: impl FnOnce() -> A) -> usize {
    let low = paint();
    let top: usize;
    // Safe: reads the stack pointer, from which a call goes down. The library is for x86-64 alone.
    unsafe { std::arch::asm!("mov {}, rsp", out(reg) top) };
    black_box(run());
    // Safe: the bytes are of this thread's own stack, where `paint` has just written them.
    let kept = (0..PAINTED).take_while(|&i| unsafe { low.add(i).read_volatile() } == PAINT).count();
    assert!(kept > 0, "more stack than was painted");
    top - (low as usize + kept)
}

/// Paints the stack below its caller, and tells where the paint begins.
#[inline(never)]
fn paint() -> *const u8 {
    let mut below = [PAINT; PAINTED];
    black_box(&mut below).as_ptr()
}

/// A record of a log, with a number that makes it another contact.
fn record(i: usize) -> String {
    let call = format!("W{}A{}", i % 10, i / 10);
    let (date, time) =
        (format!("2026{:02}{:02}", i / 28 % 12 + 1, i % 28 + 1), format!("{:02}{:02}00", i % 24, i % 60));
    let confirmed = if i % 3 == 0 { "<LOTW_QSL_RCVD:1>Y<EQSL_AG:1>Y<APP_QRZLOG_STATUS:1>C<QSL_RCVD:1>Y" } else { "" };
    let length = call.len();
    format!(
        "<CALL:{length}>{call}<QSO_DATE:8>{date}<TIME_ON:6>{time}<FREQ:8>14.07412<FREQ_RX:3>7.1<MODE:3>usb<DXCC:4>-291{confirmed}<EOR>\n"
    )
}

/// The contacts of records 0 to `count`, as a list.
fn list(count: usize) -> Vec<u8> {
    let mut out = vec![0; 64 * (count + 1)];
    let mut used = sys::contacts_start(&mut out).length;
    for i in 0..count {
        let (call, date) = (format!("W{}A{}", i % 10, i / 10), format!("2026{:02}{:02}", i / 28 % 12 + 1, i % 28 + 1));
        let time = format!("{:02}{:02}00", i % 24, i % 60);
        let (id, services) = (i as u64 + 1, (i % 16) as u8);
        let [call, date, time] = [&call, &date, &time].map(|text| text.as_bytes());
        used = sys::contacts_append(&mut out, used, i, i as u64, id, services, call, date, time, b"20m", b"SSB").length;
    }
    out.truncate(used);
    out
}

fn all() -> Vec<Taken> {
    let mut rows = texts();
    rows.extend(names());
    rows.extend(records());
    rows.extend(contacts());
    rows
}

fn texts() -> Vec<Taken> {
    let long = " é\u{3000}W1AW<CALL:4>".repeat(58_254);
    let text = long.as_bytes();
    let other = text.to_ascii_uppercase();
    let blank = "\u{3000}".repeat(1 << 18);
    let zeros = [&b"+"[..], &[b'0'; 1 << 20], b"18446744073709551615"].concat();
    let signed = [&b"-"[..], &[b'0'; 1 << 20], b"9223372036854775808"].concat();
    vec![
        taken("ox_text_check", || sys::text_check(text)),
        taken("ox_text_trim", || sys::text_trim(blank.as_bytes())),
        taken("ox_text_blank", || sys::text_blank(blank.as_bytes())),
        taken("ox_text_same", || sys::text_same(text, text)),
        taken("ox_text_same_raised", || sys::text_same_raised(text, &other)),
        taken("ox_text_order_raised", || sys::text_order_raised(text, &other)),
        taken("ox_text_find", || sys::text_find(text, 0, 0)),
        taken("ox_text_unsigned", || sys::text_unsigned(&zeros)),
        taken("ox_text_signed", || sys::text_signed(&signed)),
        taken("ox_text_digits", || sys::text_digits(u64::MAX, &mut [0; 20])),
    ]
}

fn names() -> Vec<Taken> {
    let padded =
        |name: &str| [" ".repeat(1 << 19).as_bytes(), name.as_bytes(), " ".repeat(1 << 19).as_bytes()].concat();
    let (band, mode, class, submode) = (padded("23CM"), padded("fax"), padded("Image"), padded("jt65c"));
    let date = padded("99991231");
    vec![
        taken("ox_band_for_freq_hz", || sys::band_for_freq_hz(1_300_000_000)),
        taken("ox_band_all", sys::band_all),
        taken("ox_entry_name", || sys::entry_name(4, 30)),
        taken("ox_band_canonical", || sys::band_canonical(&band)),
        taken("ox_band_known", || sys::band_known(&band)),
        taken("ox_mode_normalize", || sys::mode_normalize(&mode, &submode, true)),
        taken("ox_mode_class", || sys::mode_class(&mode)),
        taken("ox_class_named", || sys::class_named(&class)),
        taken("ox_class_modes", || sys::class_modes(2)),
        taken("ox_class_name", || sys::class_name(2)),
        taken("ox_mhz_to_hz", || sys::mhz_to_hz(b"-.9007199254740992e+0006")),
        taken("ox_hz_to_mhz", || sys::hz_to_mhz(8_589_934_591_999_999, &mut [0; 64])),
        taken("ox_parse_dt", || sys::parse_dt(&date, b"235959")),
    ]
}

/// A text of 1,000 records, one of them with 256 names, read; and its contacts.
fn records() -> Vec<Taken> {
    let many = (0..256).map(|i| format!("<N{i}:1>x")).collect::<String>() + "<EOR>\n";
    let file = many + &(0..1_000).map(record).collect::<String>();
    let text = file.as_bytes();
    let mut table = vec![0; 5 * 20_000];
    let read = sys::read(text, &mut table);
    assert_eq!(read.refusal, 0);
    let first = table.chunks(5).position(|row| row[0] == 2).expect("a second record");
    let count = table.chunks(5).filter(|row| row[0] == 2).count();
    let raw = sys::record_to_qso(text, &table, first, count).qso;
    let normal = sys::normalize_qso(text, raw).qso;
    let extra: Vec<u32> = (0..200).flat_map(|i| [1, table[i * 5 + 1], table[i * 5 + 2], table[i * 5 + 3], 1]).collect();
    let long = "é".repeat(1 << 18);
    let long = long.as_bytes();
    let (mut out, mut again) = (vec![0; 4 << 20], vec![0; 5 * 20_000]);
    let two = |test: fn(&[u8], Qso, &[u8], Qso) -> sys::Told| move || test(text, raw, text, normal);
    vec![
        taken("ox_read", || sys::read(text, &mut again)),
        taken("ox_write", || sys::write(text, &table, read.rows, &mut out)),
        taken("ox_journal_header", || sys::journal_header(&mut out)),
        taken("ox_export_header", || sys::export_header(long, long, long, &mut out)),
        taken("ox_station_fields", || sys::station_fields(long, long, long, long, long, long, long, &mut out)),
        taken("ox_in_log", two(sys::in_log)),
        taken("ox_in_file", two(sys::in_file)),
        taken("ox_same_natural_key", two(sys::same_natural_key)),
        taken("ox_within_window", || sys::within_window(text, raw, text, normal, i64::MAX)),
        taken("ox_is_duplicate", || sys::is_duplicate(text, raw, text, raw, i64::MAX)),
        taken("ox_column", || sys::column(b"gridsquare")),
        taken("ox_record_to_qso", || sys::record_to_qso(text, &table, first, count)),
        taken("ox_record_to_normal_qso", || sys::record_to_normal_qso(text, &table, first, count)),
        taken("ox_normalize_qso", || sys::normalize_qso(text, raw)),
        taken("ox_write_qso", || sys::write_qso(text, normal, &extra, 200, &mut out)),
    ]
}

fn contacts() -> Vec<Taken> {
    let list = list(10_000);
    let text: String = (0..20_000).map(record).collect();
    let (mut index, mut found) = (vec![sys::Record::default(); 10_000], vec![0; 10_000]);
    let mut tables = oxbreathe::plan::Tables::new(text.as_bytes(), &list);
    let mut out = list.clone();
    out.resize(list.len() + 100, 0);
    let counts = Counts {
        total: u64::MAX,
        importable: u64::MAX,
        confirmations: u64::MAX,
        already_confirmed: u64::MAX,
        duplicates: u64::MAX,
        unmatched: u64::MAX,
        unusable: u64::MAX,
    };
    vec![
        taken("ox_contacts_check", || sys::contacts_check(&list)),
        taken("ox_contacts_fresh", || sys::contacts_fresh(10_000, 10_000, &list)),
        taken("ox_contacts_index", || sys::contacts_index(&list, &mut index)),
        taken("ox_contacts_search", || sys::contacts_search(&list, &list, 1800, &mut index, &mut found)),
        taken("ox_contacts_start", || sys::contacts_start(&mut [0; 5])),
        taken("ox_contacts_append", || {
            let id = u64::MAX >> 1;
            sys::contacts_append(
                &mut out,
                list.len(),
                10_000,
                10_000,
                id,
                15,
                b"W1AW",
                b"20260301",
                b"1200",
                b"40m",
                b"CW",
            )
        }),
        taken("ox_plan", || {
            let answer = tables.plan(text.as_bytes(), &list, 1800, false);
            assert_eq!(answer.refusal, 0);
            answer
        }),
        taken("ox_plan_summary", || sys::plan_summary(counts, &mut [0; 300])),
    ]
}
