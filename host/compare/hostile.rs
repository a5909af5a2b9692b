//! No safe function of the crate panics, whatever it is given: bytes at random, texts and lists whole and damaged, texts that would make
//! large tables, and texts at and above the longest; numbers at their ends; outputs and tables that are too short.

use crate::files::{Case, EMPTY, case};
use crate::generate::{Random, damage, utf8};
use crate::harness::{Group, Run, panicked};
use oxbreathe::contacts::{self, Contact, List, Mark, Service, Services, Writer};
use oxbreathe::plan::{self, Counts, Fate, Reason, Tables};
use oxbreathe::qso::{Column, Qso};
use oxbreathe::reading::{self, Read, Record};
use oxbreathe::writing::{self, Station};
use oxbreathe::{Cause, LONGEST, Refusal, dedupe, frequency, normalize, text};
use std::fmt::Debug;
use std::hint::black_box;

pub fn run(run: &mut Run) {
    run.group("hostile/bytes", small);
    run.group("hostile/long", long);
}

/// What a function may be given.
struct Given {
    a: Vec<u8>,
    b: Vec<u8>,
    number: u64,
    window: i64,
    room: usize,
}

impl Given {
    fn out(&self) -> Vec<u8> {
        vec![7; self.room]
    }

    fn a_str(&self) -> String {
        String::from_utf8_lossy(&self.a).into_owned()
    }

    /// Rows that name parts of the text, or nearly.
    fn rows(&self) -> Vec<reading::Row> {
        let mut random = Random::new(self.number);
        let near = |random: &mut Random| match random.below(8) {
            0 => u32::MAX,
            1 => random.next() as u32,
            _ => random.below(self.a.len() as u64 + 2) as u32,
        };
        (0..random.below(4))
            .map(|n| std::array::from_fn(|k| if k == 0 { n as u32 / 2 + 1 } else { near(&mut random) }))
            .collect()
    }

    /// Of each record that can be read.
    fn each(&self, body: impl Fn(Record)) {
        let mut table = reading::table(&self.a);
        if let Ok(read) = reading::read(&self.a, &mut table) {
            read.records().take(300).for_each(body);
        }
    }

    fn each_qso(&self, body: impl Fn(Qso)) {
        self.each(|record| {
            body(record.qso().0);
            body(record.normal_qso().0);
        });
    }

    /// Of each contact, and the one before.
    fn pairs(&self, body: impl Fn(Qso, Qso)) {
        let mut table = reading::table(&self.a);
        if let Ok(read) = reading::read(&self.a, &mut table) {
            let all: Vec<Qso> = read.records().take(300).map(|record| record.normal_qso().0).collect();
            all.windows(2).for_each(|pair| body(pair[0], pair[1]));
        }
    }

    fn contact(&self) -> Contact<'_> {
        let text = std::str::from_utf8(&self.b).unwrap_or("W1AW");
        let date = if self.number % 2 == 0 { "20260301" } else { text };
        Contact {
            id: self.number,
            services: Services::default(),
            call: text,
            date,
            time: "1200",
            band: text,
            mode: "SSB",
        }
    }

    fn mark(&self) -> Mark {
        Mark { contacts: self.room, largest: self.number }
    }
}

/// The answer is looked at whole.
fn seen(answer: impl Debug) {
    black_box(format!("{answer:?}"));
}

/// A refusal, and all that it tells of a text, be it another one.
fn refused<T>(answer: Result<T, Refusal>, text: &[u8]) {
    if let Err(refusal) = answer {
        seen((refusal.to_string(), refusal.number(), refusal.place, refusal.at(text), refusal.at(b"")));
        seen((refusal.name(text), refusal.name(b"")));
        seen((refusal.cause.number(), refusal.cause.name()));
    }
}

/// Each safe function by its name.
const CALLS: &[(&str, fn(&Given))] = &[
    ("text::check", |g| refused(text::check(&g.a), &g.b)),
    ("text::trim", |g| seen(text::trim(&g.a))),
    ("text::blank", |g| seen(text::blank(&g.a))),
    ("text::same", |g| refused(text::same(&g.a, &g.b), &g.a)),
    ("text::same_raised", |g| seen(text::same_raised(&g.a, &g.b))),
    ("text::order_raised", |g| seen(text::order_raised(&g.a, &g.b))),
    ("text::find", |g| seen((text::find(&g.a, g.number as usize, b'<'), text::find(&g.a, g.room, g.number as u8)))),
    ("text::unsigned", |g| seen(text::unsigned(&g.a))),
    ("text::signed", |g| seen(text::signed(&g.a))),
    ("text::digits", |g| seen(text::digits(g.number, &mut g.out()))),
    ("frequency::hertz", |g| seen(frequency::hertz(&g.a))),
    ("frequency::megahertz", |g| seen(frequency::megahertz(g.number, &mut g.out()))),
    ("normalize::band_for_freq_hz", |g| seen(normalize::band_for_freq_hz(g.number).map(|band| band.name()))),
    ("normalize::known_bands", |_| normalize::known_bands().for_each(seen)),
    ("normalize::is_known_band", |g| seen(normalize::is_known_band(&g.a))),
    ("normalize::canonical_band", |g| {
        seen(normalize::canonical_band(&g.a).map(|band| band.map(normalize::Band::name)))
    }),
    ("normalize::normalize_mode", |g| {
        seen(normalize::normalize_mode(&g.a, Some(&g.b)));
        seen(normalize::normalize_mode(&g.a, None));
    }),
    ("normalize::mode_class", |g| seen(normalize::mode_class(&g.a))),
    ("normalize::ModeClass::parse", |g| {
        seen(normalize::ModeClass::parse(&g.a).map(|class| class.map(|class| class.name())))
    }),
    ("normalize::modes_in_class", |_| {
        normalize::ModeClass::ALL.into_iter().for_each(|c| seen(normalize::modes_in_class(c)))
    }),
    ("reading::table", |g| seen(reading::table(&g.a).len())),
    ("reading::read", |g| {
        let mut table = reading::table(&g.a);
        refused(reading::read(&g.a, &mut table), &g.b);
        let short = g.room.min(table.len());
        seen(reading::read(&g.a, &mut table[..short]).map(|read| read.len()));
    }),
    ("reading::Read", |g| {
        let mut table = reading::table(&g.a);
        let of = |read: Read| {
            seen((read.len(), read.is_empty(), read.text().len(), read.rows().len(), read.records().count()))
        };
        refused(reading::read(&g.a, &mut table).map(of), &g.a);
    }),
    ("reading::Record::number", |g| g.each(|record| seen(record.number()))),
    ("reading::Record::fields", |g| g.each(|record| record.fields().for_each(seen))),
    ("reading::Record::field", |g| g.each(|record| seen((record.field("CALL"), record.field(&g.a_str()))))),
    ("reading::Record::qso", |g| g.each(|record| seen(record.qso()))),
    ("reading::Record::normal_qso", |g| g.each(|record| seen(record.normal_qso()))),
    ("qso::Column::named", |g| seen(Column::named(&g.a))),
    ("qso::Column::numbered", |g| seen(Column::numbered(g.number as u32).map(|c| (c.name(), c.number())))),
    ("qso::Qso::normalize", |g| g.each_qso(|qso| seen(qso.normalize()))),
    ("qso::Qso::write", |g| g.each_qso(|qso| seen(qso.write(&mut g.out())))),
    ("qso::Qso::to_vec", |g| g.each_qso(|qso| seen(qso.to_vec()))),
    ("qso::Qso::column", |g| g.each_qso(|qso| Column::ALL.iter().for_each(|column| seen(qso.column(*column))))),
    ("qso::Qso::call", |g| {
        g.each_qso(|qso| seen((qso.call(), qso.qso_date(), qso.time_on(), qso.band(), qso.mode())));
        g.each_qso(|qso| seen((qso.freq_hz(), qso.freq_rx_hz(), qso.dxcc())));
    }),
    ("qso::Qso::extra", |g| g.each_qso(|qso| qso.extra().for_each(seen))),
    ("dedupe::moment", |g| seen(dedupe::moment(&g.a, &g.b))),
    ("dedupe::in_log", |g| g.pairs(|a, b| seen(a.in_log(&b)))),
    ("dedupe::in_file", |g| g.pairs(|a, b| seen(a.in_file(&b)))),
    ("dedupe::same_natural_key", |g| g.pairs(|a, b| seen(a.same_natural_key(&b)))),
    ("dedupe::within_window", |g| g.pairs(|a, b| seen(a.within_window(&b, g.window)))),
    ("dedupe::is_duplicate", |g| g.pairs(|a, b| seen(a.is_duplicate(&b, g.window)))),
    ("writing::write", |g| seen(writing::write(&g.a, &g.rows(), &mut g.out()))),
    ("writing::journal_header", |g| seen(writing::journal_header(&mut g.out()))),
    ("writing::export_header", |g| seen(writing::export_header(&g.a, &g.b, &g.a, &mut g.out()))),
    ("writing::station_fields", |g| {
        let (call, grid) = (&*g.a_str(), std::str::from_utf8(&g.b).unwrap_or_default());
        seen(writing::station_fields(&Station { call, grid, itu_zone: call, ..Station::default() }, &mut g.out()));
    }),
    ("contacts::check", |g| refused(contacts::check(&g.b), &g.a)),
    ("contacts::is_fresh", |g| seen(contacts::is_fresh(g.mark(), &g.b))),
    ("contacts::Services", |g| {
        let services: Services = Service::ALL.iter().copied().filter(|_| g.room > 3).collect();
        services.iter().for_each(|service| seen((services.has(service), Service::numbered(g.number as u32))));
    }),
    ("contacts::List::new", |g| refused(List::new(&g.b), &g.b)),
    ("contacts::List::contacts", |g| {
        let of = |list: List| list.contacts().for_each(|contact| seen((contact, list.mark())));
        refused(List::new(&g.b).map(of), &g.b);
    }),
    ("contacts::List::search", |g| {
        let other = if g.number % 2 == 0 { &g.b } else { &g.a };
        seen(List::new(&g.b).map(|list| list.search(other, g.window)));
    }),
    ("contacts::Writer::append", |g| {
        let mut list = Writer::new();
        refused(list.append(&g.contact()), &g.a);
        seen(list.append(&Contact { id: g.number.wrapping_add(1), ..g.contact() }));
        seen((list.mark(), list.bytes().len(), contacts::check(list.bytes()).unwrap() == list.mark()));
        seen(Writer::default().bytes());
    }),
    ("contacts::Writer::append_qso", |g| {
        g.each_qso(|qso| seen(Writer::new().append_qso(g.number, Services::default(), &qso)))
    }),
    ("plan::plan", |g| {
        let plan = plan::plan(&g.a, &g.b, g.window);
        if let Ok(plan) = &plan {
            plan.records()
                .for_each(|(record, fate)| seen((record.number(), fate.name(), fate.number(), fate.reason())));
            seen((plan.summary(), plan.is_fresh(&g.b), plan.is_fresh(&g.a), plan.read().len()));
        }
        refused(plan, &g.b);
    }),
    ("plan::plan_download", |g| seen(plan::plan_download(&g.a, &g.b, g.window).map(|plan| plan.confirmations.len()))),
    ("plan::summary", |g| {
        let n = g.number;
        seen(plan::summary(Counts { total: n, unusable: !n, duplicates: n, confirmations: n, ..Counts::default() }));
        seen(plan::summary(Counts {
            total: n,
            importable: n,
            confirmations: n,
            already_confirmed: n,
            duplicates: n,
            unmatched: n,
            unusable: n,
        }));
    }),
    ("plan::Fate::numbered", |g| {
        seen(Fate::numbered(g.number as u32, g.room as u32));
        seen((Reason::numbered(g.number as u32), Cause::numbered(g.number as u32)));
    }),
    ("plan::Tables::new", |g| {
        let mut tables = Tables::new(&g.a, &g.b);
        tables.fates.truncate(g.room);
        tables.confirmations.truncate(g.room);
        seen(tables.plan(&g.a, &g.b, g.window, g.number % 2 == 0));
        seen(tables.plan(&g.b, &g.a, g.window, g.number % 2 == 0));
    }),
];

/// Makes each call, and tells which of them panicked.
fn every(g: &mut Group, given: &Given) {
    for (name, call) in CALLS {
        let input = (&given.a[..], &given.b[..], given.number);
        let ours = panicked(|| call(given)).map(|message| format!("{name} panicked: {message}"));
        g.same(input, ours, None);
    }
}

/// Bytes of many kinds.
fn bytes(random: &mut Random) -> Vec<u8> {
    let length = random.place(40);
    match random.below(8) {
        0 => Vec::new(),
        1 => (0..length).map(|_| random.next() as u8).collect(),
        2 => utf8(random, length),
        3 => (0..length).map(|_| random.pick(b"<>:0189+-.eE \nAEORHapplotwf\xC3\xA9")).collect(),
        4 => random.pick(&[&b"<:0>"[..], b"<A:0><EOR>", b"<EOR>", b"<A:1>\xC3\xA9", b"\0", b"9"]).repeat(length),
        _ => {
            let (records, contacts) = (random.place(5), random.place(5));
            let Case { text, list, .. } = case(random, records, contacts);
            let mut made = if random.below(3) == 0 { list } else { text };
            if random.below(2) == 0 {
                damage(random, &mut made);
            }
            made
        }
    }
}

/// A list, most often: whole, damaged, or saying that it has more than it has.
fn list(random: &mut Random) -> Vec<u8> {
    let contacts = random.place(5);
    let mut list = case(random, 0, contacts).list;
    match random.below(5) {
        0 => damage(random, &mut list),
        1 => list[1..5].fill(random.pick(&[0xFF, 0x7F, 1])),
        2 => return bytes(random),
        _ => (),
    }
    list
}

fn small(g: &mut Group) {
    for _ in 0..g.depth(300, 20_000) {
        let random = &mut g.random;
        let window = random.pick(&[0, 1800, -1, i64::MIN, i64::MAX]);
        let any = random.number();
        let number = random.pick(&[0, 1, 4, 1 << 63, u64::MAX, any]);
        let room = random.pick(&[0, 1, 5, 30, 300, 300]);
        let given = Given { a: bytes(random), b: list(random), number, window, room };
        every(g, &given);
    }
}

/// Texts and lists above the longest, and texts that ask for large tables.
fn long(g: &mut Group) {
    let filled = |part: &[u8], length: usize| part.iter().copied().cycle().take(length).collect::<Vec<u8>>();
    let entries =
        |length: usize| [&[1, 0xFF, 0xFF, 0xFF, 0xFF], &filled(b"\0\x1A\0\0\0\0\0\0\0\x01", length)[..]].concat();
    let most = g.depth(1 << 20, LONGEST);
    let mut givens = vec![(filled(b"x", LONGEST + 1), entries(LONGEST)), (filled(b"<", most), entries(most - 5))];
    if most == LONGEST {
        for part in [&b" "[..], b"\xFF", b"<A:0><EOR>", b"<:0>", b"9", b"\xC3\xA9"] {
            givens.push((filled(part, LONGEST), EMPTY.to_vec()));
        }
    }
    for (a, b) in givens {
        every(g, &Given { a, b, number: u64::MAX, window: i64::MAX, room: 100 });
    }
}
