//! Contact lists beside a plain writer, reader, index and scan of the host's own.

use crate::files::EMPTY;
use crate::generate::{Random, damage, utf8};
use crate::harness::{Group, Run};
use oxbreathe::sys::{self, AppendAnswer, FreshAnswer, MarkAnswer, Record};
use oxbreathe::{LONGEST, contacts as wrapped};

pub fn run(run: &mut Run) {
    run.group("contacts/lists", lists);
    run.group("contacts/damaged", damaged);
    run.group("contacts/texts", texts);
    run.group("contacts/limits", limits);
    run.group("contacts/indexes", indexes);
    run.group("contacts/searches", searches);
    run.group("contacts/large", large);
    run.group("contacts/written", writes);
    run.group("contacts/headings", headings);
    run.group("contacts/wrapper", wrapper);
}

#[derive(Clone, Debug, Default, PartialEq)]
pub struct Contact {
    pub id: u64,
    pub services: u8,
    pub call: Vec<u8>,
    pub date: Vec<u8>,
    pub time: Vec<u8>,
    pub band: Vec<u8>,
    pub mode: Vec<u8>,
}

impl Contact {
    fn texts(&self) -> [&Vec<u8>; 5] {
        [&self.call, &self.date, &self.time, &self.band, &self.mode]
    }
}

// The rules once more.

pub fn written(contacts: &[Contact]) -> Vec<u8> {
    let mut list = vec![1];
    list.extend((contacts.len() as u32).to_be_bytes());
    for contact in contacts {
        let mut body = contact.id.to_be_bytes().to_vec();
        body.push(contact.services);
        for text in contact.texts() {
            body.push(text.len() as u8);
            body.extend(text);
        }
        list.extend((body.len() as u16).to_be_bytes());
        list.extend(body);
    }
    list
}

fn is_sound(contact: &Contact) -> bool {
    let digits =
        |text: &[u8], lengths: &[usize]| lengths.contains(&text.len()) && text.iter().all(|b| b.is_ascii_digit());
    (1..1 << 63).contains(&contact.id)
        && contact.services < 16
        && contact.texts().iter().all(|text| std::str::from_utf8(text).is_ok())
        && digits(&contact.date, &[8])
        && digits(&contact.time, &[4, 6])
}

/// The contacts of a list and where their entries stand, or the refusal.
pub fn read(list: &[u8]) -> Result<Vec<(usize, Contact)>, u32> {
    if list.len() > LONGEST {
        return Err(1);
    }
    match list.first() {
        None => return Err(17),
        Some(1) => (),
        Some(_) => return Err(16),
    }
    let mut at = 1;
    let mut taken = |size: usize| -> Option<(usize, &[u8])> {
        let from = at;
        at += size;
        list.get(from..at).map(|part| (from, part))
    };
    let number = |bytes: &[u8]| bytes.iter().fold(0, |n, &b| n << 8 | b as u64);
    let count = number(taken(4).ok_or(17u32)?.1);
    let mut contacts: Vec<(usize, Contact)> = Vec::new();
    for _ in 0..count {
        let (place, size) = taken(2).ok_or(17u32)?;
        let (_, body) = taken(number(size) as usize).ok_or(17u32)?;
        let contact = entry(body).filter(is_sound).ok_or(17u32)?;
        if contacts.last().is_some_and(|(_, last)| contact.id <= last.id) {
            return Err(18);
        }
        contacts.push((place, contact));
    }
    if at == list.len() { Ok(contacts) } else { Err(17) }
}

fn entry(body: &[u8]) -> Option<Contact> {
    let (id, rest) = body.split_at_checked(8)?;
    let (&services, mut rest) = rest.split_first()?;
    let mut text = || -> Option<Vec<u8>> {
        let (&length, after) = rest.split_first()?;
        let (text, after) = after.split_at_checked(length as usize)?;
        rest = after;
        Some(text.to_vec())
    };
    let (call, date, time, band, mode) = (text()?, text()?, text()?, text()?, text()?);
    let id = u64::from_be_bytes(id.try_into().ok()?);
    rest.is_empty().then_some(Contact { id, services, call, date, time, band, mode })
}

pub fn marked(list: &[u8]) -> MarkAnswer {
    match read(list) {
        Ok(contacts) => MarkAnswer {
            contacts: contacts.len(),
            largest: contacts.iter().map(|(_, c)| c.id).max().unwrap_or(0),
            ..MarkAnswer::default()
        },
        Err(refusal) => MarkAnswer { refusal, ..MarkAnswer::default() },
    }
}

/// Seconds from the first day of year 0, by the days of the civil calendar.
fn moment(contact: &Contact) -> Option<i64> {
    let number = |text: &[u8]| text.iter().fold(0i64, |n, b| n * 10 + (b - b'0') as i64);
    let (date, time) = (number(&contact.date), number(&contact.time));
    let time = if contact.time.len() == 4 { time * 100 } else { time };
    let (year, month, day) = (date / 10_000, date / 100 % 100, date % 100);
    let (hour, minute, second) = (time / 10_000, time / 100 % 100, time % 100);
    let leap = year % 4 == 0 && (year % 100 != 0 || year % 400 == 0);
    let longest = match month {
        2 => 28 + leap as i64,
        4 | 6 | 9 | 11 => 30,
        1..=12 => 31,
        _ => return None,
    };
    if day < 1 || day > longest || hour > 23 || minute > 59 || second > 59 {
        return None;
    }
    let shifted = if month < 3 { year - 1 } else { year };
    let of_year = (153 * ((month + 9) % 12) + 2) / 5 + day - 1;
    let days = 365 * shifted + shifted.div_euclid(4) - shifted.div_euclid(100) + shifted.div_euclid(400) + of_year;
    Some((days + 60) * 86_400 + hour * 3_600 + minute * 60 + second)
}

/// A record that something was left in.
pub const USED: Record = Record {
    id: 7,
    seconds: 7,
    head: 7,
    next: 7,
    code: 7,
    services: 7,
    call: 7,
    date: 7,
    time: 7,
    band: 7,
    mode: 7,
    timed: 7,
};

/// The index, with its chains.
pub fn indexed(list: &[u8], room: usize) -> (MarkAnswer, Vec<Record>) {
    let mut index = vec![Record::default(); room];
    let answer = marked(list);
    let Ok(contacts) = read(list) else { return (answer, index) };
    if contacts.len() > room {
        return (MarkAnswer { refusal: 19, ..MarkAnswer::default() }, index);
    }
    for (row, (place, contact)) in index.iter_mut().zip(&contacts) {
        let mut at = *place as u32 + 11;
        let places = contact.texts().map(|text| {
            let here = at;
            at += 1 + text.len() as u32;
            here
        });
        let bytes = contact.call.iter().chain(&contact.mode).chain(&contact.band).map(u8::to_ascii_uppercase);
        row.code = bytes.fold(0, |h: u32, b| h.wrapping_mul(2_654_435_761).wrapping_add(b as u32));
        row.id = contact.id;
        row.services = contact.services as u32;
        [row.call, row.date, row.time, row.band, row.mode] = places;
        if let Some(seconds) = moment(contact) {
            row.timed = 1;
            row.seconds = seconds as u64;
        }
    }
    for i in 0..contacts.len() {
        let chain = index[i].code as usize % contacts.len();
        index[i].next = index[chain].head;
        index[chain].head = i as u32 + 1;
    }
    (answer, index)
}

/// The number of the first contact that a record matches, by a scan.
fn scanned(contacts: &[(Contact, Option<i64>)], query: &Contact, window: i64) -> u64 {
    let when = moment(query);
    let matches = |(c, at): &(Contact, Option<i64>)| {
        c.call.eq_ignore_ascii_case(&query.call)
            && c.mode == query.mode
            && c.band == query.band
            && matches!((at, when), (Some(a), Some(b)) if (a - b).abs() <= window)
    };
    contacts.iter().position(matches).map_or(0, |i| i as u64 + 1)
}

// Inputs.

/// A contact of few keys and times, so that many are equal or near.
fn alike(random: &mut Random, id: u64) -> Contact {
    let call = random.pick(&["W1AW", "w1aw", "DL0XX", "W1AW ", "", "K1", "ja1abc", "JA1ABC", "é", "É"]);
    let day = random.pick(&["20260301", "20260301", "20260302", "20240229", "20260231", "00000101", "99991231"]);
    let time = match random.below(8) {
        0 => "2400".to_string(),
        1 => "120060".to_string(),
        _ => {
            let minutes = random.below(200);
            let second = ["", "00", "01", "59"][random.place(4)];
            format!("{:02}{:02}{second}", 11 + minutes / 60, minutes % 60)
        }
    };
    Contact {
        id,
        services: random.below(16) as u8,
        call: call.into(),
        date: day.into(),
        time: time.into(),
        band: random.pick(&["40m", "40M", "20m", ""]).into(),
        mode: random.pick(&["SSB", "ssb", "CW"]).into(),
    }
}

fn any(random: &mut Random, id: u64) -> Contact {
    let mut contact = alike(random, id);
    for text in [&mut contact.call, &mut contact.band, &mut contact.mode] {
        if random.below(3) == 0 {
            let length = random.place(30);
            *text = utf8(random, length);
        }
    }
    contact
}

/// So many contacts, their ids rising by steps of one or more.
fn some(random: &mut Random, count: usize, of: fn(&mut Random, u64) -> Contact) -> Vec<Contact> {
    let mut id = 0;
    (0..count)
        .map(|_| {
            id += 1 + random.number() % (1 << 20);
            of(random, id)
        })
        .collect()
}

// Groups.

fn checks(g: &mut Group, list: &[u8]) {
    let expected = marked(list);
    g.same(list, sys::contacts_check(list), expected);
}

fn lists(g: &mut Group) {
    for _ in 0..g.depth(300, 100_000) {
        let count = g.random.place(8);
        let contacts = some(&mut g.random, count, any);
        let mut list = written(&contacts);
        checks(g, &list);
        let mark = marked(&list);
        // a plan's mark, the same or off by one
        let (count, top) = (mark.contacts + g.random.place(2), mark.largest + g.random.below(2));
        let fresh = (count, top) == (mark.contacts, mark.largest);
        g.same(&list[..], sys::contacts_fresh(count, top, &list), FreshAnswer { refusal: 0, fresh });
        damage(&mut g.random, &mut list);
        checks(g, &list);
        let FreshAnswer { refusal, fresh } = sys::contacts_fresh(mark.contacts, mark.largest, &list);
        let after = marked(&list);
        g.same(&list[..], (refusal, fresh), (after.refusal, after.refusal == 0 && after == mark));
    }
}

/// Every byte of some lists changed in several ways, taken out, and one put in before it; and every cut.
fn damaged(g: &mut Group) {
    for _ in 0..g.depth(3, 700) {
        let count = 1 + g.random.place(3);
        let list = written(&some(&mut g.random, count, any));
        for place in 0..list.len() {
            let byte = list[place];
            for other in [byte ^ 1, byte ^ 0x80, byte.wrapping_add(1), byte.wrapping_sub(1), 0, 16, 255] {
                let mut changed = list.clone();
                changed[place] = other;
                checks(g, &changed);
            }
            checks(g, &list[..place]);
            checks(g, &[&list[..place], &list[place + 1..]].concat());
            checks(g, &[&list[..place], &[1], &list[place..]].concat());
        }
    }
}

/// Each text at every length from 0 to 255; ids at both ends.
fn texts(g: &mut Group) {
    for length in 0..=255 {
        for which in 0..5 {
            let mut contact = any(&mut g.random, 7);
            let text = match which {
                1 | 2 => vec![b'1'; length],
                _ => utf8(&mut g.random, length),
            };
            *[&mut contact.call, &mut contact.date, &mut contact.time, &mut contact.band, &mut contact.mode][which] =
                text;
            checks(g, &written(&[contact]));
        }
    }
    let ends = [0, 1, 2, (1 << 63) - 2, (1 << 63) - 1, 1 << 63, (1 << 63) + 1, u64::MAX];
    for first in ends {
        for second in ends {
            let pair = [alike(&mut g.random, first), alike(&mut g.random, second)];
            checks(g, &written(&pair));
            checks(g, &written(&pair[..1]));
        }
    }
    for services in 0..=255 {
        let contact = Contact { services, ..alike(&mut g.random, 1) };
        checks(g, &written(&[contact]));
    }
    for byte in 0..=255 {
        for place in 0..8 {
            let mut contact = alike(&mut g.random, 1);
            contact.date[place] = byte;
            checks(g, &written(&[contact]));
        }
        checks(g, &[byte, 0, 0, 0, 0]);
        checks(g, &[byte]);
    }
    checks(g, &[]);
}

/// A list of as many bytes as may be, of one more, and with a count that is wrong.
fn limits(g: &mut Group) {
    // contacts of some 230 bytes, then two whose calls fill what is left
    let mut left = LONGEST - 5;
    let mut contacts = Vec::new();
    let mut add = |contact: Contact| {
        left -= 16 + contact.texts().iter().map(|text| text.len()).sum::<usize>();
        contacts.push(contact);
        left
    };
    let mut id = 0;
    let mut next = |call: usize| {
        id += 1;
        Contact { call: vec![b'A'; call], time: b"1200".to_vec(), ..alike(&mut g.random, id) }
    };
    let filler = |contact: Contact| Contact { band: Vec::new(), mode: Vec::new(), ..contact };
    let mut room = LONGEST;
    while room > 600 {
        room = add(next(200));
    }
    room = add(filler(next((room - 28) / 2 - 28)));
    add(filler(next(room - 28)));
    let mut list = written(&contacts);
    let length = list.len();
    let answer = sys::contacts_check(&list);
    g.same(&list[..0], (length, answer), (LONGEST, marked(&list)));
    let mut index = vec![USED; contacts.len()];
    let answer = sys::contacts_index(&list, &mut index);
    let (expected, rows) = indexed(&list, contacts.len());
    g.same(&list[..0], (answer, index == rows), (expected, true));
    for change in [-1i32, 1] {
        let count = (contacts.len() as i32 + change) as u32;
        list[1..5].copy_from_slice(&count.to_be_bytes());
        g.same(&list[..0], sys::contacts_check(&list), marked(&list));
    }
    list.push(0);
    let answer = sys::contacts_check(&list);
    g.same(&list[..0], answer, MarkAnswer { refusal: 1, ..MarkAnswer::default() });
}

fn indexes(g: &mut Group) {
    for _ in 0..g.depth(300, 100_000) {
        let count = g.random.place(20);
        let mut list = written(&some(&mut g.random, count, any));
        if g.random.below(4) == 0 {
            damage(&mut g.random, &mut list);
        }
        // short by one, exact, and with records left over
        let room = (count + g.random.place(4)).saturating_sub(1);
        let mut index = vec![USED; room];
        let answer = sys::contacts_index(&list, &mut index);
        g.same(&list[..], (answer, index), indexed(&list, room));
    }
}

/// What searching is to leave: the answer, the index and the numbers found; both tables zero after any refusal.
fn searched(list: &[u8], other: &[u8], window: i64, rooms: (usize, usize)) -> (MarkAnswer, Vec<Record>, Vec<u64>) {
    let refused =
        |refusal| (MarkAnswer { refusal, ..MarkAnswer::default() }, vec![Record::default(); rooms.0], vec![0; rooms.1]);
    let (built, index) = indexed(list, rooms.0);
    let answer = marked(other);
    match (built.refusal, answer.refusal, answer.contacts > rooms.1) {
        (0, 0, false) => (),
        (0, 0, true) => return refused(19),
        (0, why, _) | (why, _, _) => return refused(why),
    }
    let contacts: Vec<_> = read(list).unwrap().into_iter().map(|(_, c)| (c.clone(), moment(&c))).collect();
    let mut found: Vec<u64> = read(other).unwrap().iter().map(|(_, q)| scanned(&contacts, q, window)).collect();
    found.resize(rooms.1, 0);
    (answer, index, found)
}

fn window(random: &mut Random) -> i64 {
    random.pick(&[0, 1, 59, 60, 1800, 1800, 3600, 86_400, -1, i64::MIN, i64::MAX])
}

fn searches(g: &mut Group) {
    for _ in 0..g.depth(60, 20_000) {
        let (count, queries) = (g.random.place(120), g.depth(40, 100));
        let mut list = written(&some(&mut g.random, count, alike));
        let mut other = written(&some(&mut g.random, queries, alike));
        let mut rooms = (count + g.random.place(2), queries + g.random.place(2));
        match g.random.below(12) {
            0 => damage(&mut g.random, &mut list),
            1 => damage(&mut g.random, &mut other),
            2 => rooms.0 = rooms.0.saturating_sub(2),
            3 => rooms.1 -= 2,
            _ => (),
        }
        let window = window(&mut g.random);
        let (mut index, mut found) = (vec![USED; rooms.0], vec![7; rooms.1]);
        let answer = sys::contacts_search(&list, &other, window, &mut index, &mut found);
        let (expected, left, numbers) = searched(&list, &other, window, rooms);
        g.same(&list[..], (answer, index), (expected, left));
        if found.len() != numbers.len() {
            continue;
        }
        for (ours, theirs) in found.into_iter().zip(numbers) {
            g.same(&list[..], ours, theirs);
        }
    }
}

/// Lists of many contacts, with many equal keys and with few.
fn large(g: &mut Group) {
    for count in [1_000, 10_000, 100_000].into_iter().take(g.depth(1, 3)) {
        for of in [alike, any] {
            let contacts = some(&mut g.random, count, of);
            let mut asked: Vec<Contact> = (0..200).map(|_| contacts[g.random.place(count)].clone()).collect();
            asked.sort_by_key(|c| c.id);
            asked.dedup_by_key(|c| c.id);
            let (list, other) = (written(&contacts), written(&asked));
            let (mut index, mut found) = (vec![USED; count], vec![7; asked.len()]);
            let answer = sys::contacts_search(&list, &other, 1800, &mut index, &mut found);
            let (expected, left, numbers) = searched(&list, &other, 1800, (count, asked.len()));
            g.same(&list[..0], (answer, index == left), (expected, true));
            for (ours, theirs) in found.into_iter().zip(numbers) {
                g.same(&list[..0], ours, theirs);
            }
        }
    }
}

/// Contacts appended one by one, good and bad, into outputs that are long enough and that are not.
fn writes(g: &mut Group) {
    for _ in 0..g.depth(300, 50_000) {
        let count = g.random.place(6);
        let mut contacts = some(&mut g.random, count, any);
        if let Some(contact) = contacts.last_mut().filter(|_| g.random.below(3) == 0) {
            spoil(&mut g.random, contact);
        }
        let room = (written(&contacts).len() + g.random.place(20)).saturating_sub(g.random.place(12));
        let mut out: Vec<u8> = (0..room).map(|i| i as u8).collect();
        let mut expected = out.clone();
        let start =
            if room < 5 { AppendAnswer { refusal: 13, length: 0 } } else { AppendAnswer { refusal: 0, length: 5 } };
        if room >= 5 {
            expected[..5].copy_from_slice(&[1, 0, 0, 0, 0]);
        }
        let answer = sys::contacts_start(&mut out);
        g.same(&expected[..], (answer, &out), (start, &expected));
        let mut taken: Vec<Contact> = Vec::new();
        let mut used = 5;
        for contact in contacts.iter().filter(|_| room >= 5) {
            let largest = taken.last().map_or(0, |c| c.id);
            let texts = contact.texts().map(|t| &t[..]);
            let [call, date, time, band, mode] = texts;
            let end = used + 16 + texts.iter().map(|t| t.len()).sum::<usize>();
            let long = texts.iter().any(|t| t.len() > 255);
            let refusal = match () {
                _ if long || !is_sound(contact) => 17,
                _ if contact.id <= largest => 18,
                _ if end > room => 13,
                _ => 0,
            };
            if refusal == 0 {
                taken.push(contact.clone());
                expected[..end].copy_from_slice(&written(&taken));
            }
            let (count, services) = (taken.len() - (refusal == 0) as usize, contact.services);
            let answer = sys::contacts_append(
                &mut out, used, count, largest, contact.id, services, call, date, time, band, mode,
            );
            let length = if refusal == 0 { end } else { 0 };
            g.same(&expected[..], (answer, &out), (AppendAnswer { refusal, length }, &expected));
            if refusal == 0 {
                used = end;
            }
        }
    }
}

/// What the heading of a list to append to is refused with: what a list's check says of its version and its count, and 17 where the caller
/// tells another count, or there is no larger one.
fn heading(list: &[u8], told: usize) -> Result<(), u32> {
    match *list {
        [] => Err(17),
        [1, a, b, c, d, ..] => {
            let count = u32::from_be_bytes([a, b, c, d]);
            if count as usize == told && count < u32::MAX { Ok(()) } else { Err(17) }
        }
        [1, ..] => Err(17),
        _ => Err(16),
    }
}

/// A contact appended to bytes of every kind, lists or not, with a count that is theirs or not; and where the list is as long as may be.
fn headings(g: &mut Group) {
    let sound = Contact { date: b"20260301".to_vec(), time: b"1200".to_vec(), ..alike(&mut g.random, 9) };
    let append = |g: &mut Group, before: &[u8], used: usize, told: usize, contact: &Contact, largest: u64| {
        let texts = contact.texts().map(|t| &t[..]);
        let end = used.saturating_add(16 + texts.iter().map(|t| t.len()).sum::<usize>());
        let refusal = match heading(&before[..used.min(before.len())], told) {
            _ if used > LONGEST || texts.iter().any(|t| t.len() > LONGEST) => 1,
            Err(why) => why,
            _ if texts.iter().any(|t| t.len() > 255) || !is_sound(contact) => 17,
            _ if contact.id <= largest => 18,
            _ if end > LONGEST => 1,
            _ if end > before.len() => 13,
            Ok(()) => 0,
        };
        let (mut out, mut expected) = (before.to_vec(), before.to_vec());
        let length = if refusal == 0 { end } else { 0 };
        if refusal == 0 {
            let entry = &written(std::slice::from_ref(contact))[5..];
            expected[used..end].copy_from_slice(entry);
            expected[1..5].copy_from_slice(&(told as u32 + 1).to_be_bytes());
        }
        let [call, date, time, band, mode] = texts;
        let answer = sys::contacts_append(
            &mut out, used, told, largest, contact.id, contact.services, call, date, time, band, mode,
        );
        g.same(
            (&before[..before.len().min(9)], used as u64, told as u64),
            (answer, out == expected),
            (AppendAnswer { refusal, length }, true),
        );
        refusal
    };
    let mut seen = std::collections::BTreeSet::new();
    for _ in 0..g.depth(3_000, 300_000) {
        let bytes = [0, 1, 1, 1, 2, 3, 255];
        let mut before: Vec<u8> = vec![1, 0, 0, 0, 0];
        for byte in &mut before {
            if g.random.below(4) == 0 {
                *byte = g.random.pick(&bytes);
            }
        }
        before.resize(g.random.pick(&[0, 1, 4, 5, 6, 60, 100]), 7);
        let used = g.random.pick(&[0, 1, 3, 4, 5, 5, 5, 6, 50, 99, 101, usize::MAX]);
        let count = before.get(1..5).map_or(0, |b| u32::from_be_bytes(b.try_into().unwrap())) as usize;
        let told =
            g.random.pick(&[count, count, count, 0, count ^ 1, u32::MAX as usize - 1, u32::MAX as usize, usize::MAX]);
        let mut contact = sound.clone();
        if g.random.below(6) == 0 {
            spoil(&mut g.random, &mut contact);
        }
        let largest = g.random.pick(&[0, 8, 9]);
        seen.insert(append(g, &before, used, told, &contact, largest));
    }
    g.same("each refusal", seen.into_iter().collect::<Vec<_>>(), vec![0, 1, 13, 16, 17, 18]);
    // every first byte, every short list, and counts at their end
    for byte in 0..=255 {
        append(g, &[byte, 0, 0, 0, 0, 9], 5, 0, &sound, 3);
        append(g, &[&[byte, 0, 0, 0, 0][..], &[9; 60]].concat(), 5, 0, &sound, 3);
    }
    for used in 0..8 {
        append(g, &[&[1, 0, 0, 0, 0][..], &[9; 60]].concat(), used, 0, &sound, 3);
    }
    for told in [u32::MAX - 2, u32::MAX - 1, u32::MAX] {
        let list = [&[1][..], &told.to_be_bytes(), &[9; 60]].concat();
        append(g, &list, 5, told as usize, &sound, 3);
        append(g, &[&EMPTY[..], &[9; 60]].concat(), 5, told as usize, &sound, 3);
    }
    append(g, &[&[3; 5][..], &[9; 60]].concat(), 5, 0, &sound, 3);
    // a list as long as may be, one byte shorter and one longer, and texts that long
    let mut long = vec![7; LONGEST + 300];
    long[..5].copy_from_slice(&EMPTY);
    let size = written(std::slice::from_ref(&sound)).len() - 5;
    for used in [LONGEST - size - 1, LONGEST - size, LONGEST - size + 1, LONGEST, LONGEST + 1] {
        append(g, &long, used, 0, &sound, 3);
    }
    for length in [LONGEST, LONGEST + 1] {
        append(g, &long[..100], 5, 0, &Contact { mode: vec![b'x'; length], ..sound.clone() }, 3);
    }
}

/// The crate's lists: written, listed, searched, and refused.
fn wrapper(g: &mut Group) {
    fn told(contact: wrapped::Contact) -> Contact {
        let [call, date, time, band, mode] =
            [contact.call, contact.date, contact.time, contact.band, contact.mode].map(|text| text.as_bytes().to_vec());
        let services = contact.services.iter().map(|service| service.number() as u8).sum();
        Contact { id: contact.id, services, call, date, time, band, mode }
    }
    for _ in 0..g.depth(300, 20_000) {
        let (count, other) = (g.random.place(20), g.random.place(20));
        let [contacts, others] = [count, other].map(|count| some(&mut g.random, count, alike));
        let (list, other) = (written(&contacts), written(&others));
        let mut ours = wrapped::Writer::new();
        for Contact { id, services, call, date, time, band, mode } in &contacts {
            let [call, date, time, band, mode] =
                [call, date, time, band, mode].map(|text| std::str::from_utf8(text).unwrap());
            let services = wrapped::Service::ALL.iter().copied().filter(|s| services & s.number() as u8 != 0).collect();
            let contact = wrapped::Contact { id: *id, services, call, date, time, band, mode };
            g.same(*id, ours.append(&contact).map_err(|refusal| refusal.number()), Ok(()));
        }
        g.same(&list[..], ours.bytes(), &list[..]);
        let window = window(&mut g.random);
        let (mut damaged, mut refusal) = (list.clone(), 0);
        if g.random.below(3) == 0 {
            damage(&mut g.random, &mut damaged);
            refusal = marked(&damaged).refusal;
        }
        let listed = wrapped::List::new(&damaged);
        if refusal > 0 {
            g.same(&damaged[..], listed.map(|_| ()).map_err(|refusal| refusal.number()), Err(refusal));
            continue;
        }
        let (listed, contacts) = (listed.unwrap(), read(&damaged).unwrap());
        g.same(
            &damaged[..],
            listed.contacts().map(told).collect(),
            contacts.iter().map(|(_, c)| c.clone()).collect::<Vec<_>>(),
        );
        let (_, _, numbers) = searched(&damaged, &other, window, (contacts.len(), others.len()));
        let found = numbers.iter().map(|&n| (n as usize).checked_sub(1).map(|n| contacts[n].1.clone())).collect();
        g.same(
            &damaged[..],
            listed.search(&other, window).unwrap().into_iter().map(|c| c.map(told)).collect::<Vec<_>>(),
            found,
        );
    }
}

fn spoil(random: &mut Random, contact: &mut Contact) {
    match random.below(6) {
        0 => contact.id = random.pick(&[0, 1, 1 << 63, u64::MAX]),
        1 => contact.services = 16 + random.below(240) as u8,
        2 => contact.call = vec![b'A'; 256 + random.place(300)],
        3 => contact.band.push(0xC3),
        4 => contact.date.push(b'0'),
        _ => contact.time[0] = b':',
    }
}
