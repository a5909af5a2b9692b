//! Contacts indexed and searched, beside the original's query with a `HashMap` in the database's place, keyed alike: call in
//! capitals, band and mode. Both sides start from the list's bytes; the map's side makes moments as the original does.

use crate::measure::Row;
use crate::rows::kept;
use original::dedupe::parse_dt;
use oxbreathe::sys;
use std::cell::RefCell;
use std::collections::HashMap;
use std::str::from_utf8;

/// A list, and another whose contacts are searched in it.
type Lists = (&'static [u8], &'static [u8]);

pub fn rows() -> [Row; 3] {
    let log = kept(list(0..100_000, |i| i));
    let asked = kept(list(0..10_000, |i| i * 10));
    let none = kept(list(0..0, |i| i));
    // every contact of one key, a day apart
    let one = kept(list(0..10_000, |_| 0));
    [
        Row::new("index", "100,000", (log, none), indexed, mapped),
        Row::new("search", "10,000 in 100,000", (log, asked), searched, looked_up),
        Row::new("search", "100 in one key", (one, kept(list(0..100, |_| 0))), searched, looked_up),
    ]
}

thread_local! {
    static INDEX: RefCell<Vec<sys::Record>> = RefCell::new(vec![sys::Record::default(); 100_000]);
    static FOUND: RefCell<Vec<u64>> = RefCell::new(vec![0; 10_000]);
}

fn indexed((list, _): Lists) -> usize {
    INDEX.with_borrow_mut(|records| sys::contacts_index(list, records).contacts)
}

fn searched((list, other): Lists) -> u64 {
    INDEX.with_borrow_mut(|records| {
        FOUND.with_borrow_mut(|found| {
            let mark = sys::contacts_search(list, other, 1800, records, found);
            found[..mark.contacts].iter().sum()
        })
    })
}

type Key = (String, String, String);
/// Seconds, as the original's time has them.
type Moment = Option<i64>;

#[allow(deprecated)]
fn moment(date: &str, time: &str) -> Moment {
    parse_dt(date, time).map(|t| t.timestamp())
}

/// The contacts of a list that is whole: id, services and texts.
pub fn contacts(list: &[u8]) -> impl Iterator<Item = (u64, u8, [&str; 5])> {
    let mut rest = &list[5..];
    std::iter::from_fn(move || {
        let (size, after) = rest.split_at_checked(2)?;
        let (mut body, next) = after.split_at_checked(u16::from_be_bytes([size[0], size[1]]) as usize)?;
        rest = next;
        let id = u64::from_be_bytes(body.get(..8)?.try_into().ok()?);
        let services = *body.get(8)?;
        body = body.get(9..)?;
        let mut text = || {
            let (&length, after) = body.split_first()?;
            let (text, after) = after.split_at_checked(length as usize)?;
            body = after;
            from_utf8(text).ok()
        };
        Some((id, services, [text()?, text()?, text()?, text()?, text()?]))
    })
}

fn map(list: &[u8]) -> HashMap<Key, Vec<(u64, Moment)>> {
    let mut map: HashMap<Key, Vec<(u64, Moment)>> = HashMap::new();
    for (id, _, [call, date, time, band, mode]) in contacts(list) {
        let key = (call.to_ascii_uppercase(), band.to_string(), mode.to_string());
        map.entry(key).or_default().push((id, moment(date, time)));
    }
    map
}

fn mapped((list, _): Lists) -> usize {
    map(list).len()
}

fn looked_up((list, other): Lists) -> u64 {
    let map = map(list);
    let near = |a: Moment, b: Moment| matches!((a, b), (Some(a), Some(b)) if (a - b).abs() <= 1800);
    let first = |(_, _, [call, date, time, band, mode]): (u64, u8, [&str; 5])| {
        let key = (call.to_ascii_uppercase(), band.to_string(), mode.to_string());
        let when = moment(date, time);
        map.get(&key)?.iter().find(|(_, at)| near(*at, when)).map(|(id, _)| *id)
    };
    contacts(other).filter_map(first).sum()
}

/// A log of contacts by number, of which a tenth share a key with another.
pub fn list(numbers: std::ops::Range<u64>, key: fn(u64) -> u64) -> Vec<u8> {
    let mut list = vec![1];
    list.extend((numbers.end as u32).to_be_bytes());
    for i in numbers {
        let mut body = (i + 1).to_be_bytes().to_vec();
        body.push((i % 16) as u8);
        for text in texts(key(i), i) {
            body.push(text.len() as u8);
            body.extend(text.bytes());
        }
        list.extend((body.len() as u16).to_be_bytes());
        list.extend(body);
    }
    list
}

/// Call, date, time, band and mode of contact i with key k.
pub fn texts(k: u64, i: u64) -> [String; 5] {
    [
        format!("{}{}{}", ["DL", "W", "JA", "G"][k as usize % 4], k % 10, letters(k / 10 % 9_000)),
        format!("20{:02}{:02}{:02}", i / 336 % 100, i / 28 % 12 + 1, i % 28 + 1),
        format!("{:02}{:02}{:02}", k % 24, k % 60, k * 7 % 60),
        ["40m", "20m", "2m"][k as usize % 3].to_string(),
        ["SSB", "CW", "FT8"][k as usize / 3 % 3].to_string(),
    ]
}

fn letters(mut n: u64) -> String {
    let mut text = String::new();
    for _ in 0..3 {
        text.push((b'A' + (n % 26) as u8) as char);
        n /= 26;
    }
    text
}
