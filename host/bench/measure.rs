//! One row of the table is one operation on one input, on both sides; counted between marks, or timed.

use std::collections::HashMap;
use std::hint::black_box;
use std::time::{Duration, Instant};

pub struct Row {
    operation: &'static str,
    input: &'static str,
    library: Box<dyn Fn()>,
    original: Box<dyn Fn()>,
}

impl Row {
    pub fn new<T: Copy + 'static, A: 'static, B: 'static>(
        operation: &'static str,
        input: &'static str,
        on: T,
        library: fn(T) -> A,
        original: fn(T) -> B,
    ) -> Row {
        Row {
            operation,
            input,
            library: Box::new(move || _ = black_box(library(black_box(on)))),
            original: Box::new(move || _ = black_box(original(black_box(on)))),
        }
    }
}

/// The marks of a row: at its start, after nothing, after the library, after the original.
const MARKS: u64 = 4;

fn mark(row: usize, which: u64) {
    unsafe extern "C" {
        fn syscall(number: i64, ...) -> i64;
    }
    // Safe: no system call has this number; natively it only fails.
    unsafe { syscall(77001, row as u64 * MARKS + which) };
}

pub fn count(rows: &[Row]) {
    for (i, row) in rows.iter().enumerate() {
        // once before, so that no symbol is looked up and no page first touched between marks
        (row.library)();
        (row.original)();
        mark(i, 0);
        mark(i, 1);
        (row.library)();
        mark(i, 2);
        (row.original)();
        mark(i, 3);
    }
}

pub fn table(rows: &[Row], counts: &str, timed: bool) {
    let lines = std::fs::read_to_string(counts).expect("a readable file of counts");
    let counted: HashMap<u64, u64> = lines.lines().filter_map(read_mark).collect();
    print!("{:<12} {:<16} {:>12} {:>12} {:>6}", "operation", "input", "instructions", "original", "ratio");
    println!("{}", if timed { "    time us   original  ratio" } else { "" });
    for (i, row) in rows.iter().enumerate() {
        let between = |which: u64| {
            let id = i as u64 * MARKS + which;
            *counted.get(&id).unwrap_or_else(|| panic!("no mark {id} in {counts}")) as f64
        };
        let (library, original) = (between(2) - between(1), between(3) - between(1));
        print!("{:<12} {:<16} {library:>12} {original:>12} {:>6.2}", row.operation, row.input, library / original);
        if timed {
            let (library, original) = (best(&row.library), best(&row.original));
            print!(" {:>10.2} {:>10.2} {:>6.2}", library * 1e6, original * 1e6, library / original);
        }
        println!();
    }
}

fn read_mark(line: &str) -> Option<(u64, u64)> {
    let (id, count) = line.strip_prefix("mark ")?.split_once(' ')?;
    Some((id.parse().ok()?, count.parse().ok()?))
}

/// Seconds a call, the best of several rounds: other work on the machine only ever adds.
fn best(call: &dyn Fn()) -> f64 {
    const ROUNDS: u32 = 25;
    let round = |calls: u32| {
        let start = Instant::now();
        (0..calls).for_each(|_| call());
        start.elapsed()
    };
    let mut calls = 1;
    while round(calls) < Duration::from_millis(2) {
        calls *= 2;
    }
    (0..ROUNDS).map(|_| round(calls).as_secs_f64() / calls as f64).fold(f64::MAX, f64::min)
}
