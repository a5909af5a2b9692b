//! Groups of comparisons: each counts what it compared, keeps the smallest input that differed, and goes on to its end.

use crate::generate::Random;
use crate::notation::bars;
use std::fmt::Debug;
use std::panic::{AssertUnwindSafe, catch_unwind};
use std::process::ExitCode;

pub struct Run {
    full: bool,
    seed: u64,
    only: String,
    passed: u32,
    failed: u32,
    compared: u64,
    left_out: Vec<String>,
}

impl Run {
    pub fn new(full: bool, seed: u64) -> Run {
        // a panic of either side is an answer, or is told by its group
        std::panic::set_hook(Box::new(|_| ()));
        println!("{}, seed {seed}", if full { "full" } else { "sample" });
        let only = std::env::var("ONLY").unwrap_or_default();
        Run { full, seed, only, passed: 0, failed: 0, compared: 0, left_out: Vec::new() }
    }

    /// Runs the body as the group `name`, and prints its line.
    pub fn group(&mut self, name: &str, body: impl FnOnce(&mut Group)) {
        if !name.starts_with(&self.only) {
            return;
        }
        // by its name as well, so that a group keeps its inputs when others come or go
        let seed = name.bytes().fold(self.seed, |s, b| s.wrapping_mul(31).wrapping_add(b as u64));
        let mut group = Group { full: self.full, random: Random::new(seed), compared: 0, differ: 0, smallest: None };
        let panic = panicked(|| body(&mut group));
        println!("{name}: {} compared, {} differ", group.compared, group.differ);
        if let Some(Difference { input, ours, theirs, .. }) = &group.smallest {
            println!("    smallest: {input}\n    library:  {ours}\n    expected: {theirs}");
        }
        if let Some(message) = &panic {
            println!("    the group panicked: {message}");
        }
        self.compared += group.compared;
        match group.differ == 0 && group.compared > 0 && panic.is_none() {
            true => self.passed += 1,
            false => self.failed += 1,
        }
    }

    /// Says at the end what could not be compared.
    pub fn left_out(&mut self, why: &str) {
        self.left_out.push(why.to_string());
    }

    pub fn finish(self) -> ExitCode {
        for why in &self.left_out {
            println!("host: {why}");
        }
        println!("host: {} groups passed, {} failed, {} comparisons", self.passed, self.failed, self.compared);
        ExitCode::from((self.failed > 0 || self.passed == 0) as u8)
    }
}

pub struct Group {
    pub random: Random,
    full: bool,
    compared: u64,
    differ: u64,
    smallest: Option<Difference>,
}

struct Difference {
    size: usize,
    input: String,
    ours: String,
    theirs: String,
}

impl Group {
    /// Counts one comparison, and a difference where the answers are not equal.
    pub fn same<A: PartialEq + Debug>(&mut self, input: impl Input, ours: A, theirs: A) {
        self.compared += 1;
        if ours == theirs {
            return;
        }
        self.differ += 1;
        let size = input.size();
        if self.smallest.as_ref().is_none_or(|d| size < d.size) {
            let show = |answer: A| clip(format!("{answer:?}"));
            self.smallest =
                Some(Difference { size, input: clip(input.show()), ours: show(ours), theirs: show(theirs) });
        }
    }

    /// How many of something: one number in the sample, another in full.
    pub fn depth(&self, sample: usize, full: usize) -> usize {
        if self.full { full } else { sample }
    }

    /// Whether this one of many is taken: always in full, one in `n` at random in the sample.
    pub fn takes(&mut self, n: u64) -> bool {
        self.full || self.random.below(n) == 0
    }
}

/// A difference in a text of megabytes is still a line that one can read.
fn clip(mut shown: String) -> String {
    if let Some((cut, _)) = shown.char_indices().nth(2_000) {
        shown.truncate(cut);
        shown.push_str("..");
    }
    shown
}

/// What a comparison was made on: how large it is, and how it is shown.
pub trait Input {
    fn size(&self) -> usize;
    fn show(&self) -> String;
}

impl Input for &[u8] {
    fn size(&self) -> usize {
        self.len()
    }
    fn show(&self) -> String {
        bars(self)
    }
}

impl Input for &str {
    fn size(&self) -> usize {
        self.len()
    }
    fn show(&self) -> String {
        bars(self.as_bytes())
    }
}

impl Input for u64 {
    fn size(&self) -> usize {
        self.checked_ilog2().map_or(0, |n| n as usize + 1)
    }
    fn show(&self) -> String {
        self.to_string()
    }
}

impl<A: Input, B: Input> Input for (A, B) {
    fn size(&self) -> usize {
        self.0.size() + self.1.size()
    }
    fn show(&self) -> String {
        format!("{} {}", self.0.show(), self.1.show())
    }
}

impl<A: Input, B: Input, C: Input> Input for (A, B, C) {
    fn size(&self) -> usize {
        self.0.size() + self.1.size() + self.2.size()
    }
    fn show(&self) -> String {
        format!("{} {} {}", self.0.show(), self.1.show(), self.2.show())
    }
}

/// The message of the call's panic, if it panics.
pub fn panicked(call: impl FnOnce()) -> Option<String> {
    let payload = catch_unwind(AssertUnwindSafe(call)).err()?;
    let message = payload.downcast_ref::<String>().map(String::as_str).or(payload.downcast_ref::<&str>().copied());
    Some(message.unwrap_or("no message").to_string())
}

/// What the call gives, or `None` where it panics, as the original does where a sum wraps.
#[cfg(original)]
pub fn unless_panics<T>(call: impl FnOnce() -> T) -> Option<T> {
    catch_unwind(AssertUnwindSafe(call)).ok()
}
