//! The benchmark: what a call of the library costs beside std or the original on the same input.
//!   bench count                 each call once between marks, for emulator/count.c to count
//!   bench table COUNTS [time]   the table, from the marks in the file COUNTS, and with times measured here
//!   bench stack                 how much stack each exported call takes

#[cfg(original)]
mod contacts;
#[cfg(original)]
mod dedupe;
mod measure;
#[cfg(original)]
mod model;
#[cfg(original)]
mod plan;
#[cfg(original)]
mod reading;
mod rows;
mod stack;
#[cfg(original)]
mod writing;

fn main() {
    let arguments: Vec<String> = std::env::args().skip(1).collect();
    match arguments.iter().map(String::as_str).collect::<Vec<_>>()[..] {
        ["count"] => measure::count(&rows::all()),
        ["table", counts] => measure::table(&rows::all(), counts, false),
        ["table", counts, "time"] => measure::table(&rows::all(), counts, true),
        ["stack"] => stack::print(),
        _ => {
            eprintln!("bench count, bench table COUNTS [time], or bench stack");
            std::process::exit(2);
        }
    }
}
