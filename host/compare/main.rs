//! The comparison: the library's answers beside those of Rust's std and of the original, in one process.
//!   compare sample|full VECTORS SAMPLES   every group, at that depth; VECTORS and SAMPLES are the folders of recorded answers to replay,
//!                                         and of files beside what showplan prints of them
//!   compare record VECTORS SAMPLES        records those answers
//! SEED changes the random part; ONLY runs the groups whose name starts with it.

mod contacts;
#[cfg(original)]
mod dedupe;
#[cfg(original)]
mod differences;
mod examples;
mod files;
mod frequency;
mod generate;
mod harness;
mod hostile;
mod limits;
#[cfg(original)]
mod model;
#[cfg(original)]
mod normalize;
mod notation;
mod places;
#[cfg(original)]
mod plan;
#[cfg(original)]
mod qso;
mod reading;
mod rust;
mod text;
mod vectors;
mod writing;

use harness::Run;
use std::path::Path;
use std::process::ExitCode;

/// The seed of the gate and of the recorded vectors.
const SEED: u64 = 20_260_301;

fn main() -> ExitCode {
    let arguments: Vec<String> = std::env::args().skip(1).collect();
    let seed = std::env::var("SEED").map_or(Ok(SEED), |s| s.parse()).expect("SEED is a number");
    match arguments.iter().map(String::as_str).collect::<Vec<_>>()[..] {
        ["record", folder, samples] => vectors::record(Path::new(folder), Path::new(samples), seed),
        [depth @ ("sample" | "full"), folder, samples] => {
            compare(Run::new(depth == "full", seed), Path::new(folder), Path::new(samples))
        }
        _ => {
            eprintln!("compare sample|full|record VECTORS SAMPLES");
            ExitCode::from(2)
        }
    }
}

/// Every area's groups. A new area is a module with a `run`, called here.
fn compare(mut run: Run, folder: &Path, samples: &Path) -> ExitCode {
    text::run(&mut run);
    frequency::run(&mut run);
    reading::run(&mut run);
    writing::run(&mut run);
    contacts::run(&mut run);
    hostile::run(&mut run);
    limits::run(&mut run);
    vectors::run(&mut run, folder, samples);
    examples::run(&mut run);
    #[cfg(original)]
    normalize::run(&mut run);
    #[cfg(original)]
    model::run(&mut run);
    #[cfg(original)]
    qso::run(&mut run);
    #[cfg(original)]
    dedupe::run(&mut run);
    #[cfg(original)]
    plan::run(&mut run);
    #[cfg(original)]
    differences::run(&mut run);
    #[cfg(not(original))]
    run.left_out("the original's sources are not at hand (RIGFLOW_SRC): compared with std and the vectors alone");
    run.finish()
}
