//! A bar on standard error for work that passes a second, where that is a terminal. A plan is one call of the library, which tells nothing
//! before it ends: so the bar goes by files, and within one it only moves.

use crate::{complain, table};
use std::io::{self, IsTerminal};
use std::sync::mpsc::{self, RecvTimeoutError, Sender};
use std::thread::{self, JoinHandle};
use std::time::{Duration, Instant};

/// Work of less than this has no bar.
const PATIENCE: Duration = Duration::from_secs(1);
const STEP: Duration = Duration::from_millis(100);
const WIDTH: usize = 24;

pub struct Progress {
    /// Which file is in hand; the bar's thread ends with it.
    at: Option<Sender<(usize, String)>>,
    bar: Option<JoinHandle<()>>,
}

impl Progress {
    pub fn of(files: usize) -> Progress {
        if !io::stderr().is_terminal() {
            return Progress { at: None, bar: None };
        }
        let (at, told) = mpsc::channel::<(usize, String)>();
        let bar = thread::spawn(move || {
            let (began, mut now, mut steps) = (Instant::now(), (0, String::new()), 0);
            loop {
                match told.recv_timeout(STEP) {
                    Ok(next) => now = next,
                    Err(RecvTimeoutError::Timeout) => (),
                    Err(RecvTimeoutError::Disconnected) => break,
                }
                if began.elapsed() >= PATIENCE {
                    steps += 1;
                    complain(&format!("\r\x1b[K{}", line(now.0, files, steps, &now.1, began.elapsed().as_secs())));
                }
            }
            if steps > 0 {
                complain("\r\x1b[K");
            }
        });
        Progress { at: Some(at), bar: Some(bar) }
    }

    /// The file in hand, from 0.
    pub fn at(&self, number: usize, name: &str) {
        if let Some(at) = &self.at {
            let _ = at.send((number, name.to_string()));
        }
    }
}

/// The bar is taken away again.
impl Drop for Progress {
    fn drop(&mut self) {
        self.at = None;
        if let Some(bar) = self.bar.take() {
            let _ = bar.join();
        }
    }
}

/// What is done is filled; a mark runs along the rest.
fn line(done: usize, files: usize, steps: usize, name: &str, seconds: u64) -> String {
    let filled = WIDTH * done / files.max(1);
    let mark = filled + steps % (WIDTH - filled).max(1);
    let bar: String = (0..WIDTH)
        .map(|at| {
            if at < filled {
                '#'
            } else if at == mark {
                '>'
            } else {
                '.'
            }
        })
        .collect();
    let count = if files > 1 { format!("{done} of {files} files, ") } else { String::new() };
    format!("[{bar}] {count}{}, {seconds} s", table::cell(name))
}

#[cfg(test)]
mod tests {
    #[test]
    fn bars() {
        assert_eq!(super::line(0, 1, 3, "club.adi", 1), "[...>....................] club.adi, 1 s");
        assert_eq!(super::line(2, 4, 0, "club.adi", 9), "[############>...........] 2 of 4 files, club.adi, 9 s");
        assert_eq!(super::line(4, 4, 7, "", 9), "[########################] 4 of 4 files, , 9 s");
    }
}
