//! The bar on standard error of work that takes longer than a second.

use crate::arguments::Arguments;
use std::fs;
use std::io::{self, IsTerminal, Write};
use std::sync::atomic::{AtomicU64, Ordering};
use std::sync::mpsc::{self, Receiver, RecvTimeoutError, Sender};
use std::thread::{self, JoinHandle};
use std::time::Duration;

const FIRST: Duration = Duration::from_secs(1);
const NEXT: Duration = Duration::from_millis(250);
const WIDTH: u64 = 40;
const PAGE: u64 = 4096;

/// Bytes that were gone through, and those that will be, as far as is known.
static DONE: AtomicU64 = AtomicU64::new(0);
static TOTAL: AtomicU64 = AtomicU64::new(0);

pub fn add(bytes: usize) {
    DONE.fetch_add(bytes as u64, Ordering::Relaxed);
}

pub fn expect(bytes: usize) {
    TOTAL.fetch_add(bytes as u64, Ordering::Relaxed);
}

/// A thread that shows how far the work is, until this is dropped.
pub struct Progress(Option<(Sender<()>, JoinHandle<()>)>);

impl Progress {
    /// Of bytes that are counted by `add`; these and those that `expect` tells.
    pub fn counted(arguments: &Arguments, total: usize) -> Progress {
        Progress::new(arguments, total, || DONE.load(Ordering::Relaxed))
    }

    /// The same, and of maps, which one call of the library goes through, the bytes of the pages that were touched.
    pub fn touched(arguments: &Arguments, total: usize) -> Progress {
        let before = touched_pages();
        let touched = move || PAGE * touched_pages().saturating_sub(before);
        Progress::new(arguments, total, move || {
            touched() + DONE.load(Ordering::Relaxed)
        })
    }

    fn new(
        arguments: &Arguments,
        total: usize,
        done: impl Fn() -> u64 + Send + 'static,
    ) -> Progress {
        expect(total);
        let is_wanted = !arguments.json() && io::stderr().is_terminal();
        Progress(is_wanted.then(|| {
            let (stop, stopped) = mpsc::channel();
            (stop, thread::spawn(move || watch(done, &stopped)))
        }))
    }
}

impl Drop for Progress {
    fn drop(&mut self) {
        if let Some((stop, watcher)) = self.0.take() {
            drop(stop);
            let _ = watcher.join(); // its line is erased then
        }
    }
}

fn watch(done: impl Fn() -> u64, stopped: &Receiver<()>) {
    let mut wait = FIRST;
    let mut most = 0;
    while let Err(RecvTimeoutError::Timeout) = stopped.recv_timeout(wait) {
        let total = TOTAL.load(Ordering::Relaxed).max(1);
        most = done().max(most);
        show(&format!("\r{}", line(most.min(total), total)));
        wait = NEXT;
    }
    if wait == NEXT {
        show("\r\x1b[K");
    }
}

fn show(text: &str) {
    let _ = io::stderr().write_all(text.as_bytes()); // the work goes on without it
}

/// `[####....] 54 %  1.2 of 2.2 GB`.
fn line(done: u64, total: u64) -> String {
    let filled = (WIDTH * done / total) as usize;
    let bar = "#".repeat(filled) + &".".repeat(WIDTH as usize - filled);
    let (unit, name) = match total {
        1_000_000_000.. => (1e9, "GB"),
        1_000_000.. => (1e6, "MB"),
        _ => (1e3, "kB"),
    };
    let [done_units, total_units] = [done, total].map(|bytes| bytes as f64 / unit);
    format!(
        "[{bar}] {} %  {done_units:.1} of {total_units:.1} {name}",
        100 * done / total
    )
}

/// The pages of maps that this process has looked at: the third number of statm.
fn touched_pages() -> u64 {
    let statm = fs::read_to_string("/proc/self/statm").unwrap_or_default();
    statm
        .split(' ')
        .nth(2)
        .and_then(|pages| pages.parse().ok())
        .unwrap_or(0)
}

#[cfg(test)]
mod tests {
    use super::line;

    #[test]
    fn the_line_shows_how_far() {
        assert_eq!(
            line(0, 1000),
            format!("[{}] 0 %  0.0 of 1.0 kB", ".".repeat(40))
        );
        let bar = "#".repeat(21) + &".".repeat(19);
        assert_eq!(
            line(1_188_000_000, 2_200_000_000),
            format!("[{bar}] 54 %  1.2 of 2.2 GB")
        );
    }
}
