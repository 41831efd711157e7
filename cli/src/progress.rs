//! How far a pallet is, on standard error: a bar on a terminal, else a line now and then.

use std::sync::atomic::{AtomicU64, Ordering};
use std::sync::Mutex;
use std::time::{Duration, Instant};

use crate::{streams, system};

const BAR: u64 = 40;

/// The pads that are done, of so many.
pub struct Progress {
    count: u64,
    done: AtomicU64,
    begun: Instant,
    pause: Duration,
    terminal: bool,
    told: Mutex<Instant>,
}

impl Progress {
    pub fn new(count: u64) -> Progress {
        let (begun, terminal) = (Instant::now(), system::is_terminal(2));
        let pause = Duration::from_millis(if terminal { 100 } else { 1000 });
        let progress = Progress {
            count,
            done: AtomicU64::new(0),
            begun,
            pause,
            terminal,
            told: Mutex::new(begun),
        };
        if terminal {
            streams::tell(&progress.shown(0));
        }
        progress
    }

    pub fn done(&self) -> u64 {
        self.done.load(Ordering::Relaxed)
    }

    /// One pad more. Whoever finds that it is time to tell of it does; nobody waits for that.
    pub fn add(&self) {
        let done = self.done.fetch_add(1, Ordering::Relaxed) + 1;
        if let Ok(mut told) = self.told.try_lock() {
            if told.elapsed() >= self.pause {
                *told = Instant::now();
                streams::tell(&self.shown(done));
            }
        }
    }

    fn shown(&self, done: u64) -> String {
        let of = format!("{done} of {} pads", self.count);
        if !self.terminal {
            return format!("{of}\n");
        }
        let full = (BAR * done / self.count) as usize;
        format!(
            "\r[{:<width$}] {of}",
            "#".repeat(full),
            width = BAR as usize
        )
    }

    /// The last line: what was made, in which time.
    pub fn end(&self) {
        let (done, seconds) = (self.done(), self.begun.elapsed().as_secs_f64());
        let (books, start) = (2 * done, if self.terminal { "\r\x1b[K" } else { "" });
        let rate = books as f64 / seconds;
        let text = format!(
            "{start}{done} of {} pads, {books} books in {seconds:.2} s: {rate:.0} books/s\n",
            self.count
        );
        streams::tell(&text);
    }
}
