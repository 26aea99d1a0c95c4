//! Progress on a terminal, and nothing elsewhere.

use std::io::{stderr, IsTerminal, Write};
use std::sync::mpsc::{channel, RecvTimeoutError};
use std::time::{Duration, Instant};

const STEP: Duration = Duration::from_millis(200);

/// A line that is written over as the work goes on, and wiped at its end.
pub struct Progress {
    what: &'static str,
    shown: Option<Instant>,
    terminal: bool,
}

impl Progress {
    pub fn new(what: &'static str) -> Progress {
        Progress { what, shown: None, terminal: stderr().is_terminal() }
    }

    pub fn show(&mut self, done: u64, all: u64) {
        if !self.terminal || self.shown.is_some_and(|shown| shown.elapsed() < STEP) {
            return;
        }
        self.shown = Some(Instant::now());
        self.line(&format!("{} of {all}", done.min(all)));
    }

    fn line(&self, text: &str) {
        // What is lost where stderr is closed is only a sign of life.
        let _ = write!(stderr(), "\r\x1b[K{}: {text}", self.what);
    }
}

impl Drop for Progress {
    fn drop(&mut self) {
        if self.shown.is_some() {
            let _ = write!(stderr(), "\r\x1b[K");
        }
    }
}

/// Does work that is a single call, and meanwhile shows the seconds beside those that it may take.
pub fn while_waiting<T>(what: &'static str, estimate: Duration, work: impl FnOnce() -> T) -> T {
    let mut progress = Progress::new(what);
    if !progress.terminal {
        return work();
    }
    std::thread::scope(|scope| {
        // Dropping the sender, by a return of any kind, ends the clock.
        let (running, ended) = channel::<()>();
        scope.spawn(move || {
            let start = Instant::now();
            while ended.recv_timeout(STEP) == Err(RecvTimeoutError::Timeout) {
                progress.shown = Some(start);
                progress.line(&format!(
                    "{} s, about {} s expected",
                    start.elapsed().as_secs(),
                    estimate.as_secs().max(1)
                ));
            }
        });
        let result = work();
        drop(running);
        result
    })
}
