//! How far a long call is, on standard error: over the same line on a terminal, else a line every two seconds. Short calls
//! say nothing.

use std::io::{stderr, IsTerminal, Write};
use std::time::{Duration, Instant};

pub struct Teller {
    began: Instant,
    said: Option<Instant>,
    on_terminal: bool,
}

impl Teller {
    pub fn new() -> Teller {
        Teller { began: Instant::now(), said: None, on_terminal: stderr().is_terminal() }
    }

    fn every(&self) -> Duration {
        Duration::from_millis(if self.on_terminal { 250 } else { 2_000 })
    }

    /// Says the words where it is time to, with how long it has taken so far.
    pub fn say(&mut self, words: impl FnOnce() -> String) {
        let now = Instant::now();
        if now - self.said.unwrap_or(self.began) < self.every() {
            return;
        }
        self.said = Some(now);
        let seconds = (now - self.began).as_secs();
        let line = format!("plan: {}, {}:{:02}", words(), seconds / 60, seconds % 60);
        // What cannot be said is no reason to end.
        let _ = match self.on_terminal {
            true => write!(stderr(), "\r\x1b[K{line}"),
            false => writeln!(stderr(), "{line}"),
        };
    }
}

/// On a terminal the line goes with the call.
impl Drop for Teller {
    fn drop(&mut self) {
        if self.on_terminal && self.said.is_some() {
            let _ = write!(stderr(), "\r\x1b[K");
        }
    }
}
