//! How far the work is, told on standard error where that is a terminal and the work takes long.
use std::io::{self, IsTerminal, Write};
use std::time::{Duration, Instant};

/// Work that ends within this is not told of; after it, no oftener than this.
const PATIENCE: Duration = Duration::from_millis(500);
const PAUSE: Duration = Duration::from_millis(200);

pub struct Progress {
    terminal: bool,
    next: Instant,
    shown: bool,
}

impl Progress {
    pub fn new() -> Progress {
        Progress { terminal: io::stderr().is_terminal(), next: Instant::now() + PATIENCE, shown: false }
    }

    pub fn tell(&mut self, text: impl FnOnce() -> String) {
        if !self.terminal || Instant::now() < self.next {
            return;
        }
        // back to the line's start, and what is left of a longer one is wiped out
        let _ = write!(io::stderr(), "\r{}\x1b[K", text());
        (self.shown, self.next) = (true, Instant::now() + PAUSE);
    }

    /// Wipes out what was told, before anything else is.
    pub fn clear(&mut self) {
        if self.shown {
            let _ = write!(io::stderr(), "\r\x1b[K");
            self.shown = false;
        }
    }
}
