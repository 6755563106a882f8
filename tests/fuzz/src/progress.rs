use crate::{Limit, Summary};
use std::io::{stdout, IsTerminal, Write};
use std::time::{Duration, Instant};

/// Says how far a search is: on a terminal in one line, about once a second; elsewhere in a line every ten seconds.
pub struct Progress {
    terminal: bool,
    every: Duration,
    last: Instant,
}

impl Progress {
    pub fn new() -> Progress {
        let terminal = stdout().is_terminal();
        Progress { terminal, every: Duration::from_secs(if terminal { 1 } else { 10 }), last: Instant::now() }
    }

    /// For tests.
    pub fn silent() -> Progress {
        Progress { terminal: false, every: Duration::MAX, last: Instant::now() }
    }

    pub fn tell(&mut self, summary: &Summary, limit: Limit) {
        if self.last.elapsed() < self.every {
            return;
        }
        self.last = Instant::now();
        let text = format!("{summary}, {}", limit.left(summary));
        // on a terminal the rest of a longer line before is cleared
        put(&if self.terminal { format!("\r{text}\x1b[K") } else { format!("{text}\n") });
    }

    /// What is printed next begins on a line of its own.
    pub fn end(&self) {
        if self.terminal {
            put("\r\x1b[K");
        }
    }
}

/// Progress that nobody can read any more is no reason to stop.
fn put(text: &str) {
    let _ = stdout().write_all(text.as_bytes()).and_then(|()| stdout().flush());
}

impl Default for Progress {
    fn default() -> Progress {
        Progress::new()
    }
}
