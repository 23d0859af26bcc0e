//! Progress of long work: one line on the terminal that is written over, and nothing elsewhere.

use std::io::{stderr, IsTerminal};
use std::time::{Duration, Instant};

use crate::output::print_error;

pub struct Progress {
    what: &'static str,
    all: u64,
    done: u64,
    next: Instant,
    terminal: bool,
    written: bool,
}

/// Work that is done within this time shows nothing.
const FIRST: Duration = Duration::from_millis(500);
const EACH: Duration = Duration::from_millis(200);

impl Progress {
    /// Of work whose end isn't known, `all` is 0.
    pub fn new(what: &'static str, all: u64) -> Progress {
        Progress {
            what,
            all,
            done: 0,
            next: Instant::now() + FIRST,
            terminal: stderr().is_terminal(),
            written: false,
        }
    }

    /// So much more is done.
    pub fn more(&mut self, count: u64) {
        self.at(self.done + count);
    }

    /// So much is done of so much, which is known only now.
    pub fn of(&mut self, done: u64, all: u64) {
        self.all = all;
        self.at(done);
    }

    pub fn at(&mut self, done: u64) {
        self.done = done;
        let now = Instant::now();
        if self.terminal && now >= self.next {
            let of = match self.all {
                0 => String::new(),
                all => format!(" of {all}"),
            };
            print_error(&format!("\r{}: {done}{of}   ", self.what));
            self.next = now + EACH;
            self.written = true;
        }
    }
}

/// The line is cleared when the work is over, also by an error.
impl Drop for Progress {
    fn drop(&mut self) {
        if self.written {
            print_error(&format!("\r{:76}\r", ""));
        }
    }
}
