//! A line that says how far the work is, for people at a terminal.

use std::io::{self, IsTerminal, Write};

pub struct Progress {
    files: usize,
    done: usize,
    wanted: bool,
}

impl Progress {
    pub fn of(files: usize) -> Progress {
        Progress {
            files,
            done: 0,
            wanted: files > 1 && io::stderr().is_terminal(),
        }
    }

    /// Does the work on the next file. While it lasts the line stands there; then it is taken away, so that an answer
    /// stands alone.
    pub fn during<T>(&mut self, work: impl FnOnce() -> T) -> T {
        if self.wanted {
            let _ = write!(io::stderr(), "{} of {} files", self.done, self.files);
        }
        let worked = work();
        if self.wanted {
            let _ = write!(io::stderr(), "\r\u{1b}[K");
        }
        self.done += 1;
        worked
    }
}
