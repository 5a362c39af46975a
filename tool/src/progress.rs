//! The line that tells on a terminal how far one is.

use indicatif::{ProgressBar, ProgressDrawTarget, ProgressStyle};
use std::io::{self, Write};

/// Between two changes of its words so many files pass.
const STRIDE: u64 = 16;

/// Where standard error is no terminal, there is no line.
pub struct Progress {
    bar: Option<ProgressBar>,
    steps: u64,
    /// Whether the output goes to a terminal, and so may run into the line.
    beside: bool,
}

impl Progress {
    pub fn new(wanted: bool) -> Progress {
        let bar = Some(ProgressBar::new_spinner()).filter(|bar| wanted && !bar.is_hidden());
        if let Some(bar) = &bar {
            bar.set_style(ProgressStyle::with_template("{spinner} {msg}").expect("a template of known fields"));
        }
        Progress { bar, steps: 0, beside: !ProgressDrawTarget::stdout().is_hidden() }
    }

    /// One file more. The words are asked for now and then.
    pub fn step(&mut self, words: impl FnOnce() -> String) {
        if let Some(bar) = self.bar.as_ref().filter(|_| self.steps % STRIDE == 0) {
            bar.set_message(words());
        }
        self.steps += 1;
    }

    /// Prints a line of the output.
    pub fn print(&self, out: &mut impl Write, line: &str) -> io::Result<()> {
        match &self.bar {
            Some(bar) if self.beside => bar.suspend(|| writeln!(out, "{}", line).and_then(|()| out.flush())),
            _ => writeln!(out, "{}", line),
        }
    }

    /// Does something that prints to standard error.
    pub fn aside(&self, print: impl FnOnce()) {
        match &self.bar {
            Some(bar) => bar.suspend(print),
            None => print(),
        }
    }

    pub fn end(self) {
        if let Some(bar) = self.bar {
            bar.finish_and_clear();
        }
    }
}
