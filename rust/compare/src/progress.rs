//! How far a run has come, as a line on standard error.

use crate::report::Report;
use std::io::{stderr, IsTerminal};
use std::time::{Duration, Instant};

/// The shortest time between two lines.
const BETWEEN: Duration = Duration::from_secs(1);

/// The inputs of each format so far.
pub struct Progress {
    shown: bool,
    terminal: bool,
    last: Instant,
    formats: Vec<(&'static str, u64)>,
}

impl Progress {
    /// Shown on a terminal, and where it is asked for.
    pub fn new(asked: bool) -> Self {
        let terminal = stderr().is_terminal();
        Progress {
            shown: asked || terminal,
            terminal,
            last: Instant::now(),
            formats: Vec::new(),
        }
    }

    /// Starts the next format.
    pub fn format(&mut self, name: &'static str) {
        self.formats.push((name, 0));
    }

    /// Counts the input of one round.
    pub fn round(&mut self, report: &Report) {
        if let Some((_, inputs)) = self.formats.last_mut() {
            *inputs += 1;
        }
        if self.shown && self.last.elapsed() >= BETWEEN {
            self.show(report);
            self.last = Instant::now();
        }
    }

    /// The inputs of all formats.
    pub fn inputs(&self) -> u64 {
        self.formats.iter().map(|(_, inputs)| inputs).sum()
    }

    /// Writes the line; a terminal's line is written over.
    fn show(&self, report: &Report) {
        let total = self.inputs();
        let each = |(name, inputs): &(&str, u64)| format!("{name} {inputs}");
        let formats: Vec<String> = self.formats.iter().map(each).collect();
        let line = format!(
            "{total} inputs ({}), {} answers, {} differences",
            formats.join(", "),
            report.answers(),
            report.differences()
        );
        if self.terminal {
            eprint!("\r{line}\x1b[K");
        } else {
            eprintln!("{line}");
        }
    }

    /// Writes the line a last time, for the whole run, and leaves it.
    pub fn finish(&self, report: &Report) {
        if self.shown {
            self.show(report);
        }
        if self.shown && self.terminal {
            eprintln!();
        }
    }
}
