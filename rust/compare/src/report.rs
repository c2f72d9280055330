//! Counts of answers compared, and the differences met.

use std::collections::BTreeMap;
use std::fmt;

/// The most differences that are printed.
const PRINTED: u64 = 20;

/// Octets shown in hexadecimal.
#[derive(PartialEq, Eq)]
pub struct Hex<'a>(pub &'a [u8]);

impl fmt::Display for Hex<'_> {
    fn fmt(&self, formatter: &mut fmt::Formatter) -> fmt::Result {
        if self.0.is_empty() {
            return formatter.write_str("-");
        }
        self.0
            .iter()
            .try_for_each(|octet| write!(formatter, "{octet:02x}"))
    }
}

impl fmt::Debug for Hex<'_> {
    fn fmt(&self, formatter: &mut fmt::Formatter) -> fmt::Result {
        fmt::Display::fmt(self, formatter)
    }
}

/// The running result of the comparison.
#[derive(Default)]
pub struct Report {
    counts: BTreeMap<&'static str, u64>,
    differences: u64,
}

impl Report {
    /// Compares the library's answer with the one expected.
    pub fn compare<T: PartialEq + fmt::Debug>(
        &mut self,
        function: &'static str,
        inputs: impl FnOnce() -> String,
        library: T,
        expected: T,
    ) {
        *self.counts.entry(function).or_default() += 1;
        if library == expected {
            return;
        }
        self.differences += 1;
        if self.differences <= PRINTED {
            println!("difference: {function}");
            println!("  inputs:   {}", inputs());
            println!("  library:  {library:?}");
            println!("  expected: {expected:?}");
        }
    }

    /// Counts answers that were compared and found as expected.
    pub fn agreed(&mut self, function: &'static str, answers: u64) {
        *self.counts.entry(function).or_default() += answers;
    }

    /// How many answers were compared.
    pub fn answers(&self) -> u64 {
        self.counts.values().sum()
    }

    /// How many of them differed.
    pub fn differences(&self) -> u64 {
        self.differences
    }

    /// Prints the counts, and on the last line also which run it was; true when nothing differed.
    pub fn finish(&self, run: &str) -> bool {
        for (function, count) in &self.counts {
            println!("{count:>10}  {function}");
        }
        println!(
            "comparison: {run}, {} answers compared, {} differences",
            self.answers(),
            self.differences
        );
        self.differences == 0
    }
}
