//! What is measured, and the lines that come of it.

pub mod captures;
pub mod headers;
pub mod packets;
pub mod streams;

/// One line of a table: what was done to which input, and nanoseconds per item.
pub struct Row {
    pub work: &'static str,
    /// The capture's or the chunk's size, or the header's words; none for inputs of several kinds.
    pub at: Option<usize>,
    /// Records of the capture, or fields of the header.
    pub items: usize,
    pub ours: f64,
    pub plain: f64,
    pub bit_by_bit: Option<f64>,
    /// Octets of an item, where a rate is told.
    pub octets: Option<usize>,
}

impl Row {
    /// Octets per nanosecond, which are gigabytes per second, at a cost per item.
    pub fn rate(&self, cost: f64) -> Option<f64> {
        self.octets.map(|octets| octets as f64 / cost)
    }
}

/// A line of two costs.
fn row(work: &'static str, at: Option<usize>, items: usize, [ours, plain]: [f64; 2]) -> Row {
    Row {
        work,
        at,
        items,
        ours,
        plain,
        bit_by_bit: None,
        octets: None,
    }
}
