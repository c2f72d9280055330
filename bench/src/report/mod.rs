//! What is printed and written: tables, the plot, the page.

pub mod machine;
pub mod page;
pub mod plot;
pub mod table;

use crate::measure::Row;

/// The plot's file name.
pub const PLOT: &str = "benchmarks.svg";

/// All lines measured.
pub struct Results {
    pub captures: Vec<Row>,
    pub streams: Vec<Row>,
    pub headers: Vec<Row>,
    pub packets: Vec<Row>,
}

/// A size in the largest binary unit that it reaches.
pub fn size(octets: usize) -> String {
    match octets {
        0..1024 => format!("{octets} octets"),
        1024..1_048_576 => format!("{} KiB", octets >> 10),
        _ => format!("{} MiB", octets >> 20),
    }
}
