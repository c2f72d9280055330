//! The rules of the capture reader as plain Rust, one module for each format.

pub mod btsnoop;
pub mod le;
pub mod listing;
pub mod numbers;
pub mod output;
pub mod radiotap;
pub mod refusal;
pub mod rows;
pub mod stream;
pub mod tally;
pub mod time;
