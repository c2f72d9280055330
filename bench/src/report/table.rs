//! The tables in Markdown.

use super::{size, Results};
use crate::measure::Row;
use std::fmt::Write;

/// The columns of the radiotap table.
#[rustfmt::skip]
const HEADER_COLUMNS: [&str; 8] = ["Work", "Words", "Fields", "Ours", "Plain", "Ratio", "Bit by bit", "Ratio"];

/// The columns of the table of streams.
#[rustfmt::skip]
const STREAM_COLUMNS: [&str; 8] = ["Packet", "Chunk", "Records", "Ours", "Plain", "Ratio", "Ours, GB/s", "Plain, GB/s"];

/// A table with these columns, the first one of words and the others of numbers.
fn table(title: &str, columns: &[&str], lines: impl Iterator<Item = Vec<String>>) -> String {
    let mut text = format!("### {title}\n\n| {} |\n|---|", columns.join(" | "));
    text.push_str(&"---:|".repeat(columns.len() - 1));
    text.push('\n');
    for line in lines {
        writeln!(text, "| {} |", line.join(" | ")).expect("a string grows");
    }
    text.push('\n');
    text
}

/// A cost, and how it compares.
fn costs(row: &Row) -> [String; 3] {
    let [ours, plain] = [row.ours, row.plain].map(|cost| format!("{cost:.1}"));
    [ours, plain, format!("{:.2}", row.ours / row.plain)]
}

/// The cost of the bit-by-bit iterator, and how ours compares with it.
fn bit_by_bit(row: &Row) -> [String; 2] {
    row.bit_by_bit.map_or(["–".into(), "–".into()], |cost| {
        [format!("{cost:.1}"), format!("{:.2}", row.ours / cost)]
    })
}

fn capture(row: &Row) -> Vec<String> {
    let size = row.at.map_or("mixed".into(), size);
    let mut line = vec![row.work.to_string(), size, row.items.to_string()];
    line.extend(costs(row));
    line
}

fn stream(row: &Row) -> Vec<String> {
    let mut line = capture(row);
    let rate = |cost| {
        row.rate(cost)
            .map_or("–".into(), |rate| format!("{rate:.1}"))
    };
    line.extend([row.ours, row.plain].map(rate));
    line
}

fn header(row: &Row) -> Vec<String> {
    let words = row.at.map_or("mixed".into(), |words| words.to_string());
    let mut line = vec![row.work.to_string(), words, row.items.to_string()];
    line.extend(costs(row));
    line.extend(bit_by_bit(row));
    line
}

fn packet(row: &Row) -> Vec<String> {
    let mut line = vec![row.work.to_string()];
    line.extend(costs(row));
    line
}

/// The lines of each work together, in the order of their first ones.
fn by_work(rows: &[Row]) -> Vec<&Row> {
    let mut sorted: Vec<&Row> = rows.iter().collect();
    sorted.sort_by_key(|row| rows.iter().position(|other| other.work == row.work));
    sorted
}

/// All tables.
pub fn all(results: &Results) -> String {
    let captures = table(
        "Captures, nanoseconds per record",
        &["Work", "Size", "Records", "Ours", "Plain", "Ratio"],
        by_work(&results.captures).into_iter().map(capture),
    );
    let streams = table(
        "Streams, nanoseconds per record",
        &STREAM_COLUMNS,
        results.streams.iter().map(stream),
    );
    let headers = table(
        "Radiotap, nanoseconds per header",
        &HEADER_COLUMNS,
        by_work(&results.headers).into_iter().map(header),
    );
    let packets = table(
        "LE pseudo-header, nanoseconds per packet",
        &["Work", "Ours", "Plain", "Ratio"],
        results.packets.iter().map(packet),
    );
    [captures, streams, headers, packets].concat()
}
