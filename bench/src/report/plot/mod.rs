//! The plot in SVG: cost per record by size, cost per header by words; of streams, cost per record and rate by chunk.

mod axis;
mod panel;
mod shapes;

use super::{size, Results};
use panel::{Maker, Panel, Work};

/// A work of a colour.
const fn work(name: &'static str, colour: &'static str) -> Work {
    Work { name, colour }
}

const CAPTURE_WORKS: [Work; 4] = [
    work("check", "#0b62a4"),
    work("survey", "#c8500a"),
    work("read", "#2a7d2e"),
    work("write", "#7b3fa0"),
];

const HEADER_WORKS: [Work; 2] = [work("read", "#0b62a4"), work("fields", "#c8500a")];

const STREAM_WORKS: [Work; 3] = [
    work("64 octets", "#0b62a4"),
    work("256 octets", "#c8500a"),
    work("1500 octets", "#2a7d2e"),
];

const MAKERS: [Maker; 3] = [
    Maker {
        name: "ours",
        dashes: "none",
        filled: true,
        cost: |row| Some(row.ours),
    },
    Maker {
        name: "plain Rust",
        dashes: "7 4",
        filled: false,
        cost: |row| Some(row.plain),
    },
    Maker {
        name: "bit by bit",
        dashes: "2 3",
        filled: false,
        cost: |row| row.bit_by_bit,
    },
];

/// Who reaches which rate.
const RATES: [Maker; 2] = [
    Maker {
        cost: |row| row.rate(row.ours),
        ..MAKERS[0]
    },
    Maker {
        cost: |row| row.rate(row.plain),
        ..MAKERS[1]
    },
];

const STYLE: &str = "text { font: 13px sans-serif; fill: #222222; } .title { font-size: 15px; font-weight: bold; } \
    .grid { stroke: #dddddd; } .axis { stroke: #333333; }";

/// Where the panels of the two columns start, and the height of a line of panels.
const LEFT: f64 = 76.0;
const RIGHT: f64 = 638.0;
const HEIGHT: f64 = 470.0;

fn captures(results: &Results) -> Panel<'_> {
    // Only works that are measured at every size have a line.
    let drawn = |name| CAPTURE_WORKS.iter().any(|work| work.name == name);
    Panel {
        left: LEFT,
        title: "Captures: cost per record",
        across: "octets of the capture (log scale)",
        up: "nanoseconds per record (log scale)",
        logarithmic: true,
        written: |octets| size(octets).replace("iB", "i"),
        rows: results
            .captures
            .iter()
            .filter(|row| drawn(row.work))
            .collect(),
        works: &CAPTURE_WORKS,
        makers: &MAKERS[..2],
    }
}

fn headers(results: &Results) -> Panel<'_> {
    // Only headers with six fields a word lie on one line.
    let six = |fields: usize, words: Option<usize>| words.is_some_and(|words| fields == 6 * words);
    Panel {
        left: RIGHT,
        title: "Radiotap: cost per header, six fields a word",
        across: "presence words",
        up: "nanoseconds per header (log scale)",
        logarithmic: false,
        written: |words| words.to_string(),
        rows: results
            .headers
            .iter()
            .filter(|row| six(row.items, row.at))
            .collect(),
        works: &HEADER_WORKS,
        makers: &MAKERS,
    }
}

fn streams(results: &Results) -> Panel<'_> {
    Panel {
        left: LEFT,
        title: "Streams: cost per record, by the packet's length",
        across: "octets of a chunk (log scale)",
        up: "nanoseconds per record (log scale)",
        logarithmic: true,
        written: size,
        rows: results.streams.iter().collect(),
        works: &STREAM_WORKS,
        makers: &MAKERS[..2],
    }
}

fn stream_rates(results: &Results) -> Panel<'_> {
    Panel {
        left: RIGHT,
        title: "Streams: rate, by the packet's length",
        up: "GB/s (log scale)",
        makers: &RATES,
        ..streams(results)
    }
}

/// The whole drawing: two lines of panels.
pub fn svg(results: &Results) -> String {
    let height = 2.0 * HEIGHT;
    format!(
        "<svg xmlns=\"http://www.w3.org/2000/svg\" width=\"1128\" height=\"{height}\" viewBox=\"0 0 1128 {height}\">\n\
         <style>{STYLE}</style>\n\
         <rect width=\"1128\" height=\"{height}\" fill=\"#ffffff\"/>\n{}{}\
         <g transform=\"translate(0 {HEIGHT})\">\n{}{}</g>\n</svg>\n",
        captures(results).svg(),
        headers(results).svg(),
        streams(results).svg(),
        stream_rates(results).svg()
    )
}
