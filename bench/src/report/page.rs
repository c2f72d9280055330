//! The page: what was measured, how, where, the plot and the tables.

use super::{machine, PLOT};
use crate::agree::ALL_DAMAGED;
use crate::measure::captures::{INSTALMENT, TIMES};
use crate::timing::{RUNS, SHORTEST};

/// The page in Markdown.
pub fn page(tables: &str) -> String {
    format!(
        "# Benchmarks

The library beside plain Rust written for speed. Both give the same answers: this is checked on every input before it is
timed, and on {ALL_DAMAGED} damaged inputs, refusals among them. Both are timed in one process, one run of each in turn, and the
best of {RUNS} runs counts; a short work is repeated until a run lasts at least {} ms. A ratio is ours divided by the
other. The library is called through its C boundary and is not inlined; plain Rust may be. Answers of both are used where
the call puts them.

- *check*: a whole file. *survey*: a whole file by instalments of {INSTALMENT} records. *read*: record by record, all
  values used. *write*: a whole file from a list of records. Packets have 0 to 255 octets. *time*: record by record, the
  time alone used, {TIMES} records with empty packets.
- Streams: a capture of packets of one length, about 1 MiB, in chunks of one size, all that is told used. A rate is of
  all octets of the stream; packet octets are handed out as parts of the chunk, and neither reads them.
- *read* and *fields* of radiotap: a header judged whole, and the list of its fields besides. *Bit by bit* is an
  iterator in plain Rust that tests all 32 bits of a word, in the manner of the common C iterator. Headers are read in
  edition 3; each word but the last lets the next one start again. The mixed ones have one to eight words and any known
  fields, and their fields are the mean.
- *LE read*: a pseudo-header with any flags that are accepted.

![Costs: per record by input size, per radiotap header by presence words, per record of a stream by chunk size]({PLOT})

{tables}## Machine

{}

## Command

    cargo run --release --offline --manifest-path bench/Cargo.toml -- FOLDER
",
        SHORTEST.as_millis(),
        machine::description()
    )
}
