//! Lists a BTSnoop stream from standard input as it arrives, each line as soon as it can be told, with tabs between
//! fields.
//! usage: list_stream

use std::io::{self, Write};
use std::process::ExitCode;
use zalghimo::stream::{ReadError, Reader};
use zalghimo::Record;

fn main() -> ExitCode {
    let mut output = io::stdout().lock();
    let ended = match list(&mut output) {
        Ok(records) => writeln!(output, "end\t{records}").map(|()| ExitCode::SUCCESS),
        Err(ReadError::Refused(refusal)) => {
            let (number, place) = (refusal.number(), refusal.place());
            writeln!(output, "stop\t{number}\t{place}\t{}", refusal.reason())
                .map(|()| ExitCode::FAILURE)
        }
        Err(ReadError::Source(error)) => Err(error),
    };
    ended.unwrap_or_else(|error| {
        eprintln!("{error}");
        ExitCode::from(2)
    })
}

/// Prints the file's line and a line for each record, and counts the records.
fn list(output: &mut impl Write) -> Result<usize, ReadError> {
    let mut reader = Reader::new(io::stdin().lock());
    writeln!(output, "file\t1\t{}", reader.datalink()?)?;
    let mut records = 0;
    while let Some(record) = reader.next_record()? {
        print_record(output, &record)?;
        records += 1;
    }
    Ok(records)
}

/// Place, original length, included length, flags, drops, seconds, microseconds. The line is flushed by its end.
fn print_record(output: &mut impl Write, record: &Record) -> io::Result<()> {
    let time = match record.time() {
        Ok(time) => format!("{}\t{}", time.seconds, time.microseconds),
        Err(_) => "-\t-".to_string(),
    };
    writeln!(
        output,
        "rec\t{}\t{}\t{}\t{}\t{}\t{time}",
        record.place(),
        record.original_length(),
        record.included_length(),
        record.flags(),
        record.cumulative_drops()
    )
}
