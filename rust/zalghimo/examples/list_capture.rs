//! Lists a BTSnoop file, a line for the file, for each record and for how it ends, with tabs between fields.
//! usage: list_capture FILE

use std::env;
use std::fs;
use std::path::PathBuf;
use std::process::ExitCode;
use zalghimo::{Capture, Record, Refusal};

fn main() -> ExitCode {
    let Some(path) = env::args_os().nth(1).map(PathBuf::from) else {
        eprintln!("usage: list_capture FILE");
        return ExitCode::from(2);
    };
    let octets = match fs::read(&path) {
        Ok(octets) => octets,
        Err(error) => {
            eprintln!("{}: {error}", path.display());
            return ExitCode::from(2);
        }
    };
    match list(&octets) {
        Ok(records) => {
            println!("end\t{records}");
            ExitCode::SUCCESS
        }
        Err(refusal) => {
            let (number, place) = (refusal.number(), refusal.place());
            println!("stop\t{number}\t{place}\t{}", refusal.reason());
            ExitCode::FAILURE
        }
    }
}

/// Prints the file's line and a line for each record, and counts the records.
fn list(octets: &[u8]) -> Result<usize, Refusal> {
    let capture = Capture::new(octets)?;
    println!("file\t1\t{}", capture.datalink());
    let mut records = 0;
    for record in capture.records() {
        print_record(&record?);
        records += 1;
    }
    Ok(records)
}

/// Place, original length, included length, flags, drops, seconds, microseconds.
fn print_record(record: &Record) {
    print!("rec\t{}\t{}", record.place(), record.original_length());
    print!("\t{}\t{}", record.included_length(), record.flags());
    print!("\t{}\t", record.cumulative_drops());
    match record.time() {
        Ok(time) => println!("{}\t{}", time.seconds, time.microseconds),
        Err(_) => println!("-\t-"),
    }
}
