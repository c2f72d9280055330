//! The library beside common programs: files for them to read, and their output compared with the library's answers.
//! Usage: interop captures FOLDER | lines FILE | rewrite FILE | le FILE | radiotap FILE | compare FILE DECODE

mod capture;
mod le;
mod library;
mod pcap;
mod radiotap;

use std::fs;
use std::path::Path;
use std::process::ExitCode;

/// What the program is given.
const USAGE: &str =
    "interop captures FOLDER | lines FILE | rewrite FILE | le FILE | radiotap FILE | compare FILE DECODE";

/// Prints a capture as the library reads it.
fn lines(file: &Path) -> std::io::Result<bool> {
    let lines = capture::lines::read(&fs::read(file)?);
    print!("{}", lines.as_deref().unwrap_or("refused\n"));
    Ok(lines.is_some())
}

/// Rewrites a capture and says whether its own octets came out.
fn rewrite(file: &Path) -> std::io::Result<bool> {
    let input = fs::read(file)?;
    let checked = library::check(&input);
    let accepted = checked.kind == library::VALUES;
    let own = accepted && capture::rewritten(&input) == input;
    if accepted {
        println!("{} records, {} octets", checked.records, input.len());
    } else {
        println!(
            "refused: number {}, place {}",
            checked.number, checked.place
        );
    }
    Ok(own)
}

fn main() -> ExitCode {
    let arguments: Vec<String> = std::env::args().skip(1).collect();
    let words: Vec<&str> = arguments.iter().map(String::as_str).collect();
    let done = match words.as_slice() {
        ["captures", folder] => capture::write(Path::new(folder)).map(|()| true),
        ["lines", file] => lines(Path::new(file)),
        ["rewrite", file] => rewrite(Path::new(file)),
        ["le", file] => le::write(Path::new(file)).map(|()| true),
        ["radiotap", file] => radiotap::write(Path::new(file)).map(|()| true),
        ["compare", file, decode] => radiotap::compare(Path::new(file), Path::new(decode)),
        _ => {
            eprintln!("usage: {USAGE}");
            return ExitCode::from(2);
        }
    };
    match done {
        Ok(true) => ExitCode::SUCCESS,
        Ok(false) => ExitCode::FAILURE,
        Err(error) => {
            eprintln!("interop: {error}");
            ExitCode::from(2)
        }
    }
}
