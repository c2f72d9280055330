//! Writes captures with the model's listings of them, or runs a listing program over them.
//! Usage: listings FOLDER, or listings check PROGRAM FOLDER

mod capture;
mod check;
mod damaged;
mod named;
mod stored;

use std::path::Path;
use std::process::ExitCode;
use std::{env, io};

/// Writes the stored files of all captures.
fn write(folder: &Path) -> io::Result<bool> {
    let named = named::captures();
    let damaged = damaged::captures();
    stored::write(folder, &named, &damaged)?;
    println!("{} named, {} damaged captures", named.len(), damaged.len());
    Ok(true)
}

/// Runs what the arguments ask for; true when nothing differed.
fn run(arguments: &[&str]) -> Option<io::Result<bool>> {
    match arguments {
        [folder] => Some(write(Path::new(folder))),
        ["check", program, folder] => Some(check::all(program, Path::new(folder))),
        _ => None,
    }
}

fn main() -> ExitCode {
    let given: Vec<String> = env::args().skip(1).collect();
    let arguments: Vec<&str> = given.iter().map(String::as_str).collect();
    match run(&arguments) {
        Some(Ok(true)) => ExitCode::SUCCESS,
        Some(Ok(false)) => ExitCode::FAILURE,
        Some(Err(error)) => {
            eprintln!("listings: {error}");
            ExitCode::FAILURE
        }
        None => {
            eprintln!("usage: listings FOLDER, or listings check PROGRAM FOLDER");
            ExitCode::from(2)
        }
    }
}
