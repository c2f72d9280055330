//! Runs a program over the stored captures and compares its listings.

use crate::stored::{self, Stored};
use random::prng::Prng;
use std::io::{self, Write};
use std::path::Path;
use std::process::{Command, Output, Stdio};
use std::thread::{scope, sleep};
use std::time::Duration;

/// The most captures that are named as differing.
const NAMED: usize = 10;

/// The wait before each piece, so that the program meets the pieces one by one.
const WAIT: Duration = Duration::from_millis(2);

/// Runs the program once for each capture, for every second one in pieces; true when none differs.
pub fn all(program: &str, folder: &Path) -> io::Result<bool> {
    let captures = stored::read(folder)?;
    let mut prng = Prng::new(1);
    let mut differing = Vec::new();
    for (index, stored) in captures.iter().enumerate() {
        let pieces = match index % 2 {
            0 => pieces(&mut prng, &stored.capture),
            _ => vec![&stored.capture[..]],
        };
        if differs(&run(program, &pieces)?, stored) {
            differing.push(&stored.name);
        }
    }
    for name in differing.iter().take(NAMED) {
        println!("differs: {name}");
    }
    let (listed, differ) = (captures.len(), differing.len());
    println!("{listed} captures listed, {differ} differ");
    Ok(differing.is_empty())
}

/// True for another listing, and for a program that a signal ended.
fn differs(output: &Output, stored: &Stored) -> bool {
    output.status.code().is_none() || output.stdout != stored.listing
}

/// A capture in about twelve pieces of varying size.
fn pieces<'a>(prng: &mut Prng, capture: &'a [u8]) -> Vec<&'a [u8]> {
    let bound = 1 + capture.len() / 6;
    let mut pieces = Vec::new();
    let mut rest = capture;
    while !rest.is_empty() {
        let length = rest.len().min(1 + prng.below(bound));
        let (piece, behind) = rest.split_at(length);
        pieces.push(piece);
        rest = behind;
    }
    pieces
}

/// Runs the program with the pieces on its standard input, one after another.
fn run(program: &str, pieces: &[&[u8]]) -> io::Result<Output> {
    let mut command = Command::new(program);
    command.stdin(Stdio::piped()).stdout(Stdio::piped());
    let mut child = command.spawn()?;
    let input = child.stdin.take().expect("a pipe");
    scope(|threads| {
        threads.spawn(|| deliver(input, pieces));
        child.wait_with_output()
    })
}

/// Writes the pieces; a program that has read enough may close the pipe before the last.
fn deliver(mut input: impl Write, pieces: &[&[u8]]) {
    for piece in pieces {
        if pieces.len() > 1 {
            sleep(WAIT);
        }
        if input.write_all(piece).is_err() {
            break;
        }
    }
}
