//! Compares the static library with the model, answer by answer.
//! Usage: compare [--progress] [COUNT] [SEED]

mod btsnoop;
mod le;
mod lent;
mod places;
mod progress;
mod radiotap;
mod report;
mod stream;
mod tally;

use progress::Progress;
use random::prng::Prng;
use report::Report;
use std::process::ExitCode;

/// Rounds of each format where no count is given.
const COUNT: u64 = 500_000;

/// Seed where none is given.
const SEED: u64 = 1;

/// What every question uses: random numbers and the running result.
pub struct Session {
    prng: Prng,
    report: Report,
}

/// Questions asked in a session.
type Questions = fn(&mut Session);

/// The name, the ends and the round of each format, of streams and of the tally.
const FORMATS: [(&str, Questions, Questions); 5] = [
    ("btsnoop", btsnoop::ends::all, btsnoop::round),
    ("stream", stream::ends::all, stream::round),
    ("radiotap", radiotap::ends::all, radiotap::round),
    ("LE", le::ends::all, le::round),
    ("tally", tally::ends::all, tally::round),
];

/// What the arguments ask for: count, seed, and whether progress is shown.
fn arguments() -> Option<(u64, u64, bool)> {
    let words: Vec<String> = std::env::args().skip(1).collect();
    let (asked, numbers): (Vec<_>, Vec<_>) = words.iter().partition(|word| *word == "--progress");
    let numbers = numbers.into_iter().map(|text| text.parse().ok());
    let progress = !asked.is_empty();
    match numbers.collect::<Option<Vec<u64>>>()?.as_slice() {
        [] => Some((COUNT, SEED, progress)),
        [count] => Some((*count, SEED, progress)),
        [count, seed] => Some((*count, *seed, progress)),
        _ => None,
    }
}

fn main() -> ExitCode {
    let Some((count, seed, progress)) = arguments() else {
        eprintln!("usage: compare [--progress] [COUNT] [SEED]");
        return ExitCode::from(2);
    };
    let mut session = Session {
        prng: Prng::new(seed),
        report: Report::default(),
    };
    let mut progress = Progress::new(progress);
    for (name, ends, round) in FORMATS {
        progress.format(name);
        ends(&mut session);
        for _ in 0..count {
            round(&mut session);
            progress.round(&session.report);
        }
    }
    progress.finish(&session.report);
    let inputs = progress.inputs();
    let run = format!("{count} rounds of each, seed {seed}, {inputs} inputs");
    if session.report.finish(&run) {
        ExitCode::SUCCESS
    } else {
        ExitCode::FAILURE
    }
}
