//! Writes stored questions and the model's answers to them.
//! Usage: vectors STDIN STDOUT

mod btsnoop;
mod le;
mod numbers;
mod question;
mod radiotap;
mod stream;
mod tally;

use question::Question;
use std::process::ExitCode;
use std::{env, fs, io};

/// The most octets that the questions may take: the proved program reads no more.
const LIMIT: usize = 131_072;

/// The questions of all formats, of the tally, of numbers in octets and of streams.
fn questions() -> Vec<Question> {
    let formats = [
        btsnoop::questions(),
        radiotap::questions(),
        le::questions(),
        tally::questions(),
        numbers::questions(),
        stream::questions(),
    ];
    formats.into_iter().flatten().collect()
}

/// The answer line of a question, by its op.
fn answer(question: &Question) -> String {
    let line = match question.op {
        1..=10 => btsnoop::answer(question),
        11..=15 => radiotap::answer(question),
        16..=17 => le::answer(question),
        18 => tally::answer(question),
        19 => numbers::answer(question),
        20 => stream::answer(question),
        op => panic!("no such op: {op}"),
    };
    format!("{} {line}\n", question.op)
}

/// Writes the questions and the answers to them.
fn write(stdin_file: &str, stdout_file: &str) -> io::Result<()> {
    let questions = questions();
    let octets: Vec<u8> = questions.iter().flat_map(Question::octets).collect();
    assert!(octets.len() <= LIMIT, "{} octets", octets.len());
    let lines: String = questions.iter().map(answer).collect();
    fs::write(stdin_file, &octets)?;
    fs::write(stdout_file, lines)?;
    println!("{} questions in {} octets", questions.len(), octets.len());
    Ok(())
}

fn main() -> ExitCode {
    let files: Vec<String> = env::args().skip(1).collect();
    let [stdin_file, stdout_file] = &files[..] else {
        eprintln!("usage: vectors STDIN STDOUT");
        return ExitCode::from(2);
    };
    match write(stdin_file, stdout_file) {
        Ok(()) => ExitCode::SUCCESS,
        Err(error) => {
            eprintln!("vectors: {error}");
            ExitCode::FAILURE
        }
    }
}
