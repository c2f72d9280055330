//! Questions about streams, and the model's answers.

use crate::btsnoop::{file_header, three_records};
use crate::question::{decimal, hex, Question};
use model::rows::stream::taken;
use model::stream::{Answer, Stream, MOST_OCTETS};

const STREAM: u8 = 20;

/// A chunk's length that is more than any stream here has.
const ALL: u8 = 255;

/// The model's answer, without the op: to each chunk, to the end, to a chunk of all that is left, and to the end again.
pub fn answer(question: &Question) -> String {
    let [before, ..] = question.numbers;
    let whole = &question.first[..];
    let mut stream = Stream::fresh();
    stream.pass(before);
    let lengths = question.second.iter().map(|length| usize::from(*length));
    let mut answers: Vec<String> = lengths
        .map(|length| answer_chunk(&mut stream, whole, length))
        .collect();
    answers.push(answer_end(&mut stream, whole));
    answers.push(answer_chunk(&mut stream, whole, whole.len()));
    answers.push(answer_end(&mut stream, whole));
    answers.join(" ")
}

/// The answer to a chunk of the octets that come next, at most so many.
fn answer_chunk(stream: &mut Stream, whole: &[u8], length: usize) -> String {
    let from = stream.octets();
    let to = whole.len().min(from + length);
    let answer = stream.take(&whole[..to]);
    let part = match &answer {
        Answer::Record { part, .. } | Answer::More { part, .. } => {
            &whole[from + part.place..][..part.size]
        }
        _ => &[],
    };
    let numbers = [&taken(&answer)[..], &[stream.all_octets()]].concat();
    format!("{} {}", decimal(&numbers), hex(part))
}

/// The answer to the stream's end.
fn answer_end(stream: &mut Stream, whole: &[u8]) -> String {
    let answer = stream.end(whole);
    decimal(&[&taken(&answer)[..], &[stream.all_octets()]].concat())
}

/// A question about a stream in chunks of these lengths.
fn stream(octets: &[u8], lengths: &[u8]) -> Question {
    Question::new(STREAM, &[], octets, lengths)
}

/// All questions.
pub fn questions() -> Vec<Question> {
    let mut list = Vec::new();
    cuts(&mut list);
    ends(&mut list);
    headers(&mut list);
    lengths(&mut list);
    most_octets(&mut list);
    list
}

/// A whole stream octet by octet, at once, and cut inside the file header, records' headers and packets.
fn cuts(list: &mut Vec<Question>) {
    let three = three_records();
    list.push(stream(&three, &[1; 95]));
    list.push(stream(&three, &[ALL; 5]));
    for first in [0, 1, 8, 15] {
        list.push(stream(&three, &[first, ALL, ALL, ALL, ALL]));
    }
    for first in [0, 1, 12, 23, 24, 25, 27, 28, 29] {
        list.push(stream(&three, &[16, first, ALL, 0, ALL, ALL]));
    }
    for second in [1, 23, 24, 25] {
        list.push(stream(&three, &[16, 28, second, ALL, ALL]));
    }
    list.push(stream(
        &three,
        &[7, 0, 9, 23, 0, 1, 1, 0, 2, 1, 24, 24, 0, 1, 0, 1],
    ));
    list.push(stream(&three, &[5, 11, 22, 5, 20, 5, 22, 3, 30]));
}

/// Streams that end inside and behind each of their parts.
fn ends(list: &mut Vec<Question>) {
    let three = three_records();
    for length in [0, 1, 15, 16, 17, 39, 40, 41, 43, 44, 45, 67, 68, 92, 93] {
        list.push(stream(&three[..length], &[16, ALL, ALL]));
        list.push(stream(&three[..length], &[3, 13, 20, 5, 20]));
    }
}

/// Refusals 2, 3 and 4 with the header's last octet, in their order.
fn headers(list: &mut Vec<Question>) {
    let mut identification = file_header(2, 1005);
    identification[7] = 1;
    for header in [identification, file_header(2, 1005), file_header(1, 1005)] {
        list.push(stream(&header, &[15, 1, 0]));
        list.push(stream(&[&header[..], &[0; 24]].concat(), &[ALL, ALL]));
        list.push(stream(&header[..15], &[8, 7]));
    }
}

/// Lengths of the first record at their bounds; 6 comes with the last octet of its header.
fn lengths(list: &mut Vec<Question>) {
    for (original, included) in [
        (4, 5),
        (0, 1),
        (0, 0),
        (9, 0),
        (5, 5),
        (54, 54),
        (55, 55),
        (u32::MAX, u32::MAX),
        (u32::MAX - 1, u32::MAX),
    ] {
        let mut octets = three_records();
        octets[16..20].copy_from_slice(&original.to_be_bytes());
        octets[20..24].copy_from_slice(&included.to_be_bytes());
        list.push(stream(&octets, &[16, 23, 1, 1, ALL, ALL]));
        list.push(stream(&octets, &[ALL, ALL, ALL]));
    }
}

/// 32 by the octets taken and the whole chunk, in a state that says that so many were taken.
fn most_octets(list: &mut Vec<Question>) {
    let header = file_header(1, 1002);
    for (before, length) in [
        (MOST_OCTETS, 1),
        (MOST_OCTETS - 15, 16),
        (MOST_OCTETS + 1, 0),
        (u64::MAX, 0),
        (u64::MAX, ALL),
    ] {
        list.push(Question::new(STREAM, &[before], &header, &[length, 1]));
    }
}
