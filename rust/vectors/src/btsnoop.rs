//! Questions about BTSnoop and time, and the model's answers.

use crate::question::{decimal, filled, hex, Question};
use model::btsnoop::{self, Earlier, Fields};
use model::rows::{btsnoop as rows, written};
use model::time::{self, UNIX_EPOCH, YEAR_2000};

const HEADER: u8 = 1;
const CHECK: u8 = 2;
const RECORD: u8 = 3;
const SURVEY: u8 = 4;
const EARLIER: u8 = 5;
const READ_TIME: u8 = 6;
const WRITE_TIME: u8 = 7;
const DROPS: u8 = 8;
const WRITE_HEADER: u8 = 9;
const WRITE_RECORD: u8 = 10;

/// The record of P3.
const RESET: Fields = Fields {
    original_length: 4,
    flags: 2,
    cumulative_drops: 0,
    time: YEAR_2000,
};
const RESET_PACKET: [u8; 4] = [0x01, 0x03, 0x0C, 0x00];

/// The model's answer, without the op.
pub fn answer(question: &Question) -> String {
    let [a, b, ..] = question.numbers;
    let (first, second) = (&question.first[..], &question.second[..]);
    match question.op {
        HEADER => decimal(&rows::header(btsnoop::read_header(first))),
        CHECK => decimal(&rows::file(btsnoop::check(first))),
        RECORD => answer_record(first, a as usize),
        SURVEY => decimal(&rows::survey(btsnoop::survey(
            first, a as usize, b as usize,
        ))),
        EARLIER => answer_earlier(first, a as usize, second, b as usize),
        READ_TIME => decimal(&rows::time(time::read_time(a as i64))),
        WRITE_TIME => decimal(&rows::time_field(time::write_time(a as i64, b as u32))),
        DROPS => btsnoop::drops(a as u32, b as u32).to_string(),
        WRITE_HEADER => answer_write_header(question),
        WRITE_RECORD => answer_write_record(question),
        op => panic!("no such op: {op}"),
    }
}

fn answer_record(input: &[u8], place: usize) -> String {
    let answer = btsnoop::read_record(input, place);
    let packet = match &answer {
        Ok(Some(record)) => record.packet,
        _ => &[],
    };
    format!("{} {}", decimal(&rows::record(&answer)), hex(packet))
}

fn answer_earlier(first: &[u8], place: usize, second: &[u8], other: usize) -> String {
    let answer = btsnoop::earlier(first, place, second, other);
    let packet = match &answer {
        Earlier::Packet { record, .. } => record.packet,
        _ => &[],
    };
    format!("{} {}", decimal(&rows::earlier(&answer)), hex(packet))
}

fn answer_write_header(question: &Question) -> String {
    let [place, datalink, ..] = question.numbers;
    let mut output = question.first.clone();
    let answer = btsnoop::write_header(&mut output, place as usize, datalink as u32);
    format!("{} {}", decimal(&written(answer)), hex(&output))
}

fn answer_write_record(question: &Question) -> String {
    let [place, original, flags, drops, time] = question.numbers;
    let fields = Fields {
        original_length: original as u32,
        flags: flags as u32,
        cumulative_drops: drops as u32,
        time: time as i64,
    };
    let mut output = question.first.clone();
    let answer = btsnoop::write_record(&mut output, place as usize, &fields, &question.second);
    format!("{} {}", decimal(&written(answer)), hex(&output))
}

/// A file header's octets.
pub fn file_header(version: u32, datalink: u32) -> Vec<u8> {
    let numbers = [version.to_be_bytes(), datalink.to_be_bytes()].concat();
    [&b"btsnoop\0"[..], &numbers].concat()
}

/// A record's octets, with any included length.
fn record(fields: &Fields, included_length: u32, packet: &[u8]) -> Vec<u8> {
    let mut octets = Vec::new();
    octets.extend(fields.original_length.to_be_bytes());
    octets.extend(included_length.to_be_bytes());
    octets.extend(fields.flags.to_be_bytes());
    octets.extend(fields.cumulative_drops.to_be_bytes());
    octets.extend(fields.time.to_be_bytes());
    octets.extend(packet);
    octets
}

/// A file of one reset command with these fields.
fn one_record(fields: &Fields) -> Vec<u8> {
    let record = record(fields, 4, &RESET_PACKET);
    [file_header(1, 1002), record].concat()
}

/// A file of one reset command with this time and packet.
fn timed(time: i64, packet: &[u8]) -> Vec<u8> {
    let fields = Fields {
        original_length: packet.len() as u32,
        time,
        ..RESET
    };
    let record = record(&fields, packet.len() as u32, packet);
    [file_header(1, 1002), record].concat()
}

/// A file of three records with packets of 4, 0 and 2 octets, which start at 16, 44 and 68.
pub fn three_records() -> Vec<u8> {
    let fields = Fields {
        original_length: 9,
        flags: u32::MAX,
        cumulative_drops: u32::MAX,
        time: -1,
    };
    let mut octets = one_record(&RESET);
    octets.extend(record(&fields, 0, &[]));
    octets.extend(record(&fields, 2, &[0xAB, 0xCD]));
    octets
}

/// All questions.
pub fn questions() -> Vec<Question> {
    let mut list = Vec::new();
    headers(&mut list);
    checks(&mut list);
    records(&mut list);
    places(&mut list);
    surveys(&mut list);
    earlier_of_two(&mut list);
    earlier_refusals(&mut list);
    read_times(&mut list);
    write_times(&mut list);
    drop_differences(&mut list);
    write_headers(&mut list);
    write_records(&mut list);
    list
}

/// Header lengths, identification octets, versions and codes.
fn headers(list: &mut Vec<Question>) {
    let whole = file_header(1, 1002);
    let mut inputs: Vec<Vec<u8>> = [0, 1, 8, 15, 16]
        .map(|length| whole[..length].into())
        .into();
    for place in 0..8 {
        let mut octets = whole.clone();
        octets[place] ^= 0x20;
        inputs.push(octets);
    }
    for version in [0, 1, 2, 0x0100_0000, u32::MAX] {
        inputs.push(file_header(version, 1002));
    }
    for datalink in [0, 1000, 1001, 1003, 1004, 1005, 0x8000_03E9, u32::MAX] {
        inputs.push(file_header(1, datalink));
    }
    inputs.push(file_header(2, 1005));
    inputs.push([&[0x63], &file_header(2, 1005)[1..]].concat());
    inputs.push([&[0x63], &whole[1..15]].concat());
    inputs.push([&whole[..], &[0xFF]].concat());
    for input in inputs {
        list.push(Question::new(HEADER, &[], &input, &[]));
    }
}

/// Files as a whole, P1 to P5 first.
fn checks(list: &mut Vec<Question>) {
    let (p2, p3, three) = (file_header(1, 1002), one_record(&RESET), three_records());
    let mut p5 = p3.clone();
    p5[23] = 5;
    let mut inputs = vec![vec![], p2.clone(), p3.clone(), p3[..43].to_vec(), p5];
    for length in [1, 15, 17, 39, 40] {
        inputs.push(p3[..length].to_vec());
    }
    for length in [43, 44, 45, 67, 68, 69, 91, 92, 93, 94] {
        inputs.push(three[..length].to_vec());
    }
    inputs.push([&three[..], &[0]].concat());
    inputs.push([file_header(2, 1002), p3[16..].to_vec()].concat());
    inputs.push([file_header(1, 1005), p3[16..43].to_vec()].concat());
    inputs.push([file_header(1, 1001), p3[16..].to_vec()].concat());
    inputs.push([file_header(1, 1004), three[16..].to_vec()].concat());
    for input in inputs {
        list.push(Question::new(CHECK, &[], &input, &[]));
    }
}

/// Records at 16 with lengths and values at their ends.
fn records(list: &mut Vec<Question>) {
    let p3 = one_record(&RESET);
    let mut inputs: Vec<Vec<u8>> = [17, 38, 39, 40, 43, 44].map(|end| p3[..end].into()).into();
    let lengths = [
        (0, 0),
        (0, 1),
        (1, 0),
        (3, 4),
        (4, 3),
        (4, 5),
        (5, 4),
        (5, 5),
        (u32::MAX, 4),
        (u32::MAX, u32::MAX),
        (u32::MAX - 1, u32::MAX),
        (0x0100_0004, 0x0100_0004),
    ];
    for (original, included) in lengths {
        let mut octets = p3.clone();
        octets[16..20].copy_from_slice(&original.to_be_bytes());
        octets[20..24].copy_from_slice(&included.to_be_bytes());
        inputs.push(octets);
    }
    for word in [0, 1, 2, 3, 0x8000_0000, u32::MAX] {
        let fields = Fields {
            flags: word,
            cumulative_drops: !word,
            ..RESET
        };
        inputs.push(one_record(&fields));
    }
    let times = [0, -1, UNIX_EPOCH, UNIX_EPOCH - 1, i64::MIN, i64::MAX];
    inputs.extend(times.map(|time| one_record(&Fields { time, ..RESET })));
    for input in inputs {
        list.push(Question::new(RECORD, &[16], &input, &[]));
    }
}

/// Records at places of every kind.
fn places(list: &mut Vec<Question>) {
    let (three, p3) = (three_records(), one_record(&RESET));
    let mut ask = |input: &[u8], place: usize| {
        list.push(Question::new(RECORD, &[place as u64], input, &[]));
    };
    for place in [0, 15, 16, 44, 45, 68, 93, 94, 95, usize::MAX] {
        ask(&three, place);
    }
    for place in [20, 21, 43, 44, 45, usize::MAX - 15, 1 << 63, (1 << 32) + 16] {
        ask(&p3, place);
    }
    for (length, place) in [(0, 0), (0, 1), (15, 15), (15, 16), (16, 15), (16, 16)] {
        ask(&p3[..length], place);
    }
    ask(&[vec![0; 16], p3[16..].to_vec()].concat(), 16);
    ask(&[0xFF; 60], 16);
    ask(&[0; 64], 17);
    ask(&three[..68], 44);
    ask(&three[..67], 44);
}

/// Surveys by number, at the end and before a broken record.
fn surveys(list: &mut Vec<Question>) {
    let whole = three_records();
    let mut ask = |input: &[u8], place: usize, number: u64| {
        list.push(Question::new(SURVEY, &[place as u64, number], input, &[]));
    };
    for number in [0, 1, 2, 3, 4, u64::MAX] {
        ask(&whole, 16, number);
        ask(&whole[..93], 16, number);
    }
    for number in [0, 1, u64::MAX] {
        ask(&whole, 44, number);
        ask(&whole, 94, number);
        ask(&whole[..93], 68, number);
        ask(&whole[..69], 68, number);
        ask(&whole, 15, number);
        ask(&whole, 95, number);
    }
    for (length, place) in [(0, 0), (15, 15), (16, 16), (16, 17), (17, 16), (44, 16)] {
        ask(&whole[..length], place, 0);
        ask(&whole[..length], place, 1);
    }
    let mut above = whole.clone();
    above[51] = 10;
    ask(&above, 16, 1);
    ask(&above, 16, 2);
    ask(&whole, usize::MAX, 0);
    ask(&[vec![0; 16], whole[16..].to_vec()].concat(), 16, 3);
}

/// A question about the earlier of two.
fn earlier(first: &[u8], place: usize, second: &[u8], other: usize) -> Question {
    Question::new(EARLIER, &[place as u64, other as u64], first, second)
}

/// Every order of two times, and captures at their ends.
fn earlier_of_two(list: &mut Vec<Question>) {
    let pairs = [
        (0, 0),
        (0, 1),
        (1, 0),
        (0, -1),
        (-1, 0),
        (i64::MIN, i64::MAX),
        (i64::MAX, i64::MIN),
        (i64::MIN, i64::MIN),
        (YEAR_2000, UNIX_EPOCH),
        (UNIX_EPOCH - 1, UNIX_EPOCH),
    ];
    for (one, two) in pairs {
        let (first, second) = (timed(one, &[0x11; 3]), timed(two, &[0x22; 5]));
        list.push(earlier(&first, 16, &second, 16));
    }
    let (first, second) = (timed(7, &[0x11; 3]), timed(7, &[]));
    list.push(earlier(&first, 43, &second, 16));
    list.push(earlier(&first, 16, &second, 40));
    list.push(earlier(&first, 43, &second, 40));
    list.push(earlier(&second, 16, &first, 16));
    list.push(earlier(&second, 40, &first, 16));
    list.push(earlier(&first, 16, &three_records(), 44));
    list.push(earlier(&three_records(), 68, &first, 16));
    list.push(earlier(&[0; 40], 16, &[0xFF; 16], 16));
}

/// Refusals of either capture and of both.
fn earlier_refusals(list: &mut Vec<Question>) {
    let whole = timed(7, &[0x11; 3]);
    let cut = &whole[..42];
    let mut above = whole.clone();
    above[23] = 4;
    list.push(earlier(cut, 16, &whole, 16));
    list.push(earlier(&whole, 16, cut, 16));
    list.push(earlier(cut, 16, &whole, 43));
    list.push(earlier(&whole, 43, cut, 16));
    list.push(earlier(cut, 16, &above, 16));
    list.push(earlier(&above, 16, cut, 16));
    list.push(earlier(&whole, 15, &whole, 44));
    list.push(earlier(&whole, 16, &whole, 44));
    list.push(earlier(&whole, 43, &whole, usize::MAX));
    list.push(earlier(&whole, 42, &whole, 41));
    list.push(earlier(&whole, 16, &whole, 41));
    list.push(earlier(&[], 0, &[], 0));
    list.push(earlier(&whole, 43, &[], 0));
}

/// Fields at and around every end, P6 among them.
fn read_times(list: &mut Vec<Question>) {
    let ends = [UNIX_EPOCH, i64::MIN + UNIX_EPOCH, 0, YEAR_2000];
    let mut fields = vec![i64::MIN, i64::MIN + 1, i64::MAX - 1, i64::MAX];
    for end in ends {
        fields.extend([end - 1, end, end + 1]);
    }
    for step in [-1_000_001, -1_000_000, -999_999, 999_999, 1_000_000] {
        fields.push(UNIX_EPOCH + step);
    }
    for field in fields {
        list.push(Question::new(READ_TIME, &[field as u64], &[], &[]));
    }
}

/// Seconds and microseconds at and around every end.
fn write_times(list: &mut Vec<Question>) {
    let mut ask = |seconds: i64, microseconds: u32| {
        let numbers = [seconds as u64, microseconds.into()];
        list.push(Question::new(WRITE_TIME, &numbers, &[], &[]));
    };
    for microseconds in [0, 1, 999_999, 1_000_000, 1_000_001, u32::MAX] {
        ask(0, microseconds);
        ask(-1, microseconds);
    }
    let (last, first) = (9_161_203_780_854, -9_285_540_292_855);
    for (seconds, microseconds) in [(last, 775_807), (first, 224_192)] {
        for step in [-1, 0, 1] {
            ask(seconds + step, microseconds);
            ask(seconds, microseconds.wrapping_add_signed(step as i32));
        }
    }
    for seconds in [946_684_800, -62_168_256_000, i64::MIN, i64::MAX] {
        ask(seconds, 0);
    }
    ask(i64::MAX, 1_000_000);
}

/// Drop differences, P7 first.
fn drop_differences(list: &mut Vec<Question>) {
    let last = u64::from(u32::MAX);
    let pairs = [
        [4_294_967_290, 5],
        [5, 4_294_967_290],
        [7, 7],
        [0, 0],
        [last, last],
        [0, last],
        [last, 0],
        [0, 1],
        [1, 0],
        [0x8000_0000, 0x7FFF_FFFF],
    ];
    for pair in pairs {
        list.push(Question::new(DROPS, &pair, &[], &[]));
    }
}

/// Headers written with every kind of room.
fn write_headers(list: &mut Vec<Question>) {
    let mut ask = |length: usize, place: u64, datalink: u32| {
        let numbers = [place, datalink.into()];
        list.push(Question::new(WRITE_HEADER, &numbers, &filled(length), &[]));
    };
    for datalink in [0, 1000, 1001, 1002, 1003, 1004, 1005, u32::MAX] {
        ask(20, 2, datalink);
    }
    for (length, place) in [(16, 0), (15, 0), (17, 1), (16, 1), (18, 1), (0, 0)] {
        ask(length, place, 1002);
    }
    for place in [20, 21, 1 << 32, u64::MAX - 15, u64::MAX] {
        ask(20, place, 1003);
    }
    ask(15, 0, 1005);
    ask(20, u64::MAX, 1000);
}

/// A question about writing a record.
fn write(length: usize, place: u64, fields: &Fields, packet: &[u8]) -> Question {
    let numbers = [
        place,
        fields.original_length.into(),
        fields.flags.into(),
        fields.cumulative_drops.into(),
        fields.time as u64,
    ];
    Question::new(WRITE_RECORD, &numbers, &filled(length), packet)
}

/// Records written with every kind of room and lengths around the original.
fn write_records(list: &mut Vec<Question>) {
    for (length, place) in [(28, 0), (27, 0), (33, 5), (32, 5), (34, 5), (0, 0)] {
        list.push(write(length, place, &RESET, &RESET_PACKET));
    }
    for place in [30, 31, 1 << 32, u64::MAX - 27, u64::MAX - 23, u64::MAX] {
        list.push(write(30, place, &RESET, &RESET_PACKET));
    }
    for packet in [0, 3, 4, 5] {
        list.push(write(32, 1, &RESET, &vec![0xEE; packet]));
    }
    for original_length in [0, 1, u32::MAX] {
        let fields = Fields {
            original_length,
            ..RESET
        };
        list.push(write(26, 1, &fields, &[]));
        list.push(write(26, 1, &fields, &[0x5A]));
    }
    list.push(write(10, 99, &RESET, &[0; 5]));
    for time in [i64::MIN, -1, 0, UNIX_EPOCH - 1, UNIX_EPOCH, i64::MAX] {
        let fields = Fields {
            time,
            flags: u32::MAX,
            cumulative_drops: 4_294_967_290,
            ..RESET
        };
        list.push(write(30, 2, &fields, &RESET_PACKET[..2]));
    }
    list.push(write(
        300,
        7,
        &Fields {
            original_length: 256,
            ..RESET
        },
        &filled(256),
    ));
}
