//! Questions about the LE pseudo-header, and the model's answers.

use crate::question::{decimal, filled, hex, Question};
use model::le::{self, Values};
use model::rows::{le as rows, written};

const READ: u8 = 16;
const WRITE: u8 = 17;

/// Values that are valid and all different.
const SAMPLE: Values = Values {
    rf_channel: 17,
    signal: -70,
    noise: -101,
    offences: 3,
    reference: 0x8E89_BED6,
    flags: 0x0C37,
};

/// The octets that packets are taken from.
const PACKET: [u8; 6] = [0xD6, 0xBE, 0x89, 0x8E, 0x02, 0x41];

/// The model's answer, without the op.
pub fn answer(question: &Question) -> String {
    match question.op {
        READ => answer_read(&question.first),
        WRITE => answer_write(question),
        op => panic!("no such op: {op}"),
    }
}

fn answer_read(input: &[u8]) -> String {
    let answer = le::read(input);
    let packet = match &answer {
        Ok(reading) => reading.packet,
        Err(_) => &[],
    };
    format!("{} {}", decimal(&rows::reading(&answer)), hex(packet))
}

fn answer_write(question: &Question) -> String {
    let [place, first, reference, flags, _] = question.numbers;
    let [rf_channel, signal, noise, offences] = (first as u32).to_be_bytes();
    let values = Values {
        rf_channel,
        signal: signal as i8,
        noise: noise as i8,
        offences,
        reference: reference as u32,
        flags: flags as u16,
    };
    let mut output = question.first.clone();
    let answer = le::write(&mut output, place as usize, &values, &question.second);
    format!("{} {}", decimal(&written(answer)), hex(&output))
}

/// A question about reading these values with a packet of a length.
fn read(values: &Values, packet: usize) -> Question {
    let [signal] = values.signal.to_le_bytes();
    let [noise] = values.noise.to_le_bytes();
    let mut input = vec![values.rf_channel, signal, noise, values.offences];
    input.extend(values.reference.to_le_bytes());
    input.extend(values.flags.to_le_bytes());
    input.extend(&PACKET[..packet]);
    Question::new(READ, &[], &input, &[])
}

/// A question about writing these values with a packet of a length.
fn write(length: usize, place: u64, values: &Values, packet: usize) -> Question {
    let [signal] = values.signal.to_le_bytes();
    let [noise] = values.noise.to_le_bytes();
    let first = [values.rf_channel, signal, noise, values.offences];
    let numbers = [
        place,
        u32::from_be_bytes(first).into(),
        values.reference.into(),
        values.flags.into(),
    ];
    Question::new(WRITE, &numbers, &filled(length), &PACKET[..packet])
}

fn with_channel(rf_channel: u8) -> Values {
    Values {
        rf_channel,
        ..SAMPLE
    }
}

fn with_flags(flags: u16) -> Values {
    Values { flags, ..SAMPLE }
}

/// All questions.
pub fn questions() -> Vec<Question> {
    let mut list = Vec::new();
    proved_set(&mut list);
    lengths(&mut list);
    flags(&mut list);
    packets(&mut list);
    values(&mut list);
    orders(&mut list);
    write_values(&mut list);
    write_flags(&mut list);
    write_packets(&mut list);
    write_rooms(&mut list);
    write_orders(&mut list);
    list
}

/// P12 and P13, and what they are made from.
fn proved_set(list: &mut Vec<Question>) {
    let zeros = [0; 14];
    let mut p12 = zeros;
    p12[0] = 40;
    let mut p13 = zeros;
    p13[8..10].copy_from_slice(&0xC000_u16.to_le_bytes());
    for input in [p12, p13, zeros] {
        list.push(Question::new(READ, &[], &input, &[]));
    }
}

/// Input lengths 0 to 16.
fn lengths(list: &mut Vec<Question>) {
    let input = read(&SAMPLE, 6).first;
    for length in 0..=16 {
        list.push(Question::new(READ, &[], &input[..length], &[]));
    }
}

/// Every flag bit alone, all PDU types and PHYs, and what depends on the type.
fn flags(list: &mut Vec<Question>) {
    for bit in 0..16 {
        list.push(read(&with_flags(1 << bit), 5));
    }
    for pdu_type in 0..8 {
        list.push(read(&with_flags(pdu_type << 7 | 0x0401), 4));
    }
    for phy in 0..4 {
        list.push(read(&with_flags(phy << 14 | 0x0801), 5));
    }
    for dependent in 0..4 {
        list.push(read(&with_flags(dependent << 12), 4));
        list.push(read(&with_flags(dependent << 12 | 1 << 7), 4));
    }
    for all in [0, 0x0036, 0x3C7F, 0xBF7F, 0x7C7F, 0xFFFF] {
        list.push(read(&with_flags(all), 5));
    }
}

/// Packets of 3, 4 and 5 octets for every PHY.
fn packets(list: &mut Vec<Question>) {
    for phy in 0..4 {
        for packet in 3..=5 {
            list.push(read(&with_flags(phy << 14), packet));
        }
    }
}

/// Channels, powers, offences and addresses at their ends.
fn values(list: &mut Vec<Question>) {
    for channel in [0, 1, 39, 40, 127, 128, 255] {
        list.push(read(&with_channel(channel), 4));
    }
    for (signal, noise) in [(-128, 127), (127, -128), (-1, 0), (0, -1), (1, -127)] {
        let values = Values {
            signal,
            noise,
            ..SAMPLE
        };
        list.push(read(&values, 4));
    }
    for (offences, reference) in [(0, 0), (255, u32::MAX), (128, 1), (1, 1 << 31)] {
        let values = Values {
            offences,
            reference,
            ..SAMPLE
        };
        list.push(read(&values, 4));
    }
}

/// Values that several refusals fit, in a whole input and in one too short.
fn orders(list: &mut Vec<Question>) {
    let all = Values {
        rf_channel: 40,
        ..with_flags(0xC380)
    };
    list.push(read(&all, 3));
    list.push(read(&with_flags(0xC380), 3));
    list.push(read(&with_flags(0x0380), 0));
    list.push(read(&with_flags(0xC000), 3));
    let short = &read(&all, 0).first[..9];
    list.push(Question::new(READ, &[], short, &[]));
}

/// Channels and powers written at their ends.
fn write_values(list: &mut Vec<Question>) {
    for channel in [0, 39, 40, 128, 255] {
        list.push(write(16, 1, &with_channel(channel), 4));
    }
    for (signal, noise, offences) in [(-128, 127, 255), (127, -128, 0), (-1, 0, 128)] {
        let values = Values {
            signal,
            noise,
            offences,
            reference: u32::MAX,
            ..SAMPLE
        };
        list.push(write(16, 1, &values, 4));
    }
}

/// Every flag bit alone, all PDU types and PHYs, written.
fn write_flags(list: &mut Vec<Question>) {
    for bit in 0..16 {
        list.push(write(16, 1, &with_flags(1 << bit), 5));
    }
    for pdu_type in 0..8 {
        list.push(write(16, 1, &with_flags(pdu_type << 7 | 0x3000), 4));
    }
    for phy in 0..4 {
        list.push(write(16, 1, &with_flags(phy << 14 | 0x0036), 5));
    }
    list.push(write(16, 1, &with_flags(0xBF7F), 5));
}

/// Packets of 0, 3, 4 and 5 octets for every PHY, written.
fn write_packets(list: &mut Vec<Question>) {
    for phy in 0..3 {
        for packet in [0, 3, 4, 5] {
            list.push(write(16, 0, &with_flags(phy << 14), packet));
        }
    }
}

/// Outputs with and without room, and places at and past their end.
fn write_rooms(list: &mut Vec<Question>) {
    for (length, place) in [(14, 0), (13, 0), (15, 1), (14, 1), (17, 2), (0, 0), (10, 0)] {
        list.push(write(length, place, &SAMPLE, 4));
    }
    for place in [16, 17, 1 << 32, u64::MAX - 13, u64::MAX - 9, u64::MAX] {
        list.push(write(16, place, &SAMPLE, 4));
    }
}

/// Questions that several refusals fit.
fn write_orders(list: &mut Vec<Question>) {
    let all = Values {
        rf_channel: 40,
        ..with_flags(0xC380)
    };
    list.push(write(4, 9, &all, 3));
    list.push(write(4, 9, &with_flags(0xC380), 3));
    list.push(write(4, 9, &with_flags(0x0380), 3));
    list.push(write(4, 9, &with_flags(0xC000), 3));
    list.push(write(4, 9, &SAMPLE, 3));
    list.push(write(4, 9, &SAMPLE, 4));
}
