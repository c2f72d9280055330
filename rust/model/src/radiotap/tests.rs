//! The paper's examples, the table, and the order of refusals.

use super::*;

/// An input of these words and this length, all other octets 0.
fn input(words: &[u32], length: u16) -> Vec<u8> {
    let mut octets = vec![0; usize::from(length)];
    octets[2..4].copy_from_slice(&length.to_le_bytes());
    for (place, word) in (4..).step_by(4).zip(words) {
        octets[place..place + 4].copy_from_slice(&word.to_le_bytes());
    }
    octets
}

/// The starts that an edition shows, and how it ends.
fn starts(octets: &[u8], edition: u32) -> Result<(Vec<usize>, Ending), Refusal> {
    let reading = read(octets, edition)?;
    let starts = reading.fields.iter().map(|field| field.start);
    Ok((starts.collect(), reading.ending))
}

fn stop(word: usize, bit: u32) -> Ending {
    Ending::Stop { word, bit }
}

#[test]
fn p8_one_word() {
    let octets = input(&[0x0000_002F], 23);
    for edition in 0..=3 {
        let wanted = (vec![8, 16, 17, 18, 22], Ending::End);
        assert_eq!(starts(&octets, edition), Ok(wanted));
    }
}

#[test]
fn p9_two_words() {
    let octets = input(&[0xA000_0001, 0x0000_0020], 25);
    let reading = read(&octets, 1).unwrap();
    let places = reading.fields.iter().map(|f| (f.word, f.bit, f.start));
    assert_eq!(places.collect::<Vec<_>>(), [(0, 0, 16), (1, 5, 24)]);
    assert_eq!(reading.ending, Ending::End);
    assert_eq!(reading.header.words, [0xA000_0001, 0x0000_0020]);
}

#[test]
fn p10_stop_in_edition_1() {
    let octets = input(&[0x0000_4002], 12);
    assert_eq!(starts(&octets, 1), Ok((vec![8], stop(0, 14))));
    assert_eq!(starts(&octets, 0), Ok((vec![8], stop(0, 14))));
    assert_eq!(starts(&octets, 2), Ok((vec![8, 10], Ending::End)));
}

#[test]
fn p11_refused_in_edition_2() {
    let octets = input(&[0x0000_4002], 11);
    assert_eq!(starts(&octets, 2), Err(Reason::FieldPastLength.at(10)));
    assert_eq!(starts(&octets, 1), Ok((vec![8], stop(0, 14))));
}

#[test]
fn table() {
    let known: Vec<u32> = (0..32).filter(|bit| row(*bit).is_some()).collect();
    let bits: Vec<u32> = (0..=17).chain(19..=21).collect();
    assert_eq!(known, bits);
    let sizes = |edition| -> usize {
        let rows = (0..32).filter_map(|bit| super::known(bit, edition));
        rows.map(|row| row.size).sum()
    };
    assert_eq!([1, 2, 3].map(sizes), [28, 34, 57]);
    let alignments = [
        8, 1, 1, 2, 2, 1, 1, 2, 2, 2, 1, 1, 1, 1, 2, 2, 1, 1, 1, 4, 2,
    ];
    let widths = [
        8, 1, 1, 4, 2, 1, 1, 2, 2, 2, 1, 1, 1, 1, 2, 2, 1, 1, 3, 8, 12,
    ];
    let editions = [
        1, 1, 1, 1, 1, 1, 1, 1, 1, 1, 1, 1, 1, 1, 2, 2, 2, 2, 3, 3, 3,
    ];
    let rows: Vec<Row> = known.into_iter().filter_map(row).collect();
    for (index, row) in rows.iter().enumerate() {
        let wanted = (alignments[index], widths[index], editions[index]);
        assert_eq!((row.alignment, row.size, row.edition), wanted);
    }
}

#[test]
fn every_row_after_one_octet() {
    for bit in 0..32 {
        let Some(row) = row(bit) else { continue };
        let octets = input(&[5 << 29 | 1 << 1, 1 << bit], 40);
        let start = 13_usize.next_multiple_of(row.alignment);
        let wanted = (vec![12, start], Ending::End);
        assert_eq!(starts(&octets, row.edition), Ok(wanted));
        let short = input(&[5 << 29 | 1 << 1, 1 << bit], (start + row.size - 1) as u16);
        let refusal = Reason::FieldPastLength.at(start);
        assert_eq!(starts(&short, NEWEST), Err(refusal));
        if row.edition > 1 {
            let wanted = (vec![12], stop(1, bit));
            assert_eq!(starts(&short, row.edition - 1), Ok(wanted));
        }
    }
}

#[test]
fn unknown_bits_stop() {
    for bit in (22..29).chain([18, 30]) {
        let octets = input(&[1 << bit], 8);
        assert_eq!(starts(&octets, 3), Ok((vec![], stop(0, bit))));
    }
    assert_eq!(starts(&input(&[1 << 29], 8), 1), Ok((vec![], Ending::End)));
    let two = input(&[1 << 31, 1 << 30], 12);
    assert_eq!(starts(&two, 1), Ok((vec![], stop(1, 30))));
}

#[test]
fn continued_words_stop_by_word_and_bit() {
    for edition in 0..=3 {
        for bit in (0..29).chain([30]) {
            let octets = input(&[1 << 31 | 1 << 1, 1 << bit], 40);
            assert_eq!(starts(&octets, edition), Ok((vec![12], stop(1, bit))));
        }
        for empty in [0, 1 << 29] {
            let octets = input(&[1 << 31 | 1 << 1, empty], 40);
            assert_eq!(starts(&octets, edition), Ok((vec![12], Ending::End)));
        }
    }
}

#[test]
fn bit_29_alone_lets_the_next_word_start_again() {
    for edition in 0..=3 {
        let again = input(&[1 << 31 | 1 << 1, 5 << 29, 1 << 2], 40);
        assert_eq!(starts(&again, edition), Ok((vec![16, 17], Ending::End)));
        let on = input(&[5 << 29 | 1 << 1, 1 << 31, 1 << 2], 40);
        assert_eq!(starts(&on, edition), Ok((vec![16], stop(2, 2))));
        let both = input(&[7 << 29 | 1 << 1, 1 << 2], 40);
        assert_eq!(starts(&both, edition), Ok((vec![12], stop(0, 30))));
    }
}

#[test]
fn refusals_in_order() {
    let mut octets = input(&[0xFFFF_FFFF], 9);
    assert_eq!(read(&octets, 1), Err(Reason::WordPastLength.at(4)));
    octets[2] = 7;
    assert_eq!(read(&octets, 1), Err(Reason::RadiotapLength.at(2)));
    octets[2] = 10;
    assert_eq!(read(&octets, 1), Err(Reason::RadiotapLength.at(2)));
    octets[0] = 1;
    assert_eq!(read(&octets, 1), Err(Reason::Version.at(0)));
    assert_eq!(read(&octets[..7], 1), Err(Reason::ShortHeader.at(7)));
    assert_eq!(read(&octets[..7], 4), Err(Reason::Edition.at(0)));
    assert_eq!(read(&[], u32::MAX), Err(Reason::Edition.at(0)));
    assert_eq!(word(&[], 0), Err(Reason::ShortHeader.at(0)));
}

#[test]
fn at_most_eight_words() {
    let words = [1 << 31; 9];
    for count in 1..=8 {
        let last = [&words[..count - 1], &[0]].concat();
        let octets = input(&last, 4 + 4 * count as u16);
        assert_eq!(read_header(&octets).unwrap().words, last);
        assert_eq!(word(&octets, count - 1), Ok(Some(0)));
        assert_eq!(word(&octets, count), Ok(None));
    }
    assert_eq!(
        read(&input(&words[..8], 36), 1),
        Err(Reason::NinthWord.at(4))
    );
    assert_eq!(read(&input(&words, 40), 1), Err(Reason::NinthWord.at(4)));
    let short = input(&words[..7], 35);
    assert_eq!(read(&short, 1), Err(Reason::WordPastLength.at(4)));
}

#[test]
fn field_numbers() {
    let octets = input(&[0x0000_4002], 12);
    let Ok(Numbered::Field(first)) = field(&octets, 1, 0) else {
        panic!("shown");
    };
    assert_eq!((first.word, first.bit, first.start), (0, 1, 8));
    let past = |edition, number| field(&octets, edition, number);
    assert_eq!(past(1, 1), Ok(Numbered::Past(stop(0, 14))));
    assert_eq!(past(1, usize::MAX), Ok(Numbered::Past(stop(0, 14))));
    assert_eq!(past(2, 2), Ok(Numbered::Past(Ending::End)));
    let short = input(&[0x0000_4002], 11);
    assert_eq!(field(&short, 2, 0), Err(Reason::FieldPastLength.at(10)));
}

#[test]
fn signed_dbm() {
    let mut octets = input(&[1 << 5 | 1 << 6 | 1 << 10 | 1 << 11 | 1 << 18], 12);
    octets[8..].copy_from_slice(&[0x80, 0xFF, 0x7F, 0x80]);
    for (number, value) in [-128, -1, 127].into_iter().enumerate() {
        assert_eq!(dbm(&octets, 1, number), Ok(Dbm::Value(value)));
    }
    assert_eq!(dbm(&octets, 1, 3), Ok(Dbm::OtherField));
    assert_eq!(dbm(&octets, 1, 4), Ok(Dbm::Past(stop(0, 18))));
    assert_eq!(dbm(&input(&[0], 8), 1, 0), Ok(Dbm::Past(Ending::End)));
    assert_eq!(dbm(&octets[..11], 1, 0), Err(Reason::RadiotapLength.at(2)));
}

#[test]
fn no_other_bit_is_dbm() {
    for bit in (0..22).filter(|bit| ![5, 6, 10].contains(bit)) {
        let answer = dbm(&input(&[1 << bit], 20), 3, 0);
        let wanted = match row(bit) {
            Some(_) => Dbm::OtherField,
            None => Dbm::Past(stop(0, bit)),
        };
        assert_eq!(answer, Ok(wanted), "{bit}");
    }
}

#[test]
fn frame_behind_the_length() {
    let mut octets = input(&[0x0000_0002], 12);
    octets.extend([0xC0, 0xFF]);
    octets[1] = 0x5A;
    let reading = read(&octets, 0).unwrap();
    assert_eq!(reading.header.frame, [0xC0, 0xFF]);
    assert_eq!(reading.header.octets.len(), 12);
    assert_eq!(reading.header.pad, 0x5A);
}

#[test]
fn written_header_is_read_back() {
    let values: Vec<u8> = (1..=15).collect();
    let mut output = [0xAA; 30];
    let next = write(&mut output, 3, 2, 0x0000_800B, &values);
    assert_eq!(next, Ok(27));
    let wanted = [
        0, 0, 24, 0, 0x0B, 0x80, 0, 0, 1, 2, 3, 4, 5, 6, 7, 8, 9, 0, 10, 11, 12, 13, 14, 15,
    ];
    assert_eq!(output[3..27], wanted);
    assert_eq!([&output[..3], &output[27..]].concat(), [0xAA; 6]);
    for edition in 2..=3 {
        let reading = read(&output[3..], edition).unwrap();
        let parts: Vec<&[u8]> = reading.fields.iter().map(|f| f.octets).collect();
        assert_eq!(parts.concat(), values);
        assert_eq!(reading.header.frame, [0xAA; 3]);
    }
}

#[test]
fn writer_refuses() {
    let mut output = [7; 9];
    let edition = Err(Reason::Edition.at(0));
    assert_eq!(write(&mut output, 0, 4, 1 << 30, &[]), edition);
    for bit in [14, 18, 22, 29, 30, 31] {
        let unknown = write(&mut output, 0, 1, 1 << bit, &[0]);
        assert_eq!(unknown, Err(Reason::UnknownBit.at(0)));
        assert_eq!(write(&mut output, 0, 0, 1 << bit, &[0]), unknown);
    }
    for values in [&[][..], &[1, 2]] {
        let length = write(&mut output, 99, 1, 2, values);
        assert_eq!(length, Err(Reason::ValuesLength.at(0)));
    }
    for place in [1, 9, 10, usize::MAX] {
        let no_room = write(&mut output, place, 1, 2, &[1]);
        assert_eq!(no_room, Err(Reason::NoRoom.at(0)));
    }
    assert_eq!(output, [7; 9]);
    assert_eq!(write(&mut output, 1, 1, 0, &[]), Ok(9));
    assert_eq!(output, [7, 0, 0, 8, 0, 0, 0, 0, 0]);
}
