//! The table in the documentation of `radiotap` is the one by which the library reads and writes.

mod made;

use made::table;
use zalghimo::radiotap::{self, Ending, Header};

/// A header whose field of this bit is the first after 17 octets, where each alignment gives another start.
fn after_17(bit: u32) -> Vec<u8> {
    made::radiotap(&[0xA000_0002, 0xA000_0000, 1 << bit], 64)
}

#[test]
fn fields_lie_as_the_table_says() {
    assert_eq!(table().len(), 21);
    for row in table() {
        let bit = row.bit;
        assert_eq!(radiotap::name(bit), Some(row.name));
        let octets = after_17(bit);
        for edition in 1..=3 {
            let header = Header::read(&octets, edition).expect("accepted");
            if edition < row.first_edition {
                assert_eq!(header.ending(), Ending::Stop { word: 2, bit });
                continue;
            }
            let field = header.fields().last().expect("a field");
            assert_eq!((field.word(), field.bit()), (2, bit));
            assert_eq!(field.start(), 17_usize.next_multiple_of(row.alignment));
            assert_eq!(field.octets().len(), row.size);
            assert_eq!(field.dbm().is_some(), [5, 6, 10].contains(&bit));
            assert_eq!(header.ending(), Ending::End);
        }
    }
}

#[test]
fn bits_without_a_row_stop_the_reading_or_carry_no_field() {
    let known: Vec<u32> = table().iter().map(|row| row.bit).collect();
    for bit in (0..31).filter(|bit| !known.contains(bit)) {
        let octets = after_17(bit);
        let header = Header::read(&octets, 3).expect("accepted");
        let ending = match bit {
            29 => Ending::End,
            _ => Ending::Stop { word: 2, bit },
        };
        assert_eq!((header.ending(), header.fields().len()), (ending, 1));
    }
}

#[test]
fn bits_of_a_continued_word_stop_the_reading_or_carry_no_field() {
    for bit in 0..31 {
        let octets = made::radiotap(&[0x8000_0002, 1 << bit], 64);
        let ending = match bit {
            29 => Ending::End,
            _ => Ending::Stop { word: 1, bit },
        };
        for edition in 0..=3 {
            let header = Header::read(&octets, edition).expect("accepted");
            assert_eq!((header.ending(), header.fields().len()), (ending, 1));
        }
    }
}

#[test]
fn all_fields_take_68_octets() {
    let presence = table().iter().map(|row| 1 << row.bit).sum();
    let values = vec![0; table().iter().map(|row| row.size).sum()];
    let mut output = [0; 68];
    let write = radiotap::write;
    assert_eq!(write(&mut output, 0, 3, presence, &values), Ok(68));
    assert!(write(&mut output[1..], 0, 3, presence, &values).is_err());
}
