//! Numbers of 16, 32 and 64 bits in octets, in both orders.

use crate::output::room;

/// The order of a number's octets.
#[derive(Clone, Copy, Debug, PartialEq, Eq)]
pub enum Order {
    Big,
    Little,
}

/// How a number stands in octets: their order, and how many they are.
#[derive(Clone, Copy, Debug, PartialEq, Eq)]
pub struct Form {
    pub order: Order,
    pub octets: usize,
}

/// Big-endian of 16, 32 and 64 bits, then little-endian.
pub const FORMS: [Form; 6] = [
    form(Order::Big, 2),
    form(Order::Big, 4),
    form(Order::Big, 8),
    form(Order::Little, 2),
    form(Order::Little, 4),
    form(Order::Little, 8),
];

const fn form(order: Order, octets: usize) -> Form {
    Form { order, octets }
}

/// Writes the last bits of a number, as many as the form has, at a place; without room nothing is written.
pub fn write(output: &mut [u8], place: usize, form: Form, number: u64) {
    let Ok(part) = room(output, place, form.octets) else {
        return;
    };
    match form.order {
        Order::Big => part.copy_from_slice(&number.to_be_bytes()[8 - form.octets..]),
        Order::Little => part.copy_from_slice(&number.to_le_bytes()[..form.octets]),
    }
}

/// The number at a place; octets past the end count as 0.
pub fn read(input: &[u8], place: usize, form: Form) -> u64 {
    let mut octets = vec![0; form.octets];
    let behind = input.get(place..).unwrap_or(&[]);
    for (octet, found) in octets.iter_mut().zip(behind) {
        *octet = *found;
    }
    if form.order == Order::Little {
        octets.reverse();
    }
    let join = |number: u64, octet: u8| number << 8 | u64::from(octet);
    octets.into_iter().fold(0, join)
}

#[cfg(test)]
mod tests {
    use super::*;

    const NUMBER: u64 = 0x0102_0304_0506_0708;

    fn written(length: usize, place: usize, form: Form) -> Vec<u8> {
        let mut output = vec![0xEE; length];
        write(&mut output, place, form, NUMBER);
        output
    }

    #[test]
    fn octets_in_every_form() {
        let [be16, be32, be64, le16, le32, le64] = FORMS;
        assert_eq!(written(4, 1, be16), [0xEE, 7, 8, 0xEE]);
        assert_eq!(written(4, 0, be32), [5, 6, 7, 8]);
        assert_eq!(written(8, 0, be64), [1, 2, 3, 4, 5, 6, 7, 8]);
        assert_eq!(written(4, 1, le16), [0xEE, 8, 7, 0xEE]);
        assert_eq!(written(4, 0, le32), [8, 7, 6, 5]);
        assert_eq!(written(8, 0, le64), [8, 7, 6, 5, 4, 3, 2, 1]);
    }

    #[test]
    fn reading_gives_what_was_written() {
        for form in FORMS {
            let output = written(9, 1, form);
            let last_bits = NUMBER << (64 - 8 * form.octets) >> (64 - 8 * form.octets);
            assert_eq!(read(&output, 1, form), last_bits, "{form:?}");
        }
    }

    #[test]
    fn without_room_nothing_is_written() {
        for form in FORMS {
            for place in [1, form.octets, form.octets + 1, usize::MAX] {
                assert_eq!(written(form.octets, place, form), vec![0xEE; form.octets]);
            }
        }
    }

    #[test]
    fn octets_past_the_end_are_0() {
        let [be16, be32, _, le16, le32, _] = FORMS;
        assert_eq!(read(&[1, 2, 3], 2, be16), 0x0300);
        assert_eq!(read(&[1, 2, 3], 1, be32), 0x0203_0000);
        assert_eq!(read(&[1, 2, 3], 2, le16), 3);
        assert_eq!(read(&[1, 2, 3], 1, le32), 0x0302);
        for form in FORMS {
            assert_eq!(read(&[1, 2, 3], 3, form), 0);
            assert_eq!(read(&[1, 2, 3], usize::MAX, form), 0);
            assert_eq!(read(&[], 0, form), 0);
        }
    }
}
