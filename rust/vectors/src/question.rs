//! A stored question and its octets.

/// The most octets in either part of a question.
const PART: usize = 512;

/// An op, five numbers and two parts of octets.
pub struct Question {
    pub op: u8,
    pub numbers: [u64; 5],
    pub first: Vec<u8>,
    pub second: Vec<u8>,
}

impl Question {
    /// A question; numbers that are not given are 0.
    pub fn new(op: u8, numbers: &[u64], first: &[u8], second: &[u8]) -> Self {
        assert!(first.len() <= PART && second.len() <= PART);
        let mut all = [0; 5];
        all[..numbers.len()].copy_from_slice(numbers);
        Question {
            op,
            numbers: all,
            first: first.to_vec(),
            second: second.to_vec(),
        }
    }

    /// The question as it is stored.
    pub fn octets(&self) -> Vec<u8> {
        let mut octets = vec![self.op];
        for number in self.numbers {
            octets.extend(number.to_be_bytes());
        }
        octets.extend((self.first.len() as u32).to_be_bytes());
        octets.extend((self.second.len() as u32).to_be_bytes());
        octets.extend(&self.first);
        octets.extend(&self.second);
        octets
    }
}

/// Distinct octets that an output starts with.
pub fn filled(length: usize) -> Vec<u8> {
    (0..length).map(|index| 0xA0 ^ index as u8).collect()
}

/// Numbers in decimal with a space between them.
pub fn decimal(numbers: &[u64]) -> String {
    let texts: Vec<String> = numbers.iter().map(u64::to_string).collect();
    texts.join(" ")
}

/// Octets in hexadecimal, `-` where there are none.
pub fn hex(octets: &[u8]) -> String {
    if octets.is_empty() {
        return "-".to_string();
    }
    octets.iter().map(|octet| format!("{octet:02x}")).collect()
}
