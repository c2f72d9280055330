//! How tshark names the fields and writes their values.

/// How a value is written.
#[derive(Clone, Copy)]
pub enum Form {
    Unsigned,
    Signed,
    /// In steps of a half.
    Halves,
    /// Only the octets are compared.
    Octets,
    /// The whole of several parts; place and size alone are compared.
    Whole,
}

use Form::*;

/// The parts that tshark shows of a bit's field: name, place in the field, size, form.
pub fn parts(bit: u64) -> &'static [(&'static str, usize, usize, Form)] {
    match bit {
        0 => &[("mactime", 0, 8, Unsigned)],
        1 => &[("flags", 0, 1, Unsigned)],
        2 => &[("datarate", 0, 1, Halves)],
        3 => &[
            ("channel.freq", 0, 2, Unsigned),
            ("channel.flags", 2, 2, Unsigned),
        ],
        4 => &[
            ("fhss.hopset", 0, 1, Unsigned),
            ("fhss.pattern", 1, 1, Unsigned),
        ],
        5 => &[("dbm_antsignal", 0, 1, Signed)],
        6 => &[("dbm_antnoise", 0, 1, Signed)],
        7 => &[("quality", 0, 2, Unsigned)],
        8 => &[("txattenuation", 0, 2, Unsigned)],
        9 => &[("db_txattenuation", 0, 2, Unsigned)],
        10 => &[("txpower", 0, 1, Signed)],
        11 => &[("antenna", 0, 1, Unsigned)],
        12 => &[("db_antsignal", 0, 1, Unsigned)],
        13 => &[("db_antnoise", 0, 1, Unsigned)],
        14 => &[("rxflags", 0, 2, Unsigned)],
        15 => &[("txflags", 0, 2, Unsigned)],
        // tshark has no name for RTS retries but shows their octet.
        16 => &[("tlv.unknown_data", 0, 1, Octets)],
        17 => &[("data_retries", 0, 1, Unsigned)],
        19 => &[("mcs", 0, 3, Whole), ("mcs.known", 0, 1, Unsigned)],
        20 => &[
            ("ampdu", 0, 8, Whole),
            ("ampdu.reference", 0, 4, Unsigned),
            ("ampdu.flags", 4, 2, Unsigned),
        ],
        // tshark writes the low octet of the known bits but shows both octets.
        21 => &[("vht", 0, 12, Whole), ("vht.known", 0, 2, Octets)],
        _ => &[],
    }
}

/// Whether a name is one of those.
pub fn named(name: &str) -> bool {
    (0..22).any(|bit| parts(bit).iter().any(|part| part.0 == name))
}
