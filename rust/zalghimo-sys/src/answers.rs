//! The structs that the functions answer.

/// Declares a struct of kind, number, place and these fields, and then what is kept for the next call.
macro_rules! answer {
    ($(#[$about:meta])* $name:ident $(, $field:ident: $number:ty)* $(,)? $(; $state:ident: $kept:ty)?) => {
        $(#[$about])*
        #[repr(C)]
        #[derive(Clone, Copy, Debug, Default, PartialEq, Eq)]
        pub struct $name {
            pub kind: u64,
            pub number: u64,
            pub place: u64,
            $(pub $field: $number,)*
            $(pub $state: $kept,)?
        }

        impl $name {
            /// How many numbers it has.
            pub const NUMBERS: usize = 3 + <[&str]>::len(&[$(stringify!($field)),*]);

            /// Kind, number and place.
            #[inline]
            pub fn head(&self) -> Done {
                Done {
                    kind: self.kind,
                    number: self.number,
                    place: self.place,
                }
            }

            /// The numbers in the struct's order, signed ones as two's complement.
            #[inline]
            pub fn row(&self) -> [u64; Self::NUMBERS] {
                [self.kind, self.number, self.place, $(self.$field as u64),*]
            }
        }
    };
}

answer!(
    /// `zalghimo_header`
    Header,
    datalink: u64,
);

answer!(
    /// `zalghimo_file`
    File,
    datalink: u64,
    records: u64,
);

answer!(
    /// `zalghimo_record`
    Record,
    original: u64,
    included: u64,
    flags: u64,
    drops: u64,
    time: i64,
    packet: u64,
    next: u64,
);

answer!(
    /// `zalghimo_survey`
    Survey,
    count: u64,
    reached: u64,
);

answer!(
    /// `zalghimo_earlier`
    Earlier,
    capture: u64,
    packet: u64,
    length: u64,
);

/// `zalghimo_stream`, which is kept between calls: of it only `octets` is for reading.
#[repr(C)]
#[derive(Clone, Copy, Debug, Default, PartialEq, Eq)]
pub struct Stream {
    pub phase: u64,
    pub number: u64,
    pub place: u64,
    pub octets: u64,
    pub count: u64,
    pub done: u64,
    pub held: [u8; 24],
}

answer!(
    /// `zalghimo_taken`
    Taken,
    taken: u64,
    part: u64,
    size: u64,
    position: u64,
    datalink: u64,
    start: u64,
    original: u64,
    included: u64,
    flags: u64,
    drops: u64,
    time: i64;
    state: Stream
);

answer!(
    /// `zalghimo_time`
    Time,
    seconds: i64,
    microseconds: u64,
);

answer!(
    /// `zalghimo_time_field`
    TimeField,
    field: i64,
);

answer!(
    /// `zalghimo_done`
    Done
);

answer!(
    /// `zalghimo_written`
    Written,
    next: u64,
);

answer!(
    /// `zalghimo_le`
    Le,
    rf_channel: u64,
    signal: i64,
    noise: i64,
    offences: u64,
    reference: u64,
    flags: u64,
    known: u64,
    pdu_type: u64,
    phy: u64,
    dependent: u64,
    packet: u64,
);

answer!(
    /// `zalghimo_radiotap`
    Radiotap,
    fields: u64,
    frame: u64,
    word: u64,
    bit: u64,
    pad: u64,
    words: u64,
);

answer!(
    /// `zalghimo_word`
    Word,
    value: u64,
);

answer!(
    /// `zalghimo_field`
    Field,
    word: u64,
    bit: u64,
    start: u64,
    size: u64,
);
