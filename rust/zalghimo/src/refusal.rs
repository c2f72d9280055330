//! Refusals: why an input or a request is refused, and at which place.

use std::error::Error;
use std::fmt;

/// A refusal: its reason and its place, an offset in octets in the input or in the stream. A writer's refusal has
/// place 0.
#[derive(Clone, Copy, Debug, PartialEq, Eq, Hash)]
pub struct Refusal {
    reason: Reason,
    place: usize,
}

impl Refusal {
    /// The refusal that the library gives.
    pub(crate) fn new(number: u64, place: usize) -> Refusal {
        let mut reasons = Reason::ALL.iter().copied();
        let reason = reasons.find(|reason| u64::from(reason.number()) == number);
        Refusal {
            reason: reason.expect("the library refuses with the numbers of Reason"),
            place,
        }
    }

    /// Why.
    pub fn reason(&self) -> Reason {
        self.reason
    }

    /// The reason's number.
    pub fn number(&self) -> u32 {
        self.reason.number()
    }

    /// The place.
    pub fn place(&self) -> usize {
        self.place
    }
}

/// The reason in words, then number and place.
impl fmt::Display for Refusal {
    fn fmt(&self, formatter: &mut fmt::Formatter<'_>) -> fmt::Result {
        let (number, place) = (self.number(), self.place);
        write!(
            formatter,
            "{} (refusal {number}, place {place})",
            self.reason
        )
    }
}

impl Error for Refusal {}

/// Declares the reasons in the order of their numbers, each with its words.
macro_rules! reasons {
    ($($(#[$comment:meta])* $name:ident = $number:literal, $words:literal;)*) => {
        /// Why something is refused; the value is the refusal's number.
        #[derive(Clone, Copy, Debug, PartialEq, Eq, Hash)]
        #[non_exhaustive]
        pub enum Reason {
            $($(#[$comment])* $name = $number,)*
        }

        impl Reason {
            /// All reasons, in the order of their numbers.
            pub const ALL: &'static [Reason] = &[$(Reason::$name),*];

            /// The number.
            pub fn number(self) -> u32 {
                self as u32
            }

            /// The reason in plain words.
            pub fn words(self) -> &'static str {
                match self {
                    $(Reason::$name => $words,)*
                }
            }
        }
    };
}

reasons! {
    /// Input shorter than the fixed header (BTSnoop 16, LE 10, radiotap 8 octets); place: the input's length.
    ShortHeader = 1, "the input is shorter than the fixed header";
    /// Identification octets differ; place 0.
    Identification = 2, "the identification octets differ";
    /// BTSnoop version not 1, at place 8, or radiotap version not 0, at place 0.
    Version = 3, "the version is not served";
    /// Datalink code not 1001 to 1004; place 12.
    Datalink = 4, "the datalink code is not 1001 to 1004";
    /// 1 to 23 octets remain where a record starts; place: there.
    ShortRecord = 5, "1 to 23 octets remain where a record starts";
    /// Included length above original length; place: the record's start + 4.
    IncludedAboveOriginal = 6, "the included length is above the original length";
    /// Packet octets run past the input, at the record's start, or LE packet too short, at place 10.
    ShortPacket = 7, "the packet runs past the input, or an LE packet is too short";
    /// LE: RF channel above 39; place 0.
    RfChannel = 8, "the RF channel is above 39";
    /// Radiotap length below 8 or above the input; place 2.
    RadiotapLength = 9, "the radiotap length is below 8 or above the input";
    /// A presence word runs past the radiotap length; place 4.
    WordPastLength = 10, "a presence word runs past the radiotap length";
    /// A ninth presence word is called for; place 4.
    NinthWord = 11, "a ninth presence word is called for";
    /// A known field runs past the radiotap length; place: the field's start, after alignment.
    FieldPastLength = 12, "a known field runs past the radiotap length";
    /// The output has no room from the given place; place 0.
    NoRoom = 13, "the output has no room from the given place";
    /// A time cannot be expressed; place 0.
    Time = 14, "the time cannot be expressed";
    /// Edition above 3; place 0.
    Edition = 15, "the edition is above 3";
    /// A tally sum would pass 2^64 − 1; place 0.
    TallySum = 16, "a tally sum would pass 2^64 - 1";
    /// A record place below 16 or above the input's length; place: the one given.
    RecordPlace = 17, "the record place is below 16 or above the input's length";
    /// Writer: a presence bit that the edition doesn't know, 29 to 31 included; place 0.
    UnknownBit = 18, "a presence bit is not known to the edition";
    /// Writer: packed values not of the summed length; place 0.
    ValuesLength = 19, "the packed values are not of the summed length";
    /// Listing program only: input above 65,536 octets; place 65536.
    ListingInput = 20, "the input is above 65,536 octets";
    /// LE: PDU type 7; place 8, where the flags start.
    ReservedPduType = 21, "the PDU type is 7, which is reserved";
    /// LE: PHY 3; place 8, where the flags start.
    ReservedPhy = 22, "the PHY is 3, which is reserved";
    /// A tally whose sent and received, or whose commands and data, do not add up to its records; place 0.
    TallyBroken = 23, "sent and received, or commands and data, do not add up to the tally's records";
    /// A chunk takes the stream past 2^63 − 1 octets; place 0.
    LongStream = 32, "a chunk takes the stream past 2^63 - 1 octets";
}

/// The reason in plain words.
impl fmt::Display for Reason {
    fn fmt(&self, formatter: &mut fmt::Formatter<'_>) -> fmt::Result {
        formatter.write_str(self.words())
    }
}
