//! Refusals: a number and a place.

/// Why an input is refused; the value is the refusal's number.
#[derive(Clone, Copy, Debug, PartialEq, Eq)]
pub enum Reason {
    ShortHeader = 1,
    Identification = 2,
    Version = 3,
    Datalink = 4,
    ShortRecord = 5,
    IncludedAboveOriginal = 6,
    ShortPacket = 7,
    RfChannel = 8,
    RadiotapLength = 9,
    WordPastLength = 10,
    NinthWord = 11,
    FieldPastLength = 12,
    NoRoom = 13,
    Time = 14,
    Edition = 15,
    TallySum = 16,
    RecordPlace = 17,
    UnknownBit = 18,
    ValuesLength = 19,
    ListingInput = 20,
    ReservedPduType = 21,
    ReservedPhy = 22,
    TallyBroken = 23,
    LongStream = 32,
}

/// A refusal as it is handed out.
#[derive(Clone, Copy, Debug, PartialEq, Eq)]
pub struct Refusal {
    pub reason: Reason,
    pub place: usize,
}

impl Reason {
    /// The refusal for this reason at a place.
    pub fn at(self, place: usize) -> Refusal {
        Refusal {
            reason: self,
            place,
        }
    }
}

impl Refusal {
    /// The refusal's number.
    pub fn number(&self) -> u64 {
        self.reason as u64
    }
}
