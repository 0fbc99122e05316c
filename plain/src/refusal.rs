//! The refusals and their numbers.

#[derive(Clone, Copy, Debug, PartialEq, Eq)]
#[repr(u8)]
pub enum Refusal {
    BufferTooShort = 1,
    AskedVersion = 2,
    ClockZero = 3,
    Stopped = 4,
    AlreadyWaiting = 5,
    TooEarly = 6,
    PacketLength = 7,
    NotWaiting = 8,
    OriginateDiffers = 9,
    ModeNotServer = 10,
    VersionDiffers = 11,
    ServerUnsynchronised = 12,
    StratumTooHigh = 13,
    ReceiveOrTransmitZero = 14,
    RoundTripNegative = 15,
    RoundTripTooLong = 16,
    HoldNegative = 17,
    DelayNegative = 18,
    OffsetOutOfRange = 19,
    ModeNotClient = 21,
    RequestVersion = 22,
    Settings = 23,
    FieldTooLarge = 27,
    IllegalRecord = 29,
    RootDelay = 33,
    RootDispersion = 34,
    TokenZero = 42,
    NoOrder = 43,
}

impl Refusal {
    #[inline(always)]
    pub fn number(self) -> u8 {
        self as u8
    }
}
