//! The refusals by name, with the numbers of docs/RULES.md, "Numbers a caller may see".

/// Why a call is refused.
#[derive(Clone, Copy, PartialEq, Eq, PartialOrd, Ord, Hash, Debug)]
#[repr(u8)]
pub enum Refusal {
    BufferTooShort = 1,
    VersionUnsupported = 2,
    OwnClockZero = 3,
    ClientStopped = 4,
    AlreadyWaiting = 5,
    AskedTooSoon = 6,
    PacketLengthWrong = 7,
    NotWaiting = 8,
    OriginateMismatch = 9,
    ReplyModeWrong = 10,
    VersionMismatch = 11,
    ServerUnsynchronised = 12,
    StratumTooHigh = 13,
    ServerTimestampZero = 14,
    ArrivedBeforeSent = 15,
    ArrivedTooLate = 16,
    AnsweredBeforeReceived = 17,
    DelayNegative = 18,
    FirstBelowSecond = 19,
    GaveUpTooSoon = 20,
    RequestModeWrong = 21,
    RequestVersionUnsupported = 22,
    SettingsOutOfRange = 23,
    TimestampZero = 24,
    NoSuchDate = 25,
    OutsideWindow = 26,
    FieldTooLarge = 27,
    TickOutOfRange = 28,
    RecordNotLegal = 29,
    EntryTooLarge = 30,
    DebtTooLarge = 31,
    LimitOutOfRange = 32,
    RootDelayOutOfRange = 33,
    RootDispersionTooLarge = 34,
    NotInList = 35,
    BroadcastModeWrong = 36,
    BroadcastVersionUnsupported = 37,
    BroadcastUnsynchronised = 38,
    BroadcastStratumWrong = 39,
    BroadcastTransmitZero = 40,
    PollOutOfRange = 41,
    TokenZero = 42,
    NoOrder = 43,
    FieldNotAdded = 44,
    TimeLengthWrong = 45,
    ImageNotLegal = 46,
    LineMalformed = 64,
}

use Refusal::*;

/// All refusals, in the order of their numbers.
const ALL: [Refusal; 47] = [
    BufferTooShort,
    VersionUnsupported,
    OwnClockZero,
    ClientStopped,
    AlreadyWaiting,
    AskedTooSoon,
    PacketLengthWrong,
    NotWaiting,
    OriginateMismatch,
    ReplyModeWrong,
    VersionMismatch,
    ServerUnsynchronised,
    StratumTooHigh,
    ServerTimestampZero,
    ArrivedBeforeSent,
    ArrivedTooLate,
    AnsweredBeforeReceived,
    DelayNegative,
    FirstBelowSecond,
    GaveUpTooSoon,
    RequestModeWrong,
    RequestVersionUnsupported,
    SettingsOutOfRange,
    TimestampZero,
    NoSuchDate,
    OutsideWindow,
    FieldTooLarge,
    TickOutOfRange,
    RecordNotLegal,
    EntryTooLarge,
    DebtTooLarge,
    LimitOutOfRange,
    RootDelayOutOfRange,
    RootDispersionTooLarge,
    NotInList,
    BroadcastModeWrong,
    BroadcastVersionUnsupported,
    BroadcastUnsynchronised,
    BroadcastStratumWrong,
    BroadcastTransmitZero,
    PollOutOfRange,
    TokenZero,
    NoOrder,
    FieldNotAdded,
    TimeLengthWrong,
    ImageNotLegal,
    LineMalformed,
];

impl Refusal {
    pub const fn number(self) -> u8 {
        self as u8
    }

    pub fn of_number(number: u8) -> Option<Refusal> {
        ALL.into_iter().find(|refusal| refusal.number() == number)
    }

    /// Refuses exactly when the condition holds.
    pub const fn when(self, condition: bool) -> Result<(), Refusal> {
        if condition { Err(self) } else { Ok(()) }
    }
}

/// The number a call returns: its refusal's, or 0.
pub fn number_of<T>(result: &Result<T, Refusal>) -> u8 {
    result.as_ref().err().map_or(0, |refusal| refusal.number())
}

#[cfg(test)]
mod tests {
    use super::*;

    /// A name as the rules print it.
    fn printed(refusal: Refusal) -> String {
        let mut name = String::new();
        for letter in format!("{refusal:?}").chars() {
            if letter.is_uppercase() && !name.is_empty() {
                name.push('_');
            }
            name.push(letter.to_ascii_uppercase());
        }
        name
    }

    #[test]
    fn names_and_numbers_are_those_of_the_rules() {
        let rules = include_str!("../../docs/RULES.md");
        let rows: Vec<&str> =
            rules.lines().filter(|line| line.starts_with("| ") && line.contains("| `")).collect();
        // A request that the rules have not taken in yet has no row; its number is above the others.
        let known = rows.len() - 1;
        let listed = ALL.into_iter().take(known).chain([LineMalformed]);
        for (row, refusal) in rows.iter().zip(listed) {
            let wanted = format!("| {} | `{}` |", refusal.number(), printed(refusal));
            assert!(row.starts_with(&wanted), "{row}");
        }
    }

    #[test]
    fn numbers_there_and_back() {
        for number in 0..=255 {
            let known = (1..=46).contains(&number) || number == 64;
            let back = Refusal::of_number(number).map(Refusal::number);
            assert_eq!(back, known.then_some(number));
        }
    }
}
