//! The count over conformance lines.

use super::outcome::Outcome;
use super::{Counter, Pair, Row};
use crate::conformance::answer::NO_ORDER;
use crate::conformance::call::{ALTERNATE_AT, ASKED_AT, Call, Malformed, lengths};
use crate::conformance::firmware_call::{IMAGE_LENGTH_AT, LONGEST_SLICE};
use crate::conformance::list_call::{COUNT_AT, LARGEST_COUNT};
use crate::hex_lines::value;
use crate::image;
use crate::kiss::CODES;
use crate::refusal::Refusal::{self, *};

/// Each number that each call can give, beside 00. Calls for a record of a list have one more, and
/// those of firmware have 46 in place of 29.
const REFUSALS: [(u8, &[Refusal]); 31] = [
    (DIFFERENCE, &[]),
    (0x02, &MEASURE_REFUSALS),
    (0x03, &[PacketLengthWrong]),
    (0x04, &[BufferTooShort, FieldTooLarge]),
    (0x05, &[TimestampZero]),
    (0x06, &[NoSuchDate, OutsideWindow, TimestampZero]),
    (0x07, &[TickOutOfRange]),
    (0x08, &ASK_REFUSALS),
    (ARRIVAL, &ARRIVAL_REFUSALS),
    (0x0A, &GIVE_UP_REFUSALS),
    (REPLY, &REPLY_REFUSALS),
    (0x0C, &[RecordNotLegal, EntryTooLarge, DebtTooLarge]),
    (0x0D, &[RecordNotLegal, LimitOutOfRange]),
    (0x0E, &ASK_REFUSALS),
    (LIST_ARRIVAL, &ARRIVAL_REFUSALS),
    (0x10, &GIVE_UP_REFUSALS),
    (0x11, &BROADCAST_WRITE_REFUSALS),
    (BROADCAST_ARRIVAL, &BROADCAST_ARRIVAL_REFUSALS),
    (0x13, &[PacketLengthWrong]),
    (0x14, &[PacketLengthWrong, FieldNotAdded]),
    (0x15, &[TimestampZero]),
    (0x16, &[NoSuchDate, OutsideWindow, TimestampZero]),
    (0x17, &[TimeLengthWrong]),
    (0x18, &[TimeLengthWrong]),
    (0x19, &[ImageNotLegal]),
    (0x1A, &ASK_REFUSALS),
    (FIRMWARE_ARRIVAL, &ARRIVAL_REFUSALS),
    (0x1C, &GIVE_UP_REFUSALS),
    (0x1D, &REPLY_REFUSALS),
    (0xF0, &[]),
    (0xF1, &[]),
];

const MEASURE_REFUSALS: [Refusal; 6] = [
    NoOrder,
    ArrivedBeforeSent,
    ArrivedTooLate,
    AnsweredBeforeReceived,
    DelayNegative,
    FirstBelowSecond,
];

const ASK_REFUSALS: [Refusal; 8] = [
    RecordNotLegal,
    BufferTooShort,
    VersionUnsupported,
    OwnClockZero,
    TokenZero,
    ClientStopped,
    AlreadyWaiting,
    AskedTooSoon,
];

const ARRIVAL_REFUSALS: [Refusal; 18] = [
    RecordNotLegal,
    PacketLengthWrong,
    NotWaiting,
    OriginateMismatch,
    ReplyModeWrong,
    VersionMismatch,
    OwnClockZero,
    ServerUnsynchronised,
    StratumTooHigh,
    ServerTimestampZero,
    RootDelayOutOfRange,
    RootDispersionTooLarge,
    NoOrder,
    ArrivedBeforeSent,
    ArrivedTooLate,
    AnsweredBeforeReceived,
    DelayNegative,
    FirstBelowSecond,
];

const GIVE_UP_REFUSALS: [Refusal; 3] = [RecordNotLegal, NotWaiting, GaveUpTooSoon];

const REPLY_REFUSALS: [Refusal; 8] = [
    BufferTooShort,
    PacketLengthWrong,
    RequestModeWrong,
    RequestVersionUnsupported,
    SettingsOutOfRange,
    ServerTimestampZero,
    NoOrder,
    AnsweredBeforeReceived,
];

const BROADCAST_WRITE_REFUSALS: [Refusal; 5] = [
    BufferTooShort,
    RequestVersionUnsupported,
    SettingsOutOfRange,
    PollOutOfRange,
    ServerTimestampZero,
];

const BROADCAST_ARRIVAL_REFUSALS: [Refusal; 8] = [
    PacketLengthWrong,
    BroadcastModeWrong,
    BroadcastVersionUnsupported,
    BroadcastUnsynchronised,
    BroadcastStratumWrong,
    BroadcastTransmitZero,
    OwnClockZero,
    NoOrder,
];

/// All malformed lines and their kinds; by themselves also the wrong flag of an alternate, what is
/// wrong in a list's records and in a broadcast line, a list of ten, a buffer of TIME and of firmware,
/// what is too long in an addition, and an answer slice.
const MALFORMED: [&str; 27] = [
    "",
    "-empty",
    "-odd",
    "-cr",
    "-space",
    "-nul",
    "-character",
    "-operation",
    "-length",
    "-flag",
    "-flag-alternate",
    "-flag-list",
    "-flag-broadcast",
    "-phase",
    "-phase-list",
    "-n",
    "-n-list",
    "-n-broadcast",
    "-n-time",
    "-n-addition",
    "-n-addition-1101",
    "-body",
    "-slice",
    "-slice-answer",
    "-n-firmware",
    "-count",
    "-count-10",
];

/// Operations whose lines can be too short and too long, and those that can be too long alone.
const SHORT_AND_LONG: [u8; 20] = [
    0x08, 0x09, 0x0A, 0x0B, 0x0C, 0x0D, 0x0E, 0x0F, 0x10, 0x11, 0x12, 0x14, 0x15, 0x16, 0x17, 0x19,
    0x1A, 0x1B, 0x1C, 0x1D,
];
const LONG: [u8; 4] = [0x03, 0x13, 0x18, 0xF0];

const DIFFERENCE: u8 = 0x01;
pub const ARRIVAL: u8 = 0x09;
const LIST_ARRIVAL: u8 = 0x0F;
const FIRMWARE_ARRIVAL: u8 = 0x1B;
const REPLY: u8 = 0x0B;
const BROADCAST_ARRIVAL: u8 = 0x12;
/// The beginning of an addition to a buffer of 1101 octets.
const ADDITION_OF_1101: [u8; 3] = [0x14, 0x04, 0x4D];

/// Whether a call is for a record of a list.
fn is_of_list(operation: u8) -> bool {
    matches!(operation, 0x0E..=0x10)
}

/// Whether a call is one of C firmware.
fn is_of_firmware(operation: u8) -> bool {
    matches!(operation, 0x19..=0x1D)
}

/// The outcomes of a call that is not refused.
fn passed(operation: u8) -> Vec<Outcome> {
    match operation {
        DIFFERENCE => vec![Outcome::Done, Outcome::NoOrder],
        ARRIVAL | LIST_ARRIVAL | FIRMWARE_ARRIVAL => {
            let kisses = (0..=CODES.len()).map(|row| Outcome::Kiss(row as u8));
            kisses.chain([Outcome::Accepted]).collect()
        }
        _ => vec![Outcome::Done],
    }
}

fn outcomes(operation: u8, refusals: &[Refusal]) -> impl Iterator<Item = Outcome> {
    let of_list = is_of_list(operation).then_some(NotInList);
    let refusals = refusals.iter().map(move |&refusal| match refusal {
        RecordNotLegal if is_of_firmware(operation) => ImageNotLegal,
        _ => refusal,
    });
    of_list.into_iter().chain(refusals).map(Outcome::Refused).chain(passed(operation))
}

pub fn arrival_outcomes(operation: u8) -> impl Iterator<Item = Outcome> {
    outcomes(operation, &ARRIVAL_REFUSALS)
}

pub fn reply_outcomes() -> impl Iterator<Item = Outcome> {
    outcomes(REPLY, &REPLY_REFUSALS)
}

pub fn broadcast_arrival_outcomes() -> impl Iterator<Item = Outcome> {
    outcomes(BROADCAST_ARRIVAL, &BROADCAST_ARRIVAL_REFUSALS)
}

fn wanted() -> impl Iterator<Item = Row> {
    let calls = REFUSALS.into_iter().flat_map(|(operation, refusals)| {
        outcomes(operation, refusals).map(move |outcome| Row::Call { operation, outcome })
    });
    let both = SHORT_AND_LONG
        .into_iter()
        .flat_map(|operation| [false, true].map(|long| Row::WrongLength { operation, long }));
    let long = LONG.map(|operation| Row::WrongLength { operation, long: true });
    calls.chain(MALFORMED.map(|kind| Row::Malformed { kind })).chain(both).chain(long)
}

fn outcome(call: &Call, answer: &[u8]) -> Option<Outcome> {
    match call.operation() {
        DIFFERENCE => difference_outcome(answer),
        ARRIVAL | LIST_ARRIVAL => arrival_outcome(answer),
        FIRMWARE_ARRIVAL => firmware_arrival_outcome(answer),
        _ => Outcome::of_number(*answer.first()?),
    }
}

fn difference_outcome(answer: &[u8]) -> Option<Outcome> {
    match answer {
        [0, ..] => Some(Outcome::Done),
        [NO_ORDER] => Some(Outcome::NoOrder),
        _ => None,
    }
}

fn arrival_outcome(answer: &[u8]) -> Option<Outcome> {
    match answer {
        [0, number, ..] => Refusal::of_number(*number).map(Outcome::Refused),
        [1, 0, ..] => Some(Outcome::Accepted),
        // The row stands after offset, half, delay and code.
        [2, 0, rest @ ..] => rest.get(8 + 1 + 8 + 4).map(|&row| Outcome::Kiss(row)),
        _ => None,
    }
}

/// An arrival that is not refused has an answer slice, after the number and the image.
fn firmware_arrival_outcome(answer: &[u8]) -> Option<Outcome> {
    let (&number, rest) = answer.split_first()?;
    match (number, rest.get(image::LENGTH..)) {
        (1.., _) => Outcome::of_number(number),
        (0, Some([1, ..])) => Some(Outcome::Accepted),
        (0, Some([2, _, row, ..])) => Some(Outcome::Kiss(*row)),
        _ => None,
    }
}

/// Which kind of malformed line a text is that is not an even number of digits.
fn kind_of_text(text: &[u8]) -> &'static str {
    if text.contains(&b'\r') {
        "-cr"
    } else if text.contains(&b' ') {
        "-space"
    } else if text.contains(&0) {
        "-nul"
    } else if text.iter().any(|&character| value(character).is_none()) {
        "-character"
    } else {
        "-odd"
    }
}

fn kind_of(malformed: Malformed) -> &'static str {
    match malformed {
        Malformed::Empty => "-empty",
        Malformed::Operation => "-operation",
        Malformed::Length => "-length",
        Malformed::Phase => "-phase",
        Malformed::Flag => "-flag",
        Malformed::BufferLength => "-n",
        Malformed::BodyLength => "-body",
        Malformed::SliceLength => "-slice",
        Malformed::Count => "-count",
    }
}

/// Which wrong length a line has.
fn wrong_length(line: &[u8]) -> Option<Row> {
    let (&operation, rest) = line.split_first()?;
    // A list without its count is too short, and so is a line without the lengths that it gives.
    let long = lengths(operation, rest).is_ok_and(|(_, longest)| rest.len() > longest);
    Some(Row::WrongLength { operation, long })
}

/// Whether the alternate's flag is wrong, and the record's flag is not.
fn has_alternate_wrong(line: &[u8]) -> bool {
    let octet = |at: usize| line.get(at).copied().unwrap_or(0);
    octet(0) == ARRIVAL && octet(ASKED_AT) < 2 && octet(ALTERNATE_AT) > 1
}

/// The kind that a malformed line is of besides, if any.
fn further_kind(malformed: Malformed, line: &[u8]) -> Option<&'static str> {
    let of_list = line.first().is_some_and(|&operation| is_of_list(operation));
    let of_broadcast = line.first() == Some(&0x11);
    let of_firmware = line.first().is_some_and(|&operation| is_of_firmware(operation));
    let image_long = line.get(IMAGE_LENGTH_AT).is_some_and(|&length| length > LONGEST_SLICE);
    match malformed {
        Malformed::Flag if has_alternate_wrong(line) => Some("-flag-alternate"),
        Malformed::Flag if of_list => Some("-flag-list"),
        Malformed::Flag if of_broadcast => Some("-flag-broadcast"),
        Malformed::Phase if of_list => Some("-phase-list"),
        Malformed::BufferLength if of_list => Some("-n-list"),
        Malformed::BufferLength if of_broadcast => Some("-n-broadcast"),
        Malformed::BufferLength if line.starts_with(&ADDITION_OF_1101) => Some("-n-addition-1101"),
        Malformed::BufferLength if line.first() == Some(&0x14) => Some("-n-addition"),
        Malformed::BufferLength if line.first() == Some(&0x17) => Some("-n-time"),
        Malformed::BufferLength if of_firmware => Some("-n-firmware"),
        Malformed::SliceLength if !image_long => Some("-slice-answer"),
        Malformed::Count if line.get(COUNT_AT) == Some(&(LARGEST_COUNT + 1)) => Some("-count-10"),
        _ => None,
    }
}

fn take_malformed(counter: &mut Counter, pair: &Pair) -> Option<()> {
    let mut add = |kind| counter.add(Row::Malformed { kind });
    add("");
    match &pair.line {
        None => add(kind_of_text(&pair.text)),
        Some(line) => {
            let malformed = Call::parse(line).err()?;
            add(kind_of(malformed));
            further_kind(malformed, line).into_iter().for_each(&mut add);
            if malformed == Malformed::Length {
                wrong_length(line).into_iter().for_each(|row| counter.add(row));
            }
        }
    }
    Some(())
}

fn take(counter: &mut Counter, pair: &Pair) -> Option<()> {
    if pair.answer == [LineMalformed.number()] {
        return take_malformed(counter, pair);
    }
    let call = Call::parse(pair.line.as_ref()?).ok()?;
    let outcome = outcome(&call, &pair.answer)?;
    counter.add(Row::Call { operation: call.operation(), outcome });
    counter.boundaries.take(&call, &pair.answer, outcome);
    Some(())
}

pub fn counter() -> Counter {
    Counter::new(wanted(), take)
}
