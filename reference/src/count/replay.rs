//! The count over replay streams.

use super::outcome::Outcome;
use super::{Counter, Pair, Row};
use crate::kiss::{self, CODES};
use crate::refusal::Refusal::{self, *};
use crate::replay::{ARRIVAL, ASK, BEFORE_PACKET, GIVE_UP, KISS, LONGEST_PACKET};

/// A replayed client is never stopped.
const ASK_REFUSALS: [Refusal; 4] = [OwnClockZero, TokenZero, AlreadyWaiting, AskedTooSoon];

const ARRIVAL_REFUSALS: [Refusal; 17] = [
    PacketLengthWrong,
    NotWaiting,
    OriginateMismatch,
    ReplyModeWrong,
    VersionMismatch,
    OwnClockZero,
    ServerUnsynchronised,
    StratumTooHigh,
    ServerTimestampZero,
    RootDelayOutOfRange,
    RootDispersionTooLarge,
    NoOrder,
    ArrivedBeforeSent,
    ArrivedTooLate,
    AnsweredBeforeReceived,
    DelayNegative,
    FirstBelowSecond,
];

const GIVE_UP_REFUSALS: [Refusal; 2] = [NotWaiting, GaveUpTooSoon];

const MALFORMED: Row = Row::Malformed { kind: "" };
/// An ask that ends after its clock.
const WITHOUT_TOKEN: Row = Row::Malformed { kind: "-without-token" };
/// A packet of one octet more than there can be.
const PACKET_OF_1025: Row = Row::Malformed { kind: "-packet-1025" };

fn arrival_outcomes() -> impl Iterator<Item = Outcome> {
    let kisses = (0..=CODES.len()).map(|row| Outcome::Kiss(row as u8));
    ARRIVAL_REFUSALS.map(Outcome::Refused).into_iter().chain(kisses).chain([Outcome::Accepted])
}

/// Each number that each call can give, and each kiss row.
fn wanted() -> impl Iterator<Item = Row> {
    let refused = |operation: u8, refusals: &'static [Refusal]| {
        let outcomes = refusals.iter().map(|&refusal| Outcome::Refused(refusal));
        outcomes.map(move |outcome| Row::Call { operation, outcome })
    };
    let arrivals = arrival_outcomes().map(|outcome| Row::Call { operation: ARRIVAL, outcome });
    let passed = [ASK, GIVE_UP].map(|operation| Row::Call { operation, outcome: Outcome::Done });
    refused(ASK, &ASK_REFUSALS)
        .chain(refused(GIVE_UP, &GIVE_UP_REFUSALS))
        .chain(arrivals)
        .chain(passed)
        .chain([MALFORMED, WITHOUT_TOKEN, PACKET_OF_1025])
}

fn outcome(operation: u8, answer: &[u8]) -> Option<Outcome> {
    match (operation, answer) {
        (ARRIVAL, [0, ..]) => Some(Outcome::Accepted),
        (ARRIVAL, [KISS, code @ ..]) => Some(Outcome::Kiss(kiss::row(code.try_into().ok()?))),
        (_, [number, ..]) => Outcome::of_number(*number),
        _ => None,
    }
}

fn is_without_token(line: &[u8]) -> bool {
    line.first() == Some(&ASK) && line.len() == BEFORE_PACKET
}

fn is_packet_of_1025(line: &[u8]) -> bool {
    line.first() == Some(&ARRIVAL) && line.len() == BEFORE_PACKET + LONGEST_PACKET + 1
}

fn take_malformed(counter: &mut Counter, line: &[u8]) {
    counter.add(MALFORMED);
    if is_without_token(line) {
        counter.add(WITHOUT_TOKEN);
    }
    if is_packet_of_1025(line) {
        counter.add(PACKET_OF_1025);
    }
}

fn take(counter: &mut Counter, pair: &Pair) -> Option<()> {
    if pair.answer == [LineMalformed.number()] {
        take_malformed(counter, pair.line.as_deref().unwrap_or_default());
        return Some(());
    }
    let line = pair.line.as_ref()?;
    let operation = *line.first()?;
    let outcome = outcome(operation, &pair.answer)?;
    counter.add(Row::Call { operation, outcome });
    if operation == ARRIVAL {
        let outcomes = arrival_outcomes().filter(|outcome| !outcome.is_kiss());
        counter.boundaries.replayed(operation, line.get(BEFORE_PACKET..)?, outcomes, outcome);
    }
    Some(())
}

pub fn counter() -> Counter {
    Counter::new(wanted(), take)
}
