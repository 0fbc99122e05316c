//! The boundaries of arrivals.

use super::Marks;
use super::client::records;
use super::tails::{tails, with_fields};
use super::timestamps::{exchange, is_negative};
use crate::client::{Client, Phase, Token};
use crate::conformance::call::LONGEST_PACKET;
use crate::count::conformance::{ARRIVAL, arrival_outcomes};
use crate::count::outcome::Outcome;
use crate::packet::{self, Fields, LENGTH};
use crate::refusal::Refusal::*;
use crate::timestamp::{difference, measure};

/// The fields of a packet; one too short to have any stands for zeros, and is refused for that.
pub fn fields_of(packet: &[u8]) -> Fields {
    let fields = packet.first_chunk::<LENGTH>().map(|octets| packet::read(octets));
    fields.and_then(Result::ok).unwrap_or_default()
}

pub fn arrival(
    m: &mut Marks,
    client: &Client,
    t4: u64,
    packet: &[u8],
    half: bool,
    outcome: Outcome,
) {
    let accepted = outcome == Outcome::Accepted;
    let fields = fields_of(packet);
    records(m, "", client, outcome);
    lengths(m, packet.len(), outcome);
    tails(m, packet, LONGEST_PACKET, outcome);
    with_fields(m, packet, arrival_outcomes(ARRIVAL), outcome);
    m.see("7-before-8", outcome.by(PacketLengthWrong) && client.phase != Phase::Waiting);
    m.see("8-idle", outcome.by(NotWaiting) && client.phase == Phase::Idle);
    m.see("8-stopped", outcome.by(NotWaiting) && client.phase == Phase::Stopped);
    tokens(m, client, fields.originate, outcome);
    broadcasts(m, client.phase, &fields, outcome);
    first_octets(m, &fields, outcome);
    server_timestamps(m, &fields, outcome);
    root_delays(m, fields.root_delay, outcome);
    root_dispersions(m, fields.root_dispersion, outcome);
    order_about_kiss(m, &fields, t4, outcome);
    m.see("3-before-43", outcome.by(OwnClockZero) && difference(t4, client.t1).is_none());
    order_about_roots(m, &fields, client.t1, t4, outcome);
    m.see_each("accepted-exponent-", 6..=14, |x| accepted && client.exponent == x);
    m.see("half-1-given", accepted && half);
    exchange(m, [client.t1, fields.receive, fields.transmit, t4], outcome);
}

/// Every outcome of an operation, with an alternate and without one.
pub fn alternates(m: &mut Marks, operation: u8, alternate: bool, outcome: Outcome) {
    let outcomes = || arrival_outcomes(operation);
    m.see_each("with-alternate-", outcomes(), |o| alternate && outcome == o);
    m.see_each("without-alternate-", outcomes(), |o| !alternate && outcome == o);
}

/// Whether an answer to an arrival gives a half of 1.
pub fn gives_half(answer: &[u8]) -> bool {
    answer.get(10) == Some(&1)
}

/// What a kiss does to the record, with each exponent; the names begin with the given word.
/// `alternate` is none where there is no kiss.
pub fn kisses(
    m: &mut Marks,
    word: &str,
    client: &Client,
    next: Option<Client>,
    alternate: Option<bool>,
) {
    let stops = alternate == Some(true);
    let backs_off = alternate == Some(false);
    let next = next.map(|next| (next.phase, next.exponent));
    m.see_each(&format!("{word}kiss-stops-exponent-"), 6..=14, |x| {
        stops && client.exponent == x && next == Some((Phase::Stopped, x))
    });
    m.see_each(&format!("{word}kiss-backs-off-exponent-"), 6..=14, |x: u8| {
        backs_off && client.exponent == x && next == Some((Phase::Idle, 14.min(x + 1)))
    });
}

/// Each length a packet can have, and what came of it.
fn lengths(m: &mut Marks, length: usize, outcome: Outcome) {
    let refused = outcome.by(PacketLengthWrong);
    m.see_each("length-", 0..=80, |n| length == n);
    m.see_each("refused-length-", [0, 1, 47, 49, 67, 69, 80], |n| refused && length == n);
    m.see("accepted-48", outcome == Outcome::Accepted && length == 48);
    m.see("accepted-68", outcome == Outcome::Accepted && length == 68);
    m.see("kiss-68", outcome.is_kiss() && length == 68);
}

/// Originate against token and T1, where these are equal and where they are not.
fn tokens(m: &mut Marks, client: &Client, originate: u64, outcome: Outcome) {
    let accepted = outcome == Outcome::Accepted;
    let equal = client.token == Token(client.t1);
    m.see("9-originate=T1", outcome.by(OriginateMismatch) && !equal && originate == client.t1);
    m.see("accepted-token=T1", accepted && equal);
    m.see("accepted-token-not-T1", accepted && !equal);
}

/// Packets as the writer of a broadcast makes them, synchronised and not.
fn broadcasts(m: &mut Marks, phase: Phase, fields: &Fields, outcome: Outcome) {
    let version = (1..=4).contains(&fields.version);
    let broadcast = version && fields.mode == 5 && fields.originate == 0 && fields.receive == 0;
    let on = broadcast && fields.leap < 3 && fields.stratum == 1;
    let off = broadcast && fields.leap == 3 && fields.stratum == 0;
    let mismatch = outcome.by(OriginateMismatch);
    let idle = outcome.by(NotWaiting) && phase == Phase::Idle;
    let stopped = outcome.by(NotWaiting) && phase == Phase::Stopped;
    m.see("9-broadcast", mismatch && on);
    m.see("9-broadcast-off", mismatch && off);
    m.see("8-idle-broadcast", idle && on);
    m.see("8-idle-broadcast-off", idle && off);
    m.see("8-stopped-broadcast", stopped && on);
    m.see("8-stopped-broadcast-off", stopped && off);
}

fn first_octets(m: &mut Marks, fields: &Fields, outcome: Outcome) {
    let accepted = outcome == Outcome::Accepted;
    let high = outcome.by(StratumTooHigh);
    let mode = outcome.by(ReplyModeWrong);
    let version = outcome.by(VersionMismatch);
    m.see_each("accepted-li-", 0..=2, |li| accepted && fields.leap == li);
    m.see_each("accepted-stratum-", 1..=15, |s| accepted && fields.stratum == s);
    m.see_each("refused-stratum-", [16, 17, 255], |s| high && fields.stratum == s);
    m.see_each("refused-mode-", [0, 1, 2, 3, 5, 6, 7], |wrong| mode && fields.mode == wrong);
    m.see_each("accepted-version-", 1..=4, |v| accepted && fields.version == v);
    m.see_each("refused-version-", 1..=4, |v| version && fields.version == v);
}

fn server_timestamps(m: &mut Marks, fields: &Fields, outcome: Outcome) {
    let zero = outcome.by(ServerTimestampZero);
    let accepted = outcome == Outcome::Accepted;
    m.see("receive-zero", zero && fields.receive == 0 && fields.transmit != 0);
    m.see("transmit-zero", zero && fields.receive != 0 && fields.transmit == 0);
    m.see("receive-of-ones", accepted && fields.receive == u64::MAX);
    m.see("originate-zero", outcome.by(OriginateMismatch) && fields.originate == 0);
}

/// Both sides of test 33, which a kiss does not meet.
fn root_delays(m: &mut Marks, delay: i32, outcome: Outcome) {
    let accepted = outcome == Outcome::Accepted;
    let refused = outcome.by(RootDelayOutOfRange);
    m.see_each("root-delay=", [0, 1, 65535], |value| accepted && delay == value);
    m.see("root-delay=65536", refused && delay == 65536);
    m.see("root-delay=2^31-1", refused && delay == i32::MAX);
    m.see("root-delay=-1", refused && delay == -1);
    m.see("root-delay=-2^31", refused && delay == i32::MIN);
    m.see("kiss-with-root-delay=-1", outcome.is_kiss() && delay == -1);
}

/// Both sides of test 34, which a kiss does not meet.
fn root_dispersions(m: &mut Marks, dispersion: u32, outcome: Outcome) {
    let accepted = outcome == Outcome::Accepted;
    let refused = outcome.by(RootDispersionTooLarge);
    m.see_each("root-dispersion=", [0, 1, 65535], |value| accepted && dispersion == value);
    m.see("root-dispersion=65536", refused && dispersion == 65536);
    m.see("root-dispersion=2^31-1", refused && dispersion == (1 << 31) - 1);
    m.see("root-dispersion=2^31", refused && dispersion == 1 << 31);
    m.see("root-dispersion=2^32-1", refused && dispersion == u32::MAX);
    m.see("kiss-with-root-dispersion=2^32-1", outcome.is_kiss() && dispersion == u32::MAX);
}

/// Packets with two faults, or that are a kiss with a fault.
fn order_about_kiss(m: &mut Marks, fields: &Fields, t4: u64, outcome: Outcome) {
    let kiss = fields.stratum == 0;
    m.see("kiss-before-3", outcome.is_kiss() && t4 == 0);
    m.see("kiss-with-li-3", outcome.is_kiss() && fields.leap == 3);
    m.see("9-before-kiss", outcome.by(OriginateMismatch) && kiss);
    m.see("10-before-kiss", outcome.by(ReplyModeWrong) && kiss);
    m.see("11-before-kiss", outcome.by(VersionMismatch) && kiss);
    m.see("3-before-12", outcome.by(OwnClockZero) && fields.leap == 3);
    m.see("12-before-13", outcome.by(ServerUnsynchronised) && fields.stratum > 15);
    m.see("13-before-14", outcome.by(StratumTooHigh) && fields.receive == 0);
}

/// Packets with two faults, one of them in a root field.
fn order_about_roots(m: &mut Marks, fields: &Fields, t1: u64, t4: u64, outcome: Outcome) {
    let delay = !(0..65536).contains(&fields.root_delay);
    let dispersion = fields.root_dispersion >= 65536;
    let early = is_negative(difference(t4, t1));
    let measured = measure(t1, fields.receive, fields.transmit, t4);
    let below = measured == Err(FirstBelowSecond);
    let no_order = measured == Err(NoOrder);
    m.see("13-before-33", outcome.by(StratumTooHigh) && delay);
    m.see("13-before-34", outcome.by(StratumTooHigh) && dispersion && !delay);
    m.see("14-before-33", outcome.by(ServerTimestampZero) && delay);
    m.see("14-before-34", outcome.by(ServerTimestampZero) && dispersion && !delay);
    m.see("14-before-15", outcome.by(ServerTimestampZero) && early);
    m.see("14-before-43", outcome.by(ServerTimestampZero) && no_order);
    m.see("33-before-34", outcome.by(RootDelayOutOfRange) && dispersion);
    m.see("33-before-15", outcome.by(RootDelayOutOfRange) && early);
    m.see("33-before-19", outcome.by(RootDelayOutOfRange) && below);
    m.see("33-before-43", outcome.by(RootDelayOutOfRange) && no_order);
    m.see("34-before-15", outcome.by(RootDispersionTooLarge) && early);
    m.see("34-before-19", outcome.by(RootDispersionTooLarge) && below);
    m.see("34-before-43", outcome.by(RootDispersionTooLarge) && no_order);
}
