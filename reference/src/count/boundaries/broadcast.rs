//! The boundaries of broadcast.

use super::Marks;
use super::arrival::fields_of;
use super::server::settings_by_name;
use super::tails::{tails, with_fields};
use super::timestamps::{is_negative, is_positive};
use crate::conformance::broadcast_call::BroadcastCall;
use crate::conformance::call::LONGEST_PACKET;
use crate::count::conformance::broadcast_arrival_outcomes;
use crate::count::outcome::Outcome;
use crate::extension::tail;
use crate::packet::{Fields, LENGTH};
use crate::refusal::Refusal::{self, *};
use crate::server::Settings;
use crate::timestamp::difference;

pub fn broadcast_call(m: &mut Marks, call: &BroadcastCall, outcome: Outcome) {
    match *call {
        BroadcastCall::Write { ref settings, version, poll, t3, n } => {
            buffers(m, n, outcome);
            versions_and_polls(m, "", version, poll, outcome, settings.synchronised);
            versions_and_polls(m, "off-", version, poll, outcome, !settings.synchronised);
            settings_by_name(m, "", settings, outcome, settings.synchronised);
            settings_by_name(m, "off-", settings, outcome, !settings.synchronised);
            written_timestamps(m, settings, t3, outcome);
            order(m, &faults_of_writer(settings, version, poll, t3, n), outcome);
        }
        BroadcastCall::Arrival { t4, packet } => {
            let fields = fields_of(packet);
            packet_lengths(m, packet.len(), outcome);
            tails(m, packet, LONGEST_PACKET, outcome);
            with_fields(m, packet, broadcast_arrival_outcomes(), outcome);
            first_octets(m, &fields, outcome);
            other_fields(m, &fields, outcome);
            differences(m, fields.transmit, t4, outcome);
            order(m, &faults_of_packet(packet, &fields, t4), outcome);
        }
    }
}

fn buffers(m: &mut Marks, n: u8, outcome: Outcome) {
    m.see_each("buffer-", 0..=80, |length| n == length);
    m.see("n=47", outcome.by(BufferTooShort) && n == 47);
    m.see_each("n=", [48, 49, 80], |length| outcome.passed() && n == length);
}

/// Both sides of tests 22 and 41; the names begin with the given word.
fn versions_and_polls(
    m: &mut Marks,
    word: &str,
    version: u8,
    poll: u8,
    outcome: Outcome,
    on: bool,
) {
    let sent = on && outcome.passed();
    let wrong_version = on && outcome.by(RequestVersionUnsupported);
    let wrong_poll = on && outcome.by(PollOutOfRange);
    m.see_each(&format!("{word}version-"), 1..=4, |v| sent && version == v);
    m.see_each(&format!("{word}refused-version-"), [0, 5, 8, 255], |v| {
        wrong_version && version == v
    });
    m.see_each(&format!("{word}poll-"), 4..=14, |p| sent && poll == p);
    m.see_each(&format!("{word}refused-poll-"), [0, 3, 15, 255], |p| wrong_poll && poll == p);
}

fn written_timestamps(m: &mut Marks, settings: &Settings, t3: u64, outcome: Outcome) {
    let sent = outcome.passed() && settings.synchronised;
    m.see("T3-zero", outcome.by(ServerTimestampZero) && t3 == 0);
    m.see("off-T3-zero", outcome.passed() && !settings.synchronised && t3 == 0);
    m.see("T3=1", sent && t3 == 1);
    m.see("T3-of-ones", sent && t3 == u64::MAX);
    m.see("reference-zero", sent && settings.reference == 0);
}

/// The faults of a writer's call, in the order of its tests.
fn faults_of_writer(
    settings: &Settings,
    version: u8,
    poll: u8,
    t3: u64,
    n: u8,
) -> [(Refusal, bool); 5] {
    [
        (BufferTooShort, usize::from(n) < LENGTH),
        (RequestVersionUnsupported, !(1..=4).contains(&version)),
        (SettingsOutOfRange, settings.test().is_err()),
        (PollOutOfRange, !(4..=14).contains(&poll)),
        (ServerTimestampZero, settings.synchronised && t3 == 0),
    ]
}

fn packet_lengths(m: &mut Marks, length: usize, outcome: Outcome) {
    let refused = outcome.by(PacketLengthWrong);
    m.see_each("length-", 0..=80, |n| length == n);
    m.see_each("refused-length-", [0, 1, 47, 49, 67, 69, 80], |n| refused && length == n);
    m.see_each("accepted-", [48, 68], |n| outcome.passed() && length == n);
}

fn first_octets(m: &mut Marks, fields: &Fields, outcome: Outcome) {
    let accepted = outcome.passed();
    let mode = outcome.by(BroadcastModeWrong);
    let version = outcome.by(BroadcastVersionUnsupported);
    let stratum = outcome.by(BroadcastStratumWrong);
    m.see_each("refused-mode-", [0, 1, 2, 3, 4, 6, 7], |wrong| mode && fields.mode == wrong);
    m.see_each("accepted-version-", 1..=4, |v| accepted && fields.version == v);
    m.see_each("refused-version-", [0, 5, 6, 7], |v| version && fields.version == v);
    m.see_each("accepted-li-", 0..=2, |li| accepted && fields.leap == li);
    m.see("refused-li-3", outcome.by(BroadcastUnsynchronised) && fields.leap == 3);
    m.see_each("accepted-stratum-", 1..=15, |s| accepted && fields.stratum == s);
    m.see_each("refused-stratum-", [0, 16, 17, 255], |s| stratum && fields.stratum == s);
}

/// Fields that are not looked at, with values that an arrival at a unicast client would refuse.
fn other_fields(m: &mut Marks, fields: &Fields, outcome: Outcome) {
    let accepted = outcome.passed();
    m.see("accepted-originate", accepted && fields.originate != 0);
    m.see("accepted-receive-zero", accepted && fields.receive == 0);
    m.see("accepted-root-delay=-1", accepted && fields.root_delay == -1);
    m.see("accepted-root-delay=65536", accepted && fields.root_delay == 65536);
    m.see("accepted-root-dispersion=2^32-1", accepted && fields.root_dispersion == u32::MAX);
    m.see_each("accepted-poll-", [0, 255], |poll| accepted && fields.poll == poll);
}

/// T3 - T4 and its ends, and both sides of tests 40, 3 and 43.
fn differences(m: &mut Marks, t3: u64, t4: u64, outcome: Outcome) {
    let accepted = outcome.passed();
    let ahead = difference(t3, t4);
    m.see("transmit-zero", outcome.by(BroadcastTransmitZero) && t3 == 0);
    m.see("transmit=1", accepted && t3 == 1);
    m.see("T4-zero", outcome.by(OwnClockZero) && t4 == 0);
    m.see("T4=1", accepted && t4 == 1);
    m.see_each("difference=", [-1, 0, 1], |d| accepted && ahead == Some(d));
    m.see("difference=2^63-1", accepted && ahead == Some((1 << 63) - 1));
    m.see("difference=-2^63+1", accepted && ahead == Some(1 - (1 << 63)));
    m.see("43-T3-above-T4", outcome.by(NoOrder) && t3 > t4);
    m.see("43-T3-below-T4", outcome.by(NoOrder) && t3 < t4);
    m.see("difference-positive-over-wrap", accepted && is_positive(ahead) && t3 < t4);
    m.see("difference-negative-over-wrap", accepted && is_negative(ahead) && t3 > t4);
}

/// The faults of a packet and of T4, in the order of the tests. A packet that is too short has no
/// fields.
fn faults_of_packet(packet: &[u8], fields: &Fields, t4: u64) -> [(Refusal, bool); 8] {
    let whole = packet.len() >= LENGTH;
    [
        (PacketLengthWrong, tail(packet).is_err()),
        (BroadcastModeWrong, whole && fields.mode != 5),
        (BroadcastVersionUnsupported, whole && !(1..=4).contains(&fields.version)),
        (BroadcastUnsynchronised, whole && fields.leap == 3),
        (BroadcastStratumWrong, whole && !(1..=15).contains(&fields.stratum)),
        (BroadcastTransmitZero, whole && fields.transmit == 0),
        (OwnClockZero, t4 == 0),
        (NoOrder, whole && difference(fields.transmit, t4).is_none()),
    ]
}

/// Each test with each later one: the call has both faults and no other, and the first refuses it.
fn order(m: &mut Marks, faults: &[(Refusal, bool)], outcome: Outcome) {
    let two = faults.iter().filter(|(_, has)| *has).count() == 2;
    order_from(m, faults, two, outcome);
}

fn order_from(m: &mut Marks, faults: &[(Refusal, bool)], two: bool, outcome: Outcome) {
    let Some((&(first, has_first), later)) = faults.split_first() else {
        return;
    };
    let refused = two && has_first && outcome.by(first);
    let numbers = later.iter().map(|(refusal, _)| refusal.number());
    m.see_each(&format!("{}-before-", first.number()), numbers, |number| {
        refused && later.iter().any(|(refusal, has)| *has && refusal.number() == number)
    });
    order_from(m, later, two, outcome);
}
