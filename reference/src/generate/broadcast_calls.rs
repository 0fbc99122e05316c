//! Calls of broadcast, and broadcast packets for a unicast client.

use super::packets::{alter, octets_of};
use super::plain_calls::{any_fields, buffer_length};
use super::records::record;
use super::server_calls::settings;
use super::tails::{make_illegal, put_tail};
use super::timestamps::{around, nonzero_timestamp, timestamp};
use crate::broadcast;
use crate::client::Phase;
use crate::conformance::broadcast_call::BroadcastCall;
use crate::conformance::call::{Call, LONGEST_PACKET};
use crate::packet::{Fields, LENGTH};
use crate::random::Random;
use crate::refusal::Refusal::*;
use crate::server::Settings;

fn version(r: &mut Random) -> u8 {
    match r.below(12) {
        0 => r.pick([0, 5]),
        1 if r.one_in(2) => r.octet(),
        _ => 1 + r.octet_below(4),
    }
}

fn poll(r: &mut Random) -> u8 {
    match r.below(12) {
        0 => r.pick([3, 15]),
        1 if r.one_in(2) => r.octet(),
        _ => 4 + r.octet_below(11),
    }
}

pub fn write(r: &mut Random, line: &mut Vec<u8>) {
    let call = BroadcastCall::Write {
        settings: settings(r),
        version: version(r),
        poll: poll(r),
        t3: if r.one_in(12) { 0 } else { timestamp(r) },
        n: if r.one_in(2) { 48 } else { buffer_length(r) },
    };
    Call::OfBroadcast(call).put(line);
}

/// A packet of our writer, from legal settings and a T3 that is not zero.
pub fn written(settings: &Settings, version: u8, poll: u8, t3: u64) -> Vec<u8> {
    let mut octets = vec![0; LENGTH];
    let _ = broadcast::write(settings, version, poll, t3, &mut octets);
    octets
}

fn written_any(r: &mut Random) -> Vec<u8> {
    let settings =
        Settings { leap: r.octet_below(3), precision: -(r.octet_below(33) as i8), ..settings(r) };
    let version = 1 + r.octet_below(4);
    let poll = 4 + r.octet_below(11);
    written(&settings, version, poll, nonzero_timestamp(r))
}

/// Fields that pass the tests of a broadcast, all others with any values.
fn good_fields(r: &mut Random) -> Fields {
    Fields {
        leap: r.octet_below(3),
        version: 1 + r.octet_below(4),
        mode: 5,
        stratum: 1 + r.octet_below(15),
        transmit: nonzero_timestamp(r),
        ..any_fields(r)
    }
}

fn add_fault(r: &mut Random, fields: &mut Fields) {
    let refusal = r.pick([
        BroadcastModeWrong,
        BroadcastVersionUnsupported,
        BroadcastUnsynchronised,
        BroadcastStratumWrong,
        BroadcastTransmitZero,
    ]);
    match refusal {
        BroadcastModeWrong => fields.mode = (6 + r.octet_below(7)) % 8,
        BroadcastVersionUnsupported => fields.version = r.pick([0, 5, 6, 7]),
        BroadcastUnsynchronised => fields.leap = 3,
        BroadcastStratumWrong => fields.stratum = r.pick([0, 0, 16, 17, 128, 255]),
        _ => fields.transmit = 0,
    }
}

/// T4, given T3: near it, about half the circle away, or anywhere.
fn arrived(r: &mut Random, t3: u64) -> u64 {
    match r.below(8) {
        0 => around(r, t3),
        1 => around(r, t3 ^ (1 << 63)),
        2 | 3 => t3.wrapping_add(r.below(1 << 36)),
        4 => t3.wrapping_sub(r.below(1 << 36)),
        _ => timestamp(r),
    }
}

pub fn arrival(r: &mut Random, line: &mut Vec<u8>) {
    let mut fields = good_fields(r);
    for _ in 0..r.pick([0, 0, 1, 1, 2, 2]) {
        add_fault(r, &mut fields);
    }
    let t4 = if r.one_in(12) { 0 } else { arrived(r, fields.transmit) };
    let mut packet = if r.one_in(6) { written_any(r) } else { octets_of(&fields) };
    if r.one_in(4) {
        put_tail(r, &mut packet);
    }
    alter(r, 48, &mut packet);
    if r.one_in(10) {
        make_illegal(r, LONGEST_PACKET, &mut packet);
    }
    Call::OfBroadcast(BroadcastCall::Arrival { t4, packet: &packet }).put(line);
}

/// A packet of our writer that comes to a unicast client.
pub fn arrival_at_unicast_client(r: &mut Random, line: &mut Vec<u8>) {
    let phase = r.pick([Phase::Waiting, Phase::Waiting, Phase::Idle, Phase::Stopped]);
    let client = record(r, phase);
    let packet = written_any(r);
    let t4 = timestamp(r);
    Call::Arrival { client, t4, alternate: r.one_in(2), packet: &packet }.put(line);
}
