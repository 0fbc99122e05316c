//! Fixed lines of broadcast: the writer, its client, and packets that come to a unicast client.

use super::clients::{self, IDLE, STOPPED, waiting};
use super::tails::field;
use super::{Lines, T, pairs};
use crate::client::FRESH;
use crate::conformance::broadcast_call::BroadcastCall;
use crate::conformance::call::{Call, LONGEST};
use crate::generate::broadcast_calls::written;
use crate::generate::packets::octets_of;
use crate::packet::Fields;
use crate::server::Settings;

const SET: Settings = Settings {
    synchronised: true,
    leap: 0,
    precision: -20,
    identifier: *b"GPS\0",
    reference: 3 * T,
};
const UNSYNCHRONISED: Settings = Settings { synchronised: false, ..SET };

fn write(lines: &mut Lines, settings: Settings, version_poll: [u8; 2], t3: u64, n: u8) {
    let [version, poll] = version_poll;
    lines.call(Call::OfBroadcast(BroadcastCall::Write { settings, version, poll, t3, n }));
}

fn put_buffers(lines: &mut Lines) {
    for n in 0..=LONGEST {
        write(lines, SET, [4, 6], 5 * T, n);
        write(lines, UNSYNCHRONISED, [4, 6], 5 * T, n);
    }
}

fn put_versions_and_polls(lines: &mut Lines) {
    let versions = [0, 1, 2, 3, 4, 5, 6, 7, 8, 12, 255];
    let polls = [0, 3, 4, 5, 6, 7, 8, 9, 10, 11, 12, 13, 14, 15, 16, 255];
    for (version, poll) in pairs(&versions, &polls) {
        write(lines, SET, [version, poll], 5 * T, 48);
        write(lines, UNSYNCHRONISED, [version, poll], 5 * T, 48);
    }
}

fn put_settings(lines: &mut Lines) {
    for (leap, precision) in pairs(&[0, 1, 2, 3, 4, 255], &[-128, -33, -32, -1, 0, 1, 127]) {
        write(lines, Settings { leap, precision, ..SET }, [4, 6], 5 * T, 48);
        write(lines, Settings { leap, precision, ..UNSYNCHRONISED }, [4, 6], 5 * T, 48);
    }
    for (reference, t3) in pairs(&[0, 1, u64::MAX], &[0, 1, T, 1 << 63, u64::MAX]) {
        write(lines, Settings { reference, ..SET }, [4, 6], t3, 48);
        write(lines, Settings { reference, ..UNSYNCHRONISED }, [4, 6], t3, 48);
    }
}

/// Every choice of the writer's faults, so that their order shows.
fn put_faults_of_writer(lines: &mut Lines) {
    for faults in 0..64 {
        let has = |bit: u8| faults & (1 << bit) != 0;
        let leap = if has(2) { 3 } else { 0 };
        let settings = Settings { synchronised: !has(5), leap, ..SET };
        let version = if has(1) { 0 } else { 4 };
        let poll = if has(3) { 15 } else { 14 };
        let t3 = if has(4) { 0 } else { T };
        write(lines, settings, [version, poll], t3, if has(0) { 47 } else { 48 });
    }
}

/// A broadcast packet that passes.
pub const GOOD: Fields = Fields {
    leap: 0,
    version: 4,
    mode: 5,
    stratum: 1,
    poll: 6,
    precision: -20,
    root_delay: 0,
    root_dispersion: 0,
    identifier: *b"GPS\0",
    reference: 0,
    originate: 0,
    receive: 0,
    transmit: T,
};

fn arrival(lines: &mut Lines, fields: &Fields, t4: u64, length: u8) {
    let mut packet = octets_of(fields);
    packet.resize(length.into(), 0xAB);
    lines.call(Call::OfBroadcast(BroadcastCall::Arrival { t4, packet: &packet }));
}

/// The arrival of a packet with a tail.
pub fn put_arrival(lines: &mut Lines, fields: &Fields, t4: u64, tail: &[u8]) {
    let packet = [&octets_of(fields), tail].concat();
    lines.call(Call::OfBroadcast(BroadcastCall::Arrival { t4, packet: &packet }));
}

fn put_packet_lengths(lines: &mut Lines) {
    for length in 0..=LONGEST {
        arrival(lines, &GOOD, T, length);
    }
}

/// Every leap indicator, version and mode, and every stratum.
fn put_first_octets(lines: &mut Lines) {
    for octet in 0..=255 {
        let first = Fields { leap: octet / 64, version: octet / 8 % 8, mode: octet % 8, ..GOOD };
        arrival(lines, &first, T, 48);
        arrival(lines, &Fields { stratum: octet, ..GOOD }, T, 48);
    }
}

/// A transmit timestamp and T4: either is zero or not, and they are half a circle apart or not. Two
/// zeros are not.
fn times(transmit_zero: bool, t4_zero: bool, apart: bool) -> (u64, u64) {
    const HALF: u64 = 1 << 63;
    match (transmit_zero, t4_zero, apart) {
        (true, true, _) => (0, 0),
        (true, false, true) => (0, HALF),
        (false, true, true) => (HALF, 0),
        (false, false, true) => (T, T + HALF),
        (true, false, false) => (0, T),
        (false, true, false) => (T, 0),
        (false, false, false) => (T, T),
    }
}

/// Every choice of the client's faults, so that their order shows, also of packets with a field.
fn put_faults_of_client(lines: &mut Lines) {
    for faults in 0..=255u8 {
        let has = |bit: u8| faults & (1 << bit) != 0;
        let (transmit, t4) = times(has(5), has(6), has(7));
        let fields = Fields {
            mode: if has(1) { 4 } else { 5 },
            version: if has(2) { 5 } else { 4 },
            leap: if has(3) { 3 } else { 2 },
            stratum: if has(4) { 16 } else { 15 },
            transmit,
            ..GOOD
        };
        arrival(lines, &fields, t4, if has(0) { 49 } else { 48 });
        put_arrival(lines, &fields, t4, &field(28, if has(0) { 32 } else { 28 }));
    }
}

/// Differences of both signs, also across 2036 and about half the circle.
fn put_differences(lines: &mut Lines) {
    let half = 1 << 63;
    let times =
        [1, 2, T, 5 * T, half - 1, half, half + 1, u64::MAX - 5 * T, u64::MAX - 1, u64::MAX];
    for (transmit, t4) in pairs(&times, &times) {
        arrival(lines, &Fields { transmit, ..GOOD }, t4, 48);
    }
}

/// Fields that the client of a broadcast does not look at.
fn put_other_fields(lines: &mut Lines) {
    let others = [
        Fields { poll: 0, ..GOOD },
        Fields { poll: 255, ..GOOD },
        Fields { precision: 127, ..GOOD },
        Fields { root_delay: -1, ..GOOD },
        Fields { root_delay: 65536, ..GOOD },
        Fields { root_dispersion: u32::MAX, ..GOOD },
        Fields { identifier: *b"DENY", ..GOOD },
        Fields { reference: u64::MAX, ..GOOD },
        Fields { originate: T, ..GOOD },
        Fields { receive: u64::MAX, ..GOOD },
    ];
    others.iter().for_each(|fields| arrival(lines, fields, T, 68));
}

/// Packets of our writer that come to a client which waits, and to those which do not.
fn put_at_unicast_clients(lines: &mut Lines) {
    let versions = [1, 2, 3, 4];
    for (client, version) in pairs(&[waiting(T), FRESH, IDLE, STOPPED], &versions) {
        clients::arrival(lines, &client, T, &written(&SET, version, 6, T));
        clients::arrival(lines, &client, T, &written(&UNSYNCHRONISED, version, 6, T));
    }
}

pub fn put_lines(lines: &mut Lines) {
    put_buffers(lines);
    put_versions_and_polls(lines);
    put_settings(lines);
    put_faults_of_writer(lines);
    put_packet_lengths(lines);
    put_first_octets(lines);
    put_faults_of_client(lines);
    put_differences(lines);
    put_other_fields(lines);
    put_at_unicast_clients(lines);
}
