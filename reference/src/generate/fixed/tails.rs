//! Fixed lines of packets with tails, legal and not, at every call that is given a packet.

use super::broadcasts::{self, put_arrival};
use super::clients::{self, waiting};
use super::exchanges::{faulty_replies, reply, server_reply};
use super::{Lines, T};
use crate::conformance::call::{Call, LONGEST_PACKET};
use crate::conformance::extension_call::ExtensionCall;
use crate::extension::{AUTHENTICATORS, HEAD, LEAST_LEFT, LONGEST};
use crate::generate::packets::octets_of;
use crate::kiss::CODES;
use crate::packet::{Fields, LENGTH};

/// Lengths at which a packet with a whole field stands.
const LENGTHS: [usize; 17] =
    [84, 88, 100, 128, 256, 512, 1000, 1016, 1020, 1021, 1023, 1024, 1025, 1026, 1027, 1028, 1040];

/// So many octets that begin with the head of a field, which gives `length`.
pub fn field(octets: usize, length: usize) -> Vec<u8> {
    let mut field = [[0x01, 0x04], (length as u16).to_be_bytes()].concat();
    field.resize(octets.max(HEAD), 0xAB);
    field
}

/// Each number of octets up to 27 by itself, after a field of 28, and after one of 16.
fn remainders() -> impl Iterator<Item = Vec<u8>> {
    let before = [Vec::new(), field(28, 28), field(16, 16)];
    before.into_iter().flat_map(|before| {
        (0..LEAST_LEFT).map(move |octets| [&before[..], &vec![0xCD; octets]].concat())
    })
}

/// A head with each length, of 28 octets and of more.
fn lengths() -> impl Iterator<Item = Vec<u8>> {
    let far = [0x8000, 0xFFFC, 0xFFFF];
    [28, 44, 48].into_iter().flat_map(move |octets| {
        (0..=octets + 8).chain(far).map(move |length| field(octets, length))
    })
}

/// Authenticators that look like a field, by themselves and after a field.
fn like_fields() -> impl Iterator<Item = Vec<u8>> {
    let before = [Vec::new(), field(28, 28), field(16, 16)];
    before.into_iter().flat_map(|before| {
        [(20, 16), (20, 20), (24, 16), (24, 20), (24, 24)]
            .map(|(octets, length)| [&before[..], &field(octets, length)].concat())
    })
}

/// Several fields of 16 and one of 28, then nothing, an authenticator, or a field that breaks a rule.
fn several() -> impl Iterator<Item = Vec<u8>> {
    let authenticators = AUTHENTICATORS.map(|octets| vec![0xCD; octets]);
    let broken = [12, 18, 36, 0].map(|length| field(32, length));
    let ends: Vec<Vec<u8>> = [vec![Vec::new()], authenticators.to_vec(), broken.to_vec()].concat();
    (0..=6).flat_map(move |count| {
        let fields = [field(16, 16).repeat(count), field(28, 28)].concat();
        ends.clone().into_iter().map(move |end| [&fields[..], &end].concat())
    })
}

/// As many fields as fit into so many octets.
fn most_fields(octets: usize) -> Vec<u8> {
    let count = (octets - 28) / 16;
    [field(16, 16).repeat(count), field(octets - 16 * count, octets - 16 * count)].concat()
}

/// Tails that end at 1024 octets or past them.
fn long() -> impl Iterator<Item = Vec<u8>> {
    let whole = LONGEST - LENGTH;
    let lengths = [whole - 4, whole, whole + 4, whole + 16];
    let most = lengths.into_iter().map(most_fields);
    let with_authenticator = [whole, whole + 4].into_iter().flat_map(|octets| {
        AUTHENTICATORS.map(|end| [field(octets - end, octets - end), vec![0xCD; end]].concat())
    });
    let broken = [12, 30, whole - 26, whole + 4].map(|length| field(whole, length));
    most.chain(with_authenticator).chain(broken)
}

/// Every fixed tail.
pub fn tails() -> impl Iterator<Item = Vec<u8>> {
    remainders().chain(lengths()).chain(like_fields()).chain(several()).chain(long())
}

/// The tail of a packet of so many octets: one field, and what is left over of a multiple of 4.
fn tail_to(length: usize) -> Vec<u8> {
    let octets = length - LENGTH;
    let mut tail = field(octets / 4 * 4, octets / 4 * 4);
    tail.resize(octets, 0xCD);
    tail
}

fn with_tail(packet: &[u8], tail: &[u8]) -> Vec<u8> {
    [packet, tail].concat()
}

/// A packet with this tail at every call that is given one; all other tests pass.
fn put_tail(lines: &mut Lines, tail: &[u8]) {
    let packet = with_tail(&octets_of(&reply(T, T)), tail);
    lines.call(Call::ReadFields { packet: &packet });
    lines.call(Call::OfExtension(ExtensionCall::Read { packet: &packet }));
    clients::arrival(lines, &waiting(T), T, &packet);
    server_reply(lines, 48, tail);
    put_arrival(lines, &broadcasts::GOOD, T, tail);
}

/// Every length of a packet, as legal as that length can be, at one call, and some at all of them.
fn put_lengths(lines: &mut Lines) {
    let good = octets_of(&reply(T, T));
    for length in 0..=LONGEST_PACKET {
        let tail = if length < LENGTH + HEAD { Vec::new() } else { tail_to(length) };
        let mut packet = with_tail(&good, &tail);
        packet.resize(length, 0xCD);
        lines.call(Call::ReadFields { packet: &packet });
    }
    LENGTHS.into_iter().for_each(|length| put_tail(lines, &tail_to(length)));
}

/// A kiss of each row with a field.
fn put_kisses(lines: &mut Lines) {
    for identifier in [*b"XXXX"].into_iter().chain(CODES) {
        let kiss = Fields { stratum: 0, identifier, ..reply(T, T) };
        clients::arrival(lines, &waiting(T), T, &with_tail(&octets_of(&kiss), &field(28, 28)));
    }
}

/// Replies with each fault, and with a field, with an authenticator too, or with a broken tail.
fn put_faults(lines: &mut Lines) {
    let tails =
        [field(28, 28), [field(16, 16), vec![0xCD; 20]].concat(), field(28, 12), field(28, 32)];
    for fields in faulty_replies() {
        for (tail, t4) in tails.iter().flat_map(|tail| [0, T - 1, T].map(|t4| (tail, t4))) {
            clients::arrival(lines, &waiting(T), t4, &with_tail(&octets_of(&fields), tail));
        }
    }
}

/// Replies with a field that are refused for a root field or for a time.
fn put_late_faults(lines: &mut Lines) {
    let half = T + (1 << 63);
    let replies = [
        (T, Fields { root_delay: -1, ..reply(T, T) }),
        (T, Fields { root_dispersion: 65536, ..reply(T, T) }),
        (T + (1 << 36) + 1, reply(T, T)),
        (T, reply(T, T - 1)),
        (T + 5, reply(T, T + 6)),
        (T + 2, reply(half + 1, half + 1)),
        (half, reply(T, T)),
        (T, reply(half, half)),
    ];
    for (t4, fields) in replies {
        let packet = with_tail(&octets_of(&fields), &field(28, 28));
        clients::arrival(lines, &waiting(T), t4, &packet);
    }
}

pub fn put_lines(lines: &mut Lines) {
    tails().for_each(|tail| put_tail(lines, &tail));
    put_lengths(lines);
    put_faults(lines);
    put_late_faults(lines);
    put_kisses(lines);
}
