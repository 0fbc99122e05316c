//! The tails of packets: extension fields and authenticators, and tails that break each rule.

use super::packets::put_any;
use crate::extension::{AUTHENTICATORS, HEAD, LEAST_LEFT, LEAST_LENGTH, LONGEST, boundaries};
use crate::packet::LENGTH;
use crate::random::Random;

/// Appends a field of so many octets.
pub fn put_field(r: &mut Random, octets: usize, packet: &mut Vec<u8>) {
    let kind = match r.below(4) {
        0 => r.pick([0, 1, 0x0104, 0x0204, 0xFFFF]),
        _ => r.number() as u16,
    };
    packet.extend([kind, octets as u16].map(u16::to_be_bytes).as_flattened());
    match r.below(4) {
        0 => packet.resize(packet.len() + octets - HEAD, 0),
        _ => put_any(r, octets - HEAD, packet),
    }
}

/// Appends an authenticator of so many octets, at times one that looks like a field.
fn put_authenticator_of(r: &mut Random, octets: usize, packet: &mut Vec<u8>) {
    match r.below(6) {
        0 => packet.resize(packet.len() + octets, 0),
        1 => packet.resize(packet.len() + octets, 255),
        2 | 3 if octets >= LEAST_LENGTH => put_field(r, octets, packet),
        _ => put_any(r, octets, packet),
    }
}

fn authenticator(r: &mut Random) -> usize {
    if r.one_in(3) { 20 } else { r.pick(AUTHENTICATORS) }
}

/// The least octets of a field that has so many after it.
fn least_before(after: usize) -> usize {
    LEAST_LENGTH.max(LEAST_LEFT.saturating_sub(after).next_multiple_of(4))
}

/// Appends so many short fields; `after` octets are to follow.
fn put_fields(r: &mut Random, count: u64, mut after: usize, packet: &mut Vec<u8>) {
    let mut octets = Vec::new();
    for _ in 0..count {
        let more = if r.one_in(2) { 0 } else { 4 * r.below(6) as usize };
        octets.push(least_before(after) + more);
        after += least_before(after) + more;
    }
    octets.into_iter().rev().for_each(|octets| put_field(r, octets, packet));
}

/// Appends fields of so many octets in all, a multiple of 4 from 28 on: one, or several, or as many
/// as fit.
pub fn put_fields_of(r: &mut Random, octets: usize, packet: &mut Vec<u8>) {
    let mut left = octets;
    let most = r.pick([0, 1, 5, 60, 60]);
    for _ in 0..most {
        let more = if most < 60 { 4 * r.below(20) as usize } else { 0 };
        let next = LEAST_LENGTH + more;
        if left < next + LEAST_LEFT {
            break;
        }
        put_field(r, next, packet);
        left -= next;
    }
    put_field(r, left, packet);
}

/// How long a long packet is to be: often as long as can be.
fn long_length(r: &mut Random) -> usize {
    match r.below(4) {
        0 => LONGEST,
        1 => LONGEST - 4,
        _ => LENGTH + 4 * (30 + r.below(214)) as usize,
    }
}

/// A long tail behind the first 48 octets.
fn put_long_tail(r: &mut Random, packet: &mut Vec<u8>) {
    let octets = if r.one_in(3) { authenticator(r) } else { 0 };
    let length = long_length(r);
    put_fields_of(r, length - LENGTH - octets, packet);
    put_authenticator_of(r, octets, packet);
}

/// Appends a legal tail to the first 48 octets of a packet: an authenticator, or fields with or
/// without one, seldom many octets.
pub fn put_tail(r: &mut Random, packet: &mut Vec<u8>) {
    packet.truncate(LENGTH);
    match r.below(64) {
        0..=19 => {
            let octets = authenticator(r);
            put_authenticator_of(r, octets, packet);
        }
        20 => put_long_tail(r, packet),
        _ => put_short_fields(r, packet),
    }
}

/// One field or more, with or without an authenticator.
fn put_short_fields(r: &mut Random, packet: &mut Vec<u8>) {
    let octets = if r.one_in(3) { authenticator(r) } else { 0 };
    let count = if r.one_in(8) { 3 + r.below(5) } else { 1 + r.below(2) };
    put_fields(r, count, octets, packet);
    put_authenticator_of(r, octets, packet);
}

/// The place of a head in a packet, and how many octets are left there; mostly of the last field.
fn any_head(r: &mut Random, packet: &[u8]) -> (usize, usize) {
    let tail = packet.get(LENGTH..).unwrap_or_default();
    let left: Vec<usize> = boundaries(tail).map(<[u8]>::len).filter(|&n| n >= LEAST_LEFT).collect();
    let which = if r.one_in(3) {
        r.below(left.len().max(1) as u64) as usize
    } else {
        left.len().saturating_sub(1)
    };
    let left = left.get(which).copied().unwrap_or(0);
    (packet.len() - left, left)
}

fn set_length(packet: &mut [u8], at: usize, length: usize) {
    if let Some(octets) = packet.get_mut(at + 2..at + HEAD) {
        octets.copy_from_slice(&(length as u16).to_be_bytes());
    }
}

/// A length below 16, mostly a multiple of 4.
fn low_length(r: &mut Random) -> usize {
    if r.one_in(4) { r.below(16) as usize } else { 4 * r.below(4) as usize }
}

/// A length of 16 or more that is no multiple of 4 and does not reach past the end.
fn odd_length(r: &mut Random, left: usize) -> usize {
    let fours = 4 + r.below((left / 4 - 4) as u64) as usize;
    4 * fours + 1 + r.below(3) as usize
}

/// A length that reaches past the end, often by 4 octets.
fn far_length(r: &mut Random, left: usize) -> usize {
    match r.below(4) {
        0 | 1 => left + 4,
        2 => left + 4 * r.below(250) as usize + 4,
        _ => r.pick([0xFFFC, 0x8000, 0xFFF0]),
    }
}

/// A number of octets that may not be left.
fn wrong_remainder(r: &mut Random) -> usize {
    loop {
        let octets = 1 + r.below(27) as usize;
        if !AUTHENTICATORS.contains(&octets) {
            return octets;
        }
    }
}

/// Appends a tail that breaks one rule to the first 48 octets of a packet.
pub fn put_broken_tail(r: &mut Random, packet: &mut Vec<u8>) {
    packet.truncate(LENGTH);
    if r.one_in(3) {
        let octets = wrong_remainder(r);
        let count = r.pick([0, 0, 1, 1, 2]);
        put_fields(r, count, octets, packet);
        put_any(r, octets, packet);
        return;
    }
    if r.one_in(24) {
        put_long_tail(r, packet)
    } else {
        put_short_fields(r, packet)
    }
    let (at, left) = any_head(r, packet);
    let length = match r.below(4) {
        0 => low_length(r),
        1 => odd_length(r, left),
        2 => far_length(r, left),
        _ => r.number() as usize & 0xFFFF,
    };
    set_length(packet, at, length);
}

/// Lengthens a packet past 1024 octets, at most to `longest`; its tail is mostly legal but for that.
pub fn put_too_long_tail(r: &mut Random, longest: usize, packet: &mut Vec<u8>) {
    packet.truncate(LENGTH);
    let fours = (longest - LONGEST) / 4;
    let octets = LONGEST - LENGTH + 4 * (1 + r.below(fours as u64)) as usize;
    put_fields_of(r, octets, packet);
    if r.one_in(4) {
        packet.truncate(LONGEST + 1 + r.below((longest - LONGEST) as u64) as usize);
    }
}

/// Makes a packet one that is refused by 7: too short, with a tail that breaks a rule, or, where
/// `longest` lets it, too long.
pub fn make_illegal(r: &mut Random, longest: usize, packet: &mut Vec<u8>) {
    match r.below(48) {
        0 if longest > LONGEST => put_too_long_tail(r, longest, packet),
        0..=7 => packet.truncate(LENGTH - 1),
        8..=15 => packet.truncate(r.below(LENGTH as u64) as usize),
        _ => put_broken_tail(r, packet),
    }
}
