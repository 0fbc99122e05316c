//! Calls of the server.

use super::packets::{identifier, octets_of};
use super::plain_calls::{any_fields, buffer_length};
use super::tails::{make_illegal, put_tail};
use super::timestamps::{around, timestamp};
use crate::conformance::call::{Call, LONGEST_PACKET};
use crate::packet::Fields;
use crate::random::Random;
use crate::server::Settings;

pub fn settings(r: &mut Random) -> Settings {
    Settings {
        synchronised: !r.one_in(4),
        leap: match r.below(12) {
            0 => r.pick([3, 4, 255]),
            _ => r.octet_below(3),
        },
        precision: match r.below(12) {
            0 => r.pick([-33, 1, 127, -128]),
            1 | 2 => r.pick([-32, 0]),
            3 if r.one_in(4) => r.octet() as i8,
            _ => -(r.octet_below(33) as i8),
        },
        identifier: identifier(r),
        reference: timestamp(r),
    }
}

/// Settings of a server that is synchronised and answers.
pub fn legal_settings(r: &mut Random) -> Settings {
    Settings {
        synchronised: true,
        leap: r.octet_below(3),
        precision: -(r.octet_below(33) as i8),
        identifier: identifier(r),
        reference: timestamp(r),
    }
}

/// T3, given T2.
fn answered(r: &mut Random, t2: u64) -> u64 {
    match r.below(16) {
        0 => t2.wrapping_sub(1),
        1 => t2 ^ (1 << 63),
        2 => around(r, t2 ^ (1 << 63)),
        3 => 0,
        4 => timestamp(r),
        5 | 6 => t2,
        7 => t2.wrapping_sub(r.below(1 << 33)),
        _ => t2.wrapping_add(r.below(1 << 36)),
    }
}

/// A request with any fields, or as our client writes it.
fn request_fields(r: &mut Random) -> Fields {
    let any = any_fields(r);
    let version = match r.below(12) {
        0 => r.pick([0, 5]),
        1 => r.octet_below(8),
        _ => 1 + r.octet_below(4),
    };
    let mode = if r.one_in(12) { r.octet_below(8) } else { 3 };
    if r.one_in(2) {
        Fields { version, mode, transmit: any.transmit, ..Fields::default() }
    } else {
        Fields { version, mode, ..any }
    }
}

/// What a server is given.
pub struct Request {
    pub settings: Settings,
    pub t2: u64,
    pub t3: u64,
    pub n: u8,
    pub octets: Vec<u8>,
}

pub fn request(r: &mut Random) -> Request {
    let settings = settings(r);
    let t2 = if r.one_in(24) { 0 } else { timestamp(r) };
    let t3 = answered(r, t2);
    let n = if r.one_in(2) { 48 } else { buffer_length(r) };
    let mut octets = octets_of(&request_fields(r));
    match r.below(16) {
        0 | 1 => make_illegal(r, LONGEST_PACKET, &mut octets),
        2..=5 => put_tail(r, &mut octets),
        _ => {}
    }
    Request { settings, t2, t3, n, octets }
}

pub fn reply(r: &mut Random, line: &mut Vec<u8>) {
    let Request { settings, t2, t3, n, octets } = request(r);
    Call::Reply { settings, t2, t3, n, request: &octets }.put(line);
}
