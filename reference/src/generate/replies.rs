//! Replies that pass every test, the ends of each range often.

use super::packets::identifier;
use super::timestamps::timestamp;
use crate::client::Client;
use crate::packet::Fields;
use crate::random::Random;
use crate::timestamp::{LIMIT, SECOND};

/// P and Q of about this size have a sum about where it leaves 64 bits.
const QUARTER: i64 = 1 << 62;
/// One second of root delay or root dispersion.
pub const ROOT_SECOND: u32 = 1 << 16;

/// A reply to a request, as fields, and the clock at its arrival.
#[derive(Clone, Copy)]
pub struct Reply {
    pub fields: Fields,
    pub t4: u64,
}

/// T4 - T1.
fn elapsed(r: &mut Random) -> u64 {
    match r.below(9) {
        0 => 0,
        1 => 1,
        2 => LIMIT,
        3 => LIMIT - 1,
        4 => r.below(100),
        5 | 6 => r.below(SECOND),
        _ => r.below(LIMIT + 1),
    }
}

/// T3 - T2, at most what elapsed.
fn hold(r: &mut Random, elapsed: u64) -> u64 {
    match r.below(8) {
        0 => 0,
        1 => elapsed,
        2 => elapsed.saturating_sub(1),
        3 => elapsed.min(1),
        4 => elapsed / 2,
        _ => r.below(elapsed + 1),
    }
}

/// A first difference that passes, given the delay.
fn first_difference(r: &mut Random, delay: i64) -> i64 {
    // With this one Q is -2^63 + 1.
    let least = i64::MIN + 1 + delay;
    match r.below(15) {
        0 => i64::MAX,
        1 => least,
        2 => least + r.below(LIMIT) as i64,
        3 => i64::MAX - r.below(LIMIT) as i64,
        4 => 0,
        5 => delay / 2,
        6 | 7 => r.below(2 * SECOND) as i64 - SECOND as i64,
        8 | 9 => r.below(1 << 52) as i64 - (1 << 51),
        10 => r.pick([QUARTER, -QUARTER]) + delay / 2 + r.below(5) as i64 - 2,
        _ => i64::MAX.wrapping_sub(r.below(u64::MAX - delay as u64) as i64),
    }
}

/// A root delay or root dispersion that passes.
fn small_root(r: &mut Random) -> u32 {
    match r.below(8) {
        0..=2 => 0,
        3 => 1,
        4 => ROOT_SECOND - 1,
        _ => r.below(ROOT_SECOND.into()) as u32,
    }
}

/// A reply to the client that passes every test, except where a clock happens to be zero.
pub fn good_reply(r: &mut Random, client: &Client) -> Reply {
    let elapsed = elapsed(r);
    let hold = hold(r, elapsed);
    let first = first_difference(r, (elapsed - hold) as i64);
    let receive = client.t1.wrapping_add(first as u64);
    let fields = Fields {
        leap: r.octet_below(3),
        version: client.version,
        mode: 4,
        stratum: if r.one_in(3) { r.pick([1, 14, 15]) } else { 1 + r.octet_below(15) },
        poll: if r.one_in(2) { 0 } else { r.octet() },
        precision: if r.one_in(2) { -20 } else { r.octet() as i8 },
        root_delay: small_root(r) as i32,
        root_dispersion: small_root(r),
        identifier: identifier(r),
        reference: timestamp(r),
        originate: client.token.0,
        receive,
        transmit: receive.wrapping_add(hold),
    };
    Reply { fields, t4: client.t1.wrapping_add(elapsed) }
}
