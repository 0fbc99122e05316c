//! Timestamps, tokens and uptimes, the ends of their ranges often.

use crate::client::Token;
use crate::random::Random;
use crate::timestamp::{LIMIT, SECOND};

const ENDS: [u64; 15] = [
    0,
    1,
    2,
    u64::MAX,
    u64::MAX - 1,
    SECOND,
    SECOND - 1,
    SECOND + 1,
    LIMIT,
    1 << 62,
    1 << 63,
    (1 << 63) - 1,
    (1 << 63) + 1,
    3 << 62,
    0xFFFF_FFFF_0000_0000,
];

/// A timestamp of these years.
pub fn today(r: &mut Random) -> u64 {
    0xEC00_0000_0000_0000 | (r.number() >> 6)
}

pub fn timestamp(r: &mut Random) -> u64 {
    match r.below(12) {
        0 => r.pick(ENDS),
        // Shortly after 2036, shortly before it.
        1 => r.below(1 << 37),
        2 => 0u64.wrapping_sub(r.below(1 << 37)),
        // Around the two ends of the calendar's window.
        3 => (1u64 << 63).wrapping_add(r.below(1 << 37)).wrapping_sub(1 << 36),
        // Whole seconds.
        4 => r.number() & 0xFFFF_FFFF_0000_0000,
        5 | 6 => today(r),
        _ => r.number(),
    }
}

pub fn nonzero_timestamp(r: &mut Random) -> u64 {
    timestamp(r).max(1)
}

/// One less than the value, the value, or one more, modulo 2^64.
pub fn around(r: &mut Random, value: u64) -> u64 {
    value.wrapping_add(r.below(3)).wrapping_sub(1)
}

/// A token that is not zero: mostly any number, at times the clock reading or one beside it.
pub fn nonzero_token(r: &mut Random, clock: u64) -> Token {
    let token = match r.below(8) {
        0 | 1 => clock,
        2 => around(r, clock),
        3 => timestamp(r),
        _ => r.number(),
    };
    Token(token.max(1))
}

pub fn uptime(r: &mut Random) -> u64 {
    const NEAR_ENDS: [u64; 6] =
        [u64::MAX - 15, u64::MAX - 16, u64::MAX - 63, u64::MAX - 64, 1 << 63, 1 << 32];
    match r.below(8) {
        0 => 0,
        1 => r.below(40),
        2 => u64::MAX - r.below(40),
        3 => u64::MAX - r.below(40_000),
        4 => r.number(),
        5 => r.pick(NEAR_ENDS),
        _ => r.below(1 << 32),
    }
}
