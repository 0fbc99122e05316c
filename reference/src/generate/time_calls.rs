//! Calls on Unix times and the Time Protocol.

use super::packets::put_any;
use super::timestamps::timestamp;
use crate::conformance::call::{Call, LONGEST};
use crate::conformance::time_call::TimeCall;
use crate::random::Random;
use crate::unix::{UnixTime, timestamp_of, unix_of};

/// The first and the last Unix second of the window, and that of the timestamp zero.
pub const FIRST: i64 = -61_505_152;
pub const LAST: i64 = 4_233_462_143;
pub const ERA_1: i64 = 2_085_978_496;

fn seconds(r: &mut Random) -> i64 {
    match r.below(16) {
        0 => r.pick([FIRST - 1, LAST + 1]),
        1 => r.pick([FIRST, LAST]),
        2 => r.pick([i64::MIN, i64::MAX, i64::MIN + 1, i64::MAX - 1]),
        3 => r.number() as i64,
        4 | 5 => ERA_1,
        6 => r.pick([ERA_1 - 1, ERA_1 + 1]),
        7 => r.pick([-1, 0, 1, (1 << 31) - 1, 1 << 31, (1 << 32) - 1, 1 << 32]),
        8 => r.below(1 << 34) as i64 - (1 << 33),
        _ => FIRST + r.below(1 << 32) as i64,
    }
}

fn nanoseconds(r: &mut Random) -> u32 {
    match r.below(12) {
        0 | 1 => 0,
        2 => 1,
        3 => 999_999_999,
        4 => r.pick([1_000_000_000, 1_000_000_001, u32::MAX]),
        5 if r.one_in(4) => r.number() as u32,
        _ => r.below(1_000_000_000) as u32,
    }
}

/// A Unix time, at times that of a timestamp.
fn unix_time(r: &mut Random) -> UnixTime {
    if r.one_in(4) {
        return unix_of(timestamp(r)).unwrap_or_default();
    }
    UnixTime { seconds: seconds(r), nanoseconds: nanoseconds(r) }
}

pub fn timestamp_of_unix(r: &mut Random, line: &mut Vec<u8>) {
    Call::OfTime(TimeCall::TimestampOfUnix { time: unix_time(r) }).put(line);
}

/// A timestamp, at times that of a Unix time or one unit beside it, or about the timestamp zero.
pub fn unix_of_timestamp(r: &mut Random, line: &mut Vec<u8>) {
    let timestamp = match r.below(8) {
        0 => r.below(12),
        1..=3 => {
            let time = UnixTime {
                seconds: FIRST + r.below(1 << 32) as i64,
                nanoseconds: nanoseconds(r) % 1_000_000_000,
            };
            timestamp_of(&time).unwrap_or(0).wrapping_add(r.below(3)).wrapping_sub(1)
        }
        _ => timestamp(r),
    };
    Call::OfTime(TimeCall::UnixOfTimestamp { timestamp }).put(line);
}

fn count(r: &mut Random) -> u32 {
    match r.below(4) {
        0 => r.pick([0, 1, (1 << 31) - 1, 1 << 31, u32::MAX]),
        _ => r.number() as u32,
    }
}

pub fn time_answer(r: &mut Random, line: &mut Vec<u8>) {
    let n = match r.below(4) {
        0 | 1 => 4,
        2 => r.octet_below(8),
        _ => r.octet_below(LONGEST + 1),
    };
    Call::OfTime(TimeCall::Answer { count: count(r), n }).put(line);
}

pub fn time_read(r: &mut Random, line: &mut Vec<u8>) {
    let mut octets = count(r).to_be_bytes().to_vec();
    match r.below(4) {
        0 => octets.truncate(r.below(4) as usize),
        1 => {
            let more = if r.one_in(2) { 1 } else { 1 + r.below(u64::from(LONGEST) - 4) };
            put_any(r, more as usize, &mut octets);
        }
        _ => {}
    }
    Call::OfTime(TimeCall::Read { octets: &octets }).put(line);
}
