//! Fixed lines of Unix times and the Time Protocol.

use super::{Lines, pairs};
use crate::conformance::call::{Call, LONGEST};
use crate::conformance::time_call::TimeCall;
use crate::generate::time_calls::{ERA_1, FIRST, LAST};
use crate::unix::UnixTime;

/// Unix seconds: the ends of the window, 1970, 2000, 2036, 2038, the end of February 2100, and the
/// ends of 64 bits.
const SECONDS: [i64; 33] = [
    FIRST - 1,
    FIRST,
    FIRST + 1,
    -86_401,
    -86_400,
    -2,
    -1,
    0,
    1,
    946_684_799,
    946_684_800,
    951_782_400,
    ERA_1 - 1,
    ERA_1,
    ERA_1 + 1,
    (1 << 31) - 1,
    1 << 31,
    (1 << 31) + 1,
    4_107_455_999,
    4_107_456_000,
    4_107_542_399,
    4_107_542_400,
    LAST - 1,
    LAST,
    LAST + 1,
    (1 << 32) - 1,
    1 << 32,
    i64::MIN,
    i64::MIN + 1,
    i64::MIN / 2,
    i64::MAX / 2,
    i64::MAX - 1,
    i64::MAX,
];

/// Nanoseconds, those that there are and others.
const NANOSECONDS: [u32; 10] = [
    0,
    1,
    2,
    499_999_999,
    500_000_000,
    999_999_998,
    999_999_999,
    1_000_000_000,
    1_000_000_001,
    u32::MAX,
];

fn put_unix_times(lines: &mut Lines) {
    for (seconds, nanoseconds) in pairs(&SECONDS, &NANOSECONDS) {
        let time = UnixTime { seconds, nanoseconds };
        lines.call(Call::OfTime(TimeCall::TimestampOfUnix { time }));
    }
}

/// The fractions on both sides of some nanoseconds, in every second from the list that there is.
fn put_timestamps(lines: &mut Lines) {
    let near = [0u64, 1, 2, 3, 4, 5, 6, 8, 9, 13, 1 << 31, (1 << 31) - 1, (1 << 31) + 1];
    let last = [9, 8, 5, 4, 3, 1, 0].map(|below| 0xFFFF_FFFF - below);
    for fraction in near.into_iter().chain(last) {
        for seconds in SECONDS.into_iter().filter(|seconds| (FIRST..=LAST).contains(seconds)) {
            let seconds = (seconds - ERA_1) as u32;
            let timestamp = u64::from(seconds) << 32 | fraction;
            lines.call(Call::OfTime(TimeCall::UnixOfTimestamp { timestamp }));
        }
    }
}

fn put_time_protocol(lines: &mut Lines) {
    let counts = [0, 1, 0x0102_0304, (1 << 31) - 1, 1 << 31, u32::MAX];
    for n in 0..=LONGEST {
        lines.call(Call::OfTime(TimeCall::Answer { count: 0x0102_0304, n }));
        let octets: Vec<u8> = (0..n).collect();
        lines.call(Call::OfTime(TimeCall::Read { octets: &octets }));
    }
    for (count, n) in pairs(&counts, &[0, 3, 4, 5]) {
        lines.call(Call::OfTime(TimeCall::Answer { count, n }));
        let mut octets = count.to_be_bytes().to_vec();
        octets.resize(n.into(), 0);
        lines.call(Call::OfTime(TimeCall::Read { octets: &octets }));
    }
}

pub fn put_lines(lines: &mut Lines) {
    put_unix_times(lines);
    put_timestamps(lines);
    put_time_protocol(lines);
}
