//! The boundaries of Unix times and the Time Protocol.

use super::Marks;
use crate::conformance::time_call::TimeCall;
use crate::count::outcome::Outcome;
use crate::generate::time_calls::{ERA_1, FIRST, LAST};
use crate::refusal::Refusal::*;
use crate::unix::{UnixTime, timestamp_of};

const BILLION: u32 = 1_000_000_000;

pub fn time_call(m: &mut Marks, call: &TimeCall, answer: &[u8], outcome: Outcome) {
    match *call {
        TimeCall::UnixOfTimestamp { timestamp } => {
            timestamps(m, timestamp, outcome);
            given(m, timestamp, unix_time(answer));
        }
        TimeCall::TimestampOfUnix { time } => {
            windows(m, time, outcome);
            orders(m, time, outcome);
        }
        TimeCall::Answer { count, n } => {
            m.see_each("buffer-", 0..=80, |length| n == length);
            m.see_each("45-n=", [0, 1, 2, 3], |k| outcome.by(TimeLengthWrong) && n == k);
            m.see_each("n=", [4, 5, 80], |k| outcome.passed() && n == k);
            counts(m, count, outcome);
        }
        TimeCall::Read { octets } => {
            let length = octets.len();
            m.see_each("length-", 0..=80, |n| length == n);
            m.see_each("45-length-", [0, 3, 5, 80], |n| outcome.by(TimeLengthWrong) && length == n);
            let count = octets.try_into().map_or(0, u32::from_be_bytes);
            counts(m, count, outcome);
        }
    }
}

/// The Unix time of an answer, if it has one.
fn unix_time(answer: &[u8]) -> Option<UnixTime> {
    let [0, rest @ ..] = answer else {
        return None;
    };
    let (seconds, nanoseconds) = rest.split_first_chunk()?;
    Some(UnixTime {
        seconds: i64::from_be_bytes(*seconds),
        nanoseconds: u32::from_be_bytes(nanoseconds.try_into().ok()?),
    })
}

fn timestamps(m: &mut Marks, timestamp: u64, outcome: Outcome) {
    let done = outcome.passed();
    m.see("zero", outcome.by(TimestampZero) && timestamp == 0);
    m.see_each("fraction-of-second-zero-", 1..=5, |n| done && timestamp == n);
    m.see("ones", done && timestamp == u64::MAX);
    m.see("first", done && timestamp == 1 << 63);
    m.see("last", done && timestamp == (1 << 63) - 1);
}

/// What an answer gives, and what comes back of it.
fn given(m: &mut Marks, timestamp: u64, time: Option<UnixTime>) {
    let seconds = time.map(|time| time.seconds);
    let nanoseconds = time.map(|time| time.nanoseconds);
    m.see_each("seconds=", [FIRST, -1, 0, 1, ERA_1 - 1, ERA_1, 1 << 31, LAST], |n| {
        seconds == Some(n)
    });
    m.see_each("nanoseconds=", [0, 1, BILLION - 1], |n| nanoseconds == Some(n));
    m.see("before-1970-with-nanoseconds", seconds < Some(0) && nanoseconds > Some(0));
    let back = time.map(|time| timestamp_of(&time));
    m.see_each("back-less-", 0..=4, |n| back == Some(Ok(timestamp.wrapping_sub(n))));
    m.see_each("back-refused-fraction-", 1..=4, |n| {
        back == Some(Err(TimestampZero)) && timestamp == n
    });
}

/// Both sides of the tests 25, 26 and 24.
fn windows(m: &mut Marks, time: UnixTime, outcome: Outcome) {
    let UnixTime { seconds, nanoseconds } = time;
    let (done, outside) = (outcome.passed(), outcome.by(OutsideWindow));
    let none = outcome.by(NoSuchDate) && (FIRST..=LAST).contains(&seconds);
    m.see("before-first", outside && (seconds, nanoseconds) == (FIRST - 1, BILLION - 1));
    m.see("first", done && (seconds, nanoseconds) == (FIRST, 0));
    m.see("last", done && (seconds, nanoseconds) == (LAST, BILLION - 1));
    m.see("after-last", outside && (seconds, nanoseconds) == (LAST + 1, 0));
    m.see("seconds=-2^63", outside && seconds == i64::MIN);
    m.see("seconds=2^63-1", outside && seconds == i64::MAX);
    m.see_each("nanoseconds=", [0, 1, BILLION - 1], |n| done && nanoseconds == n);
    m.see_each("25-nanoseconds=", [BILLION, u32::MAX], |n| none && nanoseconds == n);
    m.see("zero", outcome.by(TimestampZero) && (seconds, nanoseconds) == (ERA_1, 0));
    m.see("zero-and-1", done && (seconds, nanoseconds) == (ERA_1, 1));
    m.see("ones", done && (seconds, nanoseconds) == (ERA_1 - 1, BILLION - 1));
    let noted = [-1, 0, 1, (1 << 31) - 1, 1 << 31, 4_107_542_399, 4_107_542_400];
    m.see_each("seconds=", noted, |n| done && seconds == n);
    m.see("before-1970-with-nanoseconds", done && seconds < 0 && nanoseconds > 0);
}

fn orders(m: &mut Marks, time: UnixTime, outcome: Outcome) {
    let none = outcome.by(NoSuchDate);
    m.see("25-before-26-below", none && time.seconds < FIRST);
    m.see("25-before-26-above", none && time.seconds > LAST);
    m.see("25-before-24", none && time.seconds == ERA_1);
}

fn counts(m: &mut Marks, count: u32, outcome: Outcome) {
    let done = outcome.passed();
    m.see("count=0", done && count == 0);
    m.see("count=2^31-1", done && count == (1 << 31) - 1);
    m.see("count=2^31", done && count == 1 << 31);
    m.see("count=2^32-1", done && count == u32::MAX);
}
