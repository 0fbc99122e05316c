//! Calls of the calendar: dates and timestamps, those at which something changes often.

use super::timestamps::timestamp;
use crate::calendar::{Date, month_days, timestamp_of};
use crate::conformance::call::Call;
use crate::random::Random;

const YEARS_OUTSIDE: [u32; 27] = [
    0,
    1,
    4,
    100,
    400,
    1582,
    1600,
    1899,
    1900,
    1901,
    1904,
    1967,
    1969,
    1999,
    2001,
    2105,
    2106,
    2108,
    2200,
    2201,
    2400,
    65535,
    65536,
    1 << 31,
    u32::MAX,
    u32::MAX - 3,
    u32::MAX - 95,
];

/// Dates at which something changes.
const CHANGES: [(u32, u8, u8, u8, u8, u8); 14] = [
    (1968, 1, 20, 3, 14, 7),
    (1968, 1, 20, 3, 14, 8),
    (1968, 1, 20, 3, 14, 9),
    (2036, 2, 7, 6, 28, 15),
    (2036, 2, 7, 6, 28, 16),
    (2036, 2, 7, 6, 28, 17),
    (2104, 2, 26, 9, 42, 22),
    (2104, 2, 26, 9, 42, 23),
    (2104, 2, 26, 9, 42, 24),
    (2100, 2, 28, 23, 59, 59),
    (2100, 2, 29, 0, 0, 0),
    (2100, 3, 1, 0, 0, 0),
    (2000, 2, 29, 23, 59, 59),
    (0, 2, 29, 0, 0, 0),
];

fn fraction(r: &mut Random) -> u32 {
    match r.below(3) {
        0 => r.pick([0, 1, u32::MAX]),
        _ => r.number() as u32,
    }
}

/// The end of some February; zero where that year has no such day.
fn end_of_february(r: &mut Random) -> u64 {
    let (month, day) = r.pick([(2, 28), (2, 29), (3, 1)]);
    let (hour, minute, second) = if r.one_in(2) { (23, 59, 59) } else { (0, 0, 0) };
    let year = 1968 + r.below(137) as u32;
    let date = Date { year, month, day, hour, minute, second, fraction: fraction(r) };
    timestamp_of(&date).unwrap_or(0)
}

fn about_midnight(r: &mut Random) -> u64 {
    let midnight = match r.below(2) {
        0 => (24855 + r.below(24856)) * 86400,
        // The day of 06:28:16 on 7 February 2036 ends 63104 seconds later.
        _ => r.below(24855) * 86400 + 63104,
    };
    let seconds = (midnight + r.below(3)).wrapping_sub(1) as u32;
    u64::from(seconds) << 32 | r.pick([0, 1, 0xFFFF_FFFF, 0x8000_0000])
}

pub fn date_of_timestamp(r: &mut Random, line: &mut Vec<u8>) {
    let timestamp = if r.one_in(4) {
        end_of_february(r)
    } else if r.one_in(3) {
        about_midnight(r)
    } else {
        timestamp(r)
    };
    Call::DateOfTimestamp { timestamp }.put(line);
}

fn year(r: &mut Random) -> u32 {
    match r.below(6) {
        0 => r.pick(YEARS_OUTSIDE),
        1 => r.pick([1968, 1970, 2000, 2035, 2036, 2037, 2099, 2100, 2101, 2103, 2104]),
        2 if r.one_in(3) => r.number() as u32,
        _ => 1968 + r.below(137) as u32,
    }
}

fn change(r: &mut Random) -> Date {
    let (year, month, day, hour, minute, second) = r.pick(CHANGES);
    Date { year, month, day, hour, minute, second, fraction: fraction(r) }
}

/// A date that exists, or the end of February in a year that may not have that day.
fn any_date(r: &mut Random) -> Date {
    let year = year(r);
    let month = 1 + r.octet_below(12);
    let last = month_days(year, month);
    let day = if r.one_in(4) { last } else { 1 + r.octet_below(last) };
    let mut date = Date {
        year,
        month,
        day,
        hour: r.octet_below(24),
        minute: r.octet_below(60),
        second: r.octet_below(60),
        fraction: fraction(r),
    };
    if r.one_in(6) {
        date.month = 2;
        date.day = r.pick([28, 29, 30]);
    }
    date
}

fn make_nonexistent(r: &mut Random, date: &mut Date) {
    match r.below(6) {
        0 => date.month = r.pick([0, 13, 14, 128, 255]),
        1 => date.day = r.pick([0, 29, 30, 31, 32, 255]),
        2 => date.hour = r.pick([24, 25, 255]),
        3 => date.minute = r.pick([60, 61, 255]),
        4 => date.second = r.pick([60, 61, 255]),
        _ => {
            date.month = r.octet();
            date.day = r.octet();
            date.hour = r.octet();
        }
    }
}

pub fn timestamp_of_date(r: &mut Random, line: &mut Vec<u8>) {
    let mut date = if r.one_in(5) { change(r) } else { any_date(r) };
    if r.one_in(5) {
        make_nonexistent(r, &mut date);
    }
    Call::TimestampOfDate { date }.put(line);
}
