//! Dates, Unix time, the Time Protocol, and the precision of a clock.

use crate::{lent, lent_mut, written};
use reference::calendar::{self, Date};
use reference::firmware::narrow;
use reference::unix::{self, UnixTime};
use reference::{precision, refusal, time_protocol};

#[unsafe(no_mangle)]
pub extern "C" fn independent_date(
    timestamp: u64,
    year: &mut u32,
    month: &mut u32,
    day: &mut u32,
    hour: &mut u32,
    minute: &mut u32,
    second: &mut u32,
    fraction: &mut u32,
) -> u32 {
    written(calendar::date_of(timestamp), |date| {
        *year = date.year;
        *month = date.month.into();
        *day = date.day.into();
        *hour = date.hour.into();
        *minute = date.minute.into();
        *second = date.second.into();
        *fraction = date.fraction;
    })
}

/// A month, day, hour, minute or second that an octet does not hold is as little there as 255.
#[unsafe(no_mangle)]
pub extern "C" fn independent_timestamp_of_date(
    year: u32,
    month: u32,
    day: u32,
    hour: u32,
    minute: u32,
    second: u32,
    fraction: u32,
    timestamp: &mut u64,
) -> u32 {
    let [month, day, hour, minute, second] = [month, day, hour, minute, second].map(narrow);
    let date = Date { year, month, day, hour, minute, second, fraction };
    written(calendar::timestamp_of(&date), |answer| *timestamp = answer)
}

#[unsafe(no_mangle)]
pub extern "C" fn independent_unix_time(
    timestamp: u64,
    seconds: &mut i64,
    nanoseconds: &mut u32,
) -> u32 {
    written(unix::unix_of(timestamp), |time| {
        *seconds = time.seconds;
        *nanoseconds = time.nanoseconds;
    })
}

#[unsafe(no_mangle)]
pub extern "C" fn independent_timestamp_of_unix_time(
    seconds: i64,
    nanoseconds: u32,
    timestamp: &mut u64,
) -> u32 {
    let answer = unix::timestamp_of(&UnixTime { seconds, nanoseconds });
    written(answer, |answer| *timestamp = answer)
}

#[unsafe(no_mangle)]
pub unsafe extern "C" fn independent_write_count(
    count: u32,
    buffer: *mut u8,
    buffer_length: usize,
) -> u32 {
    let buffer = unsafe { lent_mut(buffer, buffer_length) };
    refusal::number_of(&time_protocol::answer(count, buffer)).into()
}

#[unsafe(no_mangle)]
pub unsafe extern "C" fn independent_read_count(
    octets: *const u8,
    octets_length: usize,
    count: &mut u32,
) -> u32 {
    let octets = unsafe { lent(octets, octets_length) };
    written(time_protocol::read(octets), |answer| *count = answer)
}

#[unsafe(no_mangle)]
pub extern "C" fn independent_precision(tick: u64, precision: &mut i32) -> u32 {
    written(precision::precision(tick), |exponent| *precision = exponent.into())
}
