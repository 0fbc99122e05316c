//! Timestamps and civil dates, by walking year by year and month by month:
//! docs/RULES.md, "The calendar".

use crate::refusal::Refusal::{self, *};

pub const DAY: i128 = 86400;
/// Seconds from the start of 2036 to 06:28:16 on 7 February, from where a clear top bit counts.
const SECOND_ERA: i128 = (31 + 6) * DAY + 6 * 3600 + 28 * 60 + 16;
const ERA: i128 = 1 << 32;
/// The first second of the window, and the first one after it, counted from 1900.
const WINDOW: std::ops::Range<i128> = ERA / 2..ERA / 2 + ERA;

#[derive(Clone, Copy, PartialEq, Eq, Debug, Default)]
pub struct Date {
    pub year: u32,
    pub month: u8,
    pub day: u8,
    pub hour: u8,
    pub minute: u8,
    pub second: u8,
    pub fraction: u32,
}

pub fn leap(year: u32) -> bool {
    if year.is_multiple_of(100) { year.is_multiple_of(400) } else { year.is_multiple_of(4) }
}

/// Days of a month 1 to 12.
pub fn month_days(year: u32, month: u8) -> u8 {
    match month {
        2 if leap(year) => 29,
        2 => 28,
        4 | 6 | 9 | 11 => 30,
        _ => 31,
    }
}

pub fn year_days(year: u32) -> i128 {
    if leap(year) { 366 } else { 365 }
}

/// The year, and days since its start, of a day counted from the start of `year`.
fn walk_years(mut year: u32, mut days: i128) -> (u32, i128) {
    while days >= year_days(year) {
        days -= year_days(year);
        year += 1;
    }
    (year, days)
}

/// The month, and days since its start, of a day counted from the start of a year.
fn walk_months(year: u32, mut days: i128) -> (u8, i128) {
    let mut month = 1;
    while days >= month_days(year, month).into() {
        days -= i128::from(month_days(year, month));
        month += 1;
    }
    (month, days)
}

/// The date of a timestamp.
pub fn date_of(timestamp: u64) -> Result<Date, Refusal> {
    TimestampZero.when(timestamp == 0)?;
    let seconds = i128::from(timestamp >> 32);
    let (first_year, since) =
        if seconds >= ERA / 2 { (1900, seconds) } else { (2036, seconds + SECOND_ERA) };
    Ok(date_from(first_year, since, timestamp as u32))
}

/// The date so many seconds after the start of a year.
pub fn date_from(first_year: u32, since: i128, fraction: u32) -> Date {
    let (year, days) = walk_years(first_year, since / DAY);
    let (month, days) = walk_months(year, days);
    let time = since % DAY;
    Date {
        year,
        month,
        day: days as u8 + 1,
        hour: (time / 3600) as u8,
        minute: (time / 60 % 60) as u8,
        second: (time % 60) as u8,
        fraction,
    }
}

/// Whether there is such a date and time, in any year.
pub fn exists(date: &Date) -> bool {
    (1..=12).contains(&date.month)
        && (1..=month_days(date.year, date.month)).contains(&date.day)
        && date.hour < 24
        && date.minute < 60
        && date.second < 60
}

/// Seconds from the start of 1900 to a date of 1900 or later.
fn seconds_from_1900(date: &Date) -> i128 {
    let years: i128 = (1900..date.year).map(year_days).sum();
    years * DAY + seconds_of_year(date)
}

/// Seconds from the start of its year to a date.
pub fn seconds_of_year(date: &Date) -> i128 {
    let months: i128 = (1..date.month).map(|month| i128::from(month_days(date.year, month))).sum();
    let days = months + i128::from(date.day) - 1;
    let minutes = i128::from(date.hour) * 60 + i128::from(date.minute);
    days * DAY + minutes * 60 + i128::from(date.second)
}

/// The timestamp of a date.
pub fn timestamp_of(date: &Date) -> Result<u64, Refusal> {
    NoSuchDate.when(!exists(date))?;
    // Far from the window no walk is needed.
    OutsideWindow.when(!(1900..=2200).contains(&date.year))?;
    let seconds = seconds_from_1900(date);
    OutsideWindow.when(!WINDOW.contains(&seconds))?;
    let timestamp = (seconds % ERA) * ERA + i128::from(date.fraction);
    TimestampZero.when(timestamp == 0)?;
    Ok(timestamp as u64)
}

#[cfg(test)]
mod tests {
    use super::*;

    fn at(date: (u32, u8, u8), time: (u8, u8, u8), fraction: u32) -> Date {
        let ((year, month, day), (hour, minute, second)) = (date, time);
        Date { year, month, day, hour, minute, second, fraction }
    }

    fn both(seconds: u32, fraction: u32, date: Date) {
        let t = u64::from(seconds) << 32 | u64::from(fraction);
        assert_eq!(date_of(t), Ok(date));
        assert_eq!(timestamp_of(&date), Ok(t));
    }

    #[test]
    fn figures() {
        both(2_147_483_648, 0, at((1968, 1, 20), (3, 14, 8), 0));
        both(2_208_988_800, 0, at((1970, 1, 1), (0, 0, 0), 0));
        both(3_155_673_600, 0, at((2000, 1, 1), (0, 0, 0), 0));
        both(2_021_563_904, 0, at((2100, 3, 1), (0, 0, 0), 0));
        both(2_021_563_903, 7, at((2100, 2, 28), (23, 59, 59), 7));
        both(0, 1, at((2036, 2, 7), (6, 28, 16), 1));
        both(u32::MAX, u32::MAX, at((2036, 2, 7), (6, 28, 15), u32::MAX));
        both(2_147_483_647, u32::MAX, at((2104, 2, 26), (9, 42, 23), u32::MAX));
        assert_eq!(timestamp_of(&at((2100, 2, 29), (0, 0, 0), 0)), Err(NoSuchDate));
        assert_eq!(date_of(0), Err(TimestampZero));
        assert_eq!(timestamp_of(&at((2036, 2, 7), (6, 28, 16), 0)), Err(TimestampZero));
    }

    #[test]
    fn outside_the_window() {
        let refused = [
            at((1968, 1, 20), (3, 14, 7), u32::MAX),
            at((2104, 2, 26), (9, 42, 24), 0),
            at((0, 2, 29), (0, 0, 0), 0),
            at((u32::MAX, 12, 31), (0, 0, 0), 0),
        ];
        for date in refused {
            assert_eq!(timestamp_of(&date), Err(OutsideWindow), "{date:?}");
        }
    }

    #[test]
    fn no_such_dates() {
        let refused = [
            at((1900, 2, 29), (0, 0, 0), 0),
            at((u32::MAX, 2, 29), (0, 0, 0), 0),
            at((2000, 0, 1), (0, 0, 0), 0),
            at((2000, 13, 1), (0, 0, 0), 0),
            at((2000, 255, 1), (0, 0, 0), 0),
            at((2000, 1, 0), (0, 0, 0), 0),
            at((2000, 1, 1), (24, 0, 0), 0),
            at((2000, 1, 1), (0, 60, 0), 0),
            at((2000, 1, 1), (0, 0, 60), 0),
        ];
        for date in refused {
            assert_eq!(timestamp_of(&date), Err(NoSuchDate), "{date:?}");
        }
        assert!(timestamp_of(&at((2000, 2, 29), (23, 59, 59), 0)).is_ok());
    }

    #[test]
    fn there_and_back() {
        for seconds in (1..1 << 32).step_by(40_009) {
            let t = seconds << 32 | 5;
            assert_eq!(timestamp_of(&date_of(t).unwrap()), Ok(t));
        }
    }
}
