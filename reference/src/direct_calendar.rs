//! Timestamps and civil dates worked out directly, for the benchmark: the year is counted from
//! March, so that a leap day is its last one. No answer comes from here.

use crate::calendar::{Date, exists};
use crate::refusal::Refusal::{self, *};

/// Days from 0000-03-01 to 1900-01-01.
const TO_1900: u64 = 693_901;
/// Days of 400 years, of a century without its leap day at the end, and of four years less a day.
const DAYS_400: u64 = 146_097;
const DAYS_100: u64 = 36_524;
const DAYS_4: u64 = 1460;

/// The first second of the window, and the first one after it, counted from 1900.
const WINDOW: std::ops::Range<u64> = 0x8000_0000..0x1_8000_0000;

/// Year, month and day of a day counted from 0000-03-01.
fn day_of(days: u64) -> (u64, u64, u64) {
    let day_of_era = days % DAYS_400;
    let leap_days = day_of_era / DAYS_4 + day_of_era / (DAYS_400 - 1);
    let year_of_era = (day_of_era + day_of_era / DAYS_100 - leap_days) / 365;
    let day_of_year = day_of_era - (365 * year_of_era + year_of_era / 4 - year_of_era / 100);
    let from_march = (5 * day_of_year + 2) / 153;
    let day = day_of_year - (153 * from_march + 2) / 5 + 1;
    let month = if from_march < 10 { from_march + 3 } else { from_march - 9 };
    (days / DAYS_400 * 400 + year_of_era + u64::from(month <= 2), month, day)
}

/// The date of a timestamp.
pub fn date_of(timestamp: u64) -> Result<Date, Refusal> {
    TimestampZero.when(timestamp == 0)?;
    let era = if timestamp >> 63 == 0 { 0x1_0000_0000 } else { 0 };
    let seconds = era + (timestamp >> 32);
    let (year, month, day) = day_of(seconds / 86400 + TO_1900);
    let time = (seconds % 86400) as u32;
    Ok(Date {
        year: year as u32,
        month: month as u8,
        day: day as u8,
        hour: (time / 3600) as u8,
        minute: (time / 60 % 60) as u8,
        second: (time % 60) as u8,
        fraction: timestamp as u32,
    })
}

/// Days from 0000-03-01 to a date of year 1 or later.
fn days_to(year: u64, month: u64, day: u64) -> u64 {
    let (year, from_march) = if month > 2 { (year, month - 3) } else { (year - 1, month + 9) };
    let day_of_year = (153 * from_march + 2) / 5 + day - 1;
    365 * year + year / 4 - year / 100 + year / 400 + day_of_year
}

/// The timestamp of a date.
pub fn timestamp_of(date: &Date) -> Result<u64, Refusal> {
    NoSuchDate.when(!exists(date))?;
    OutsideWindow.when(date.year < 1900)?;
    let days = days_to(date.year.into(), date.month.into(), date.day.into()) - TO_1900;
    let minutes = u64::from(date.hour) * 60 + u64::from(date.minute);
    let seconds = days * 86400 + minutes * 60 + u64::from(date.second);
    OutsideWindow.when(!WINDOW.contains(&seconds))?;
    let timestamp = seconds << 32 | u64::from(date.fraction);
    TimestampZero.when(timestamp == 0)?;
    Ok(timestamp)
}

#[cfg(test)]
mod tests {
    use super::*;
    use crate::calendar;

    #[test]
    fn as_the_walk() {
        for i in 0..200_000u64 {
            let timestamp = i * 92_233_720_368_547;
            let date = calendar::date_of(timestamp);
            assert_eq!(date_of(timestamp), date);
            let back = date.and_then(|date| timestamp_of(&date));
            assert_eq!(back.ok(), (timestamp != 0).then_some(timestamp));
        }
    }

    #[test]
    fn dates_that_are_refused() {
        let years = [0, 1, 1899, 1900, 1967, 1968, 2100, 2103, 2104, 2105, u32::MAX];
        let days = (0..=13).flat_map(|month| (0..=32).map(move |day| (month, day)));
        let dates = years.into_iter().flat_map(|year| days.clone().map(move |day| (year, day)));
        for (year, (month, day)) in dates {
            let date = Date { year, month, day, hour: 9, minute: 42, second: 23, fraction: 1 };
            assert_eq!(timestamp_of(&date), calendar::timestamp_of(&date));
        }
    }
}
