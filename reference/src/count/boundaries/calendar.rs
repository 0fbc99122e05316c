//! The boundaries of the calendar.

use super::Marks;
use crate::calendar::Date;
use crate::count::outcome::Outcome;
use crate::refusal::Refusal::*;

pub fn timestamp(m: &mut Marks, timestamp: u64, answer: &[u8]) {
    m.see("zero", timestamp == 0);
    m.see("one", timestamp == 1);
    m.see("ones", timestamp == u64::MAX);
    m.see("first", timestamp == 1 << 63);
    m.see("last", timestamp == (1 << 63) - 1);
    // Month and day stand after the number and the year.
    let day = answer.get(5..7);
    m.see("leap-day", day == Some(&[2, 29]));
    m.see("year-end", day == Some(&[12, 31]));
}

pub fn date(m: &mut Marks, date: &Date, outcome: Outcome) {
    window(m, date, outcome);
    leap_days(m, date, outcome);
    parts(m, date, outcome);
    let taken = outcome.passed();
    m.see("year=2^32-1", outcome.by(OutsideWindow) && date.year == u32::MAX);
    m.see_each("taken-year-", 1968..=2104, |year| taken && date.year == year);
}

fn window(m: &mut Marks, date: &Date, outcome: Outcome) {
    let outside = outcome.by(OutsideWindow);
    let taken = outcome.passed();
    let day = (date.year, date.month, date.day);
    let time = (date.hour, date.minute, date.second);
    let at = |wanted_day, wanted_time, fraction| {
        (day, time, date.fraction) == (wanted_day, wanted_time, fraction)
    };
    let most = u32::MAX;
    m.see("first-second", taken && at((1968, 1, 20), (3, 14, 8), 0));
    m.see("before-first", outside && at((1968, 1, 20), (3, 14, 7), most));
    m.see("last-second", taken && at((2104, 2, 26), (9, 42, 23), most));
    m.see("after-last", outside && at((2104, 2, 26), (9, 42, 24), 0));
    m.see("zero", outcome.by(TimestampZero) && at((2036, 2, 7), (6, 28, 16), 0));
    m.see("one", taken && at((2036, 2, 7), (6, 28, 16), 1));
    m.see("ones", taken && at((2036, 2, 7), (6, 28, 15), most));
}

fn leap_days(m: &mut Marks, date: &Date, outcome: Outcome) {
    let taken = outcome.passed();
    let none = outcome.by(NoSuchDate);
    let outside = outcome.by(OutsideWindow);
    let day = (date.year, date.month, date.day);
    m.see("2000-02-29", taken && day == (2000, 2, 29));
    m.see("2000-02-30", none && day == (2000, 2, 30));
    m.see("2100-02-28", taken && day == (2100, 2, 28));
    m.see("2100-02-29", none && day == (2100, 2, 29));
    m.see("2100-03-01", taken && day == (2100, 3, 1));
    m.see("1900-02-29", none && day == (1900, 2, 29));
    m.see("0-02-29", outside && day == (0, 2, 29));
    m.see("0-02-30", none && day == (0, 2, 30));
    m.see("2104-02-29", outside && day == (2104, 2, 29));
}

fn parts(m: &mut Marks, date: &Date, outcome: Outcome) {
    let taken = outcome.passed();
    let none = outcome.by(NoSuchDate);
    let month = (1..=12).contains(&date.month);
    m.see_each("month=", [0, 13, 255], |bad| none && date.month == bad);
    m.see_each("day=", [0, 29, 30, 31, 32, 255], |bad| none && month && date.day == bad);
    m.see("hour=24", none && date.hour == 24);
    m.see("hour=23", taken && date.hour == 23);
    m.see("minute=60", none && date.minute == 60);
    m.see("minute=59", taken && date.minute == 59);
    m.see("second=60", none && date.second == 60);
    m.see("second=59", taken && date.second == 59);
}
