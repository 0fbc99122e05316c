//! The work that `tests/benchmark` measures, ten million times, and the sum of what it gave, modulo
//! 2^32: conversions by a given calendar, and exchanges measured by an ordinary program.

use crate::calendar::{self, Date};
use crate::direct_calendar;
use crate::direct_measure::{self, Measured};
use crate::refusal::Refusal;

const COUNT: u64 = 10_000_000;
/// Units from one timestamp to the next, over the whole window.
const STEP: u64 = 1_844_674_407_370;

fn sum_of(value: impl Fn(u64) -> Result<u64, Refusal>) -> u64 {
    (0..COUNT).fold(0, |sum, i| {
        let value = value(i).unwrap_or_else(|refusal| refusal.number().into());
        (sum + value) % 0x1_0000_0000
    })
}

/// A date as one number.
fn weighed(date: &Date) -> u64 {
    7 * u64::from(date.year)
        + 6 * u64::from(date.month)
        + 5 * u64::from(date.day)
        + 4 * u64::from(date.hour)
        + 3 * u64::from(date.minute)
        + 2 * u64::from(date.second)
}

fn dates(date_of: impl Fn(u64) -> Result<Date, Refusal>) -> u64 {
    sum_of(|i| date_of(i * STEP).map(|date| weighed(&date)))
}

/// The numbers of a date to convert.
fn date_numbers(number: u64) -> [u64; 8] {
    let (month, day) = (1 + number / 137 % 12, 1 + number / 1644 % 31);
    [1968 + number % 137, month, day, number % 24, number % 60, number / 60 % 60, 1, 0]
}

fn date(numbers: &[u64; 8]) -> Date {
    let &[year, month, day, hour, minute, second, fraction, _] = numbers;
    Date {
        year: year as u32,
        month: month as u8,
        day: day as u8,
        hour: hour as u8,
        minute: minute as u8,
        second: second as u8,
        fraction: fraction as u32,
    }
}

/// The dates are read from memory, so that the compiler knows nothing of them.
fn timestamps(timestamp_of: impl Fn(&Date) -> Result<u64, Refusal>) -> u64 {
    let dates: Vec<[u64; 8]> = (0..128).map(|i| date_numbers(i * 39_119)).collect();
    sum_of(|i| timestamp_of(&date(&dates[(i % 128) as usize])).map(|timestamp| timestamp >> 32))
}

/// Four timestamps: the server's clock 0 to 34 years ahead, its hold 0 to 6 units, the whole trip
/// 0 to 999.
fn exchange(number: u64) -> [u64; 4] {
    let sent = number * 0x10_0000_0007;
    let received = sent + number * 0x3F_FFFF_FFFF_FFFF;
    [sent, received, received + number % 7, sent + number * 79 % 1000]
}

fn exchanges() -> u64 {
    let block: Vec<[u64; 4]> = (0..256).map(exchange).collect();
    sum_of(|i| {
        let [t1, t2, t3, t4] = block[(i % 256) as usize];
        let Measured { offset, half, delay } = direct_measure::measure(t1, t2, t3, t4)?;
        Ok(offset as u64 % 0x1_0000_0000 + u64::from(half) + delay as u64 % 0x1_0000_0000)
    })
}

/// The line to be written; none for work that is not known.
pub fn line(way: &str, work: &str) -> Option<String> {
    let sum = match (way, work) {
        ("walk", "D") => dates(calendar::date_of),
        ("walk", "T") => timestamps(calendar::timestamp_of),
        ("direct", "D") => dates(direct_calendar::date_of),
        ("direct", "T") => timestamps(direct_calendar::timestamp_of),
        ("direct", "M") => exchanges(),
        _ => return None,
    };
    Some(format!("{sum:016X}\n"))
}
