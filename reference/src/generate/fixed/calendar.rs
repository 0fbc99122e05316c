//! Fixed lines of the calendar.

use super::{Lines, pairs};
use crate::calendar::Date;
use crate::conformance::call::Call;

const SECONDS: [u64; 9] = [
    2_147_483_648,
    2_208_988_800,
    // The first second of 2000, the last of the year before, and its leap day.
    3_155_673_600,
    3_155_673_599,
    3_160_771_200,
    2_021_563_904,
    2_147_483_647,
    0,
    4_294_967_295,
];

const DATES: [(u32, u8, u8, u8, u8, u8); 31] = [
    (1968, 1, 20, 3, 14, 7),
    (1968, 1, 20, 3, 14, 8),
    (1970, 1, 1, 0, 0, 0),
    (2000, 1, 1, 0, 0, 0),
    (2000, 2, 29, 23, 59, 59),
    (2000, 2, 30, 0, 0, 0),
    (2036, 2, 7, 6, 28, 15),
    (2036, 2, 7, 6, 28, 16),
    (2036, 2, 7, 6, 28, 17),
    (2100, 2, 28, 23, 59, 59),
    (2100, 2, 29, 0, 0, 0),
    (2100, 3, 1, 0, 0, 0),
    (2104, 2, 26, 9, 42, 23),
    (2104, 2, 26, 9, 42, 24),
    (2104, 2, 29, 0, 0, 0),
    (2001, 2, 29, 0, 0, 0),
    (1900, 2, 29, 0, 0, 0),
    (1900, 1, 1, 0, 0, 0),
    (0, 2, 29, 0, 0, 0),
    (0, 2, 30, 0, 0, 0),
    (u32::MAX, 12, 31, 23, 59, 59),
    (u32::MAX, 2, 29, 0, 0, 0),
    (2000, 0, 1, 0, 0, 0),
    (2000, 13, 1, 0, 0, 0),
    (2000, 255, 1, 0, 0, 0),
    (2000, 1, 0, 0, 0, 0),
    (2000, 1, 32, 0, 0, 0),
    (2000, 1, 255, 0, 0, 0),
    (2000, 1, 1, 24, 0, 0),
    (2000, 1, 1, 0, 60, 0),
    (2000, 1, 1, 0, 0, 60),
];

fn put_timestamps(lines: &mut Lines) {
    for (seconds, fraction) in pairs(&SECONDS, &[0, 1, 4_294_967_295]) {
        lines.call(Call::DateOfTimestamp { timestamp: seconds << 32 | fraction });
    }
}

fn put_dates(lines: &mut Lines) {
    for ((year, month, day, hour, minute, second), fraction) in pairs(&DATES, &[0, 1, u32::MAX]) {
        let date = Date { year, month, day, hour, minute, second, fraction };
        lines.call(Call::TimestampOfDate { date });
    }
}

/// A date of each year of the window.
fn put_years(lines: &mut Lines) {
    for year in 1968..=2104 {
        let date = Date { year, month: 2, day: 1, ..Date::default() };
        lines.call(Call::TimestampOfDate { date });
    }
}

pub fn put_lines(lines: &mut Lines) {
    put_timestamps(lines);
    put_dates(lines);
    put_years(lines);
}
