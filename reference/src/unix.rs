//! Timestamps and Unix times, by way of civil dates: docs/RULES.md, "The calendar".

use crate::calendar::{self, DAY, date_from, year_days};
use crate::refusal::Refusal::{self, *};

const BILLION: i128 = 1_000_000_000;
/// Units of 2^-32 s in a second.
const UNITS: i128 = 1 << 32;
/// Every date of the window lies in these years.
const YEARS: std::ops::Range<u32> = 1960..2110;

#[derive(Clone, Copy, PartialEq, Eq, Debug, Default)]
pub struct UnixTime {
    pub seconds: i64,
    pub nanoseconds: u32,
}

/// Days from the start of 1970 to the start of a year, below zero for one before it.
fn days_to(year: u32) -> i128 {
    let after: i128 = (1970..year).map(year_days).sum();
    let before: i128 = (year..1970).map(year_days).sum();
    after - before
}

/// The Unix time of a timestamp, nanoseconds rounded down.
pub fn unix_of(timestamp: u64) -> Result<UnixTime, Refusal> {
    let date = calendar::date_of(timestamp)?;
    let seconds = days_to(date.year) * DAY + calendar::seconds_of_year(&date);
    let nanoseconds = (i128::from(date.fraction) * BILLION).div_euclid(UNITS);
    Ok(UnixTime { seconds: seconds as i64, nanoseconds: nanoseconds as u32 })
}

/// The timestamp of a Unix time, fraction rounded up.
pub fn timestamp_of(time: &UnixTime) -> Result<u64, Refusal> {
    let nanoseconds = i128::from(time.nanoseconds);
    NoSuchDate.when(nanoseconds >= BILLION)?;
    let fraction = -(-nanoseconds * UNITS).div_euclid(BILLION);
    let since = i128::from(time.seconds) - days_to(YEARS.start) * DAY;
    // Far from the window no walk is needed.
    let all = (days_to(YEARS.end) - days_to(YEARS.start)) * DAY;
    OutsideWindow.when(!(0..all).contains(&since))?;
    calendar::timestamp_of(&date_from(YEARS.start, since, fraction as u32))
}

#[cfg(test)]
mod tests {
    use super::*;
    use crate::random::Random;

    fn unix(seconds: i64, nanoseconds: u32) -> UnixTime {
        UnixTime { seconds, nanoseconds }
    }

    /// The first and the last second of the window, and the second that has the timestamp zero.
    const FIRST: i64 = -61_505_152;
    const LAST: i64 = 4_233_462_143;
    const ERA_1: i64 = 2_085_978_496;

    #[test]
    fn seconds() {
        for (seconds, wanted) in [
            (2_208_988_800, 0),
            (2_208_988_799, -1),
            (1 << 31, FIRST),
            ((1 << 31) - 1, LAST),
            (u64::from(u32::MAX), ERA_1 - 1),
            (1, ERA_1 + 1),
            // 2000-01-01, 2038-01-19 03:14:08 and 2100-03-01.
            (3_155_673_600, 946_684_800),
            (61_505_152, 1 << 31),
            (2_021_563_904, 4_107_542_400),
        ] {
            assert_eq!(unix_of(seconds << 32), Ok(unix(wanted, 0)));
            assert_eq!(timestamp_of(&unix(wanted, 0)), Ok(seconds << 32));
            assert_eq!(unix_of(seconds << 32 | 0xFFFF_FFFF), Ok(unix(wanted, 999_999_999)));
        }
    }

    #[test]
    fn fractions_in_the_second_of_the_timestamp_zero() {
        assert_eq!(unix_of(0), Err(TimestampZero));
        for fraction in 1..=4 {
            assert_eq!(unix_of(fraction), Ok(unix(ERA_1, 0)));
        }
        assert_eq!(timestamp_of(&unix(ERA_1, 0)), Err(TimestampZero));
        assert_eq!(unix_of(5), Ok(unix(ERA_1, 1)));
        assert_eq!(timestamp_of(&unix(ERA_1, 1)), Ok(5));
    }

    #[test]
    fn order() {
        for seconds in [i64::MIN, FIRST - 1, FIRST, ERA_1, LAST, LAST + 1, i64::MAX] {
            for nanoseconds in [1_000_000_000, u32::MAX] {
                assert_eq!(timestamp_of(&unix(seconds, nanoseconds)), Err(NoSuchDate));
            }
        }
        for nanoseconds in [0, 1, 999_999_999] {
            for seconds in [i64::MIN, FIRST - 1, LAST + 1, i64::MAX] {
                assert_eq!(timestamp_of(&unix(seconds, nanoseconds)), Err(OutsideWindow));
            }
            assert!(timestamp_of(&unix(FIRST, nanoseconds)).is_ok());
            assert!(timestamp_of(&unix(LAST, nanoseconds)).is_ok());
        }
        assert_eq!(timestamp_of(&unix(LAST, 999_999_999)), Ok((1 << 63) - 4));
    }

    #[test]
    fn there_and_back() {
        let mut r = Random::new(5);
        for _ in 0..20_000 {
            let nanoseconds = r.below(1_000_000_000) as u32;
            let time = unix(FIRST + r.below(1 << 32) as i64, nanoseconds);
            if let Ok(timestamp) = timestamp_of(&time) {
                assert_eq!(unix_of(timestamp), Ok(time));
            }
            let timestamp = r.number();
            let back = timestamp_of(&unix_of(timestamp).unwrap()).unwrap();
            // Less than a nanosecond is at most 4 units.
            assert!((back..=back + 4).contains(&timestamp));
        }
    }
}
