//! Differences, offset and delay of timestamps, all in i128:
//! docs/RULES.md, "Timestamps and their differences".

use crate::refusal::Refusal::{self, *};
use std::cmp::Ordering;

pub const ZERO: u64 = 0;
pub const SECOND: u64 = 4_294_967_296;
pub const LIMIT: u64 = 16 * SECOND;

const WRAP: i128 = 18_446_744_073_709_551_616;

#[derive(Clone, Copy, PartialEq, Eq, Debug, Default)]
pub struct Measured {
    pub offset: i64,
    pub half: u8,
    pub delay: i64,
}

impl Measured {
    /// Appends offset, half and delay as both line formats have them.
    pub fn put(&self, out: &mut Vec<u8>) {
        out.extend(self.offset.to_be_bytes());
        out.push(self.half);
        out.extend(self.delay.to_be_bytes());
    }
}

/// x - y modulo 2^64, read as a signed number. None where the two are half a circle apart: neither
/// is before the other.
pub fn difference(x: u64, y: u64) -> Option<i128> {
    let plain = i128::from(x) - i128::from(y);
    match plain.abs().cmp(&(WRAP / 2)) {
        Ordering::Less => Some(plain),
        Ordering::Equal => None,
        Ordering::Greater => Some(plain - plain.signum() * WRAP),
    }
}

/// The difference of two that must have an order.
pub fn ordered_difference(x: u64, y: u64) -> Result<i128, Refusal> {
    difference(x, y).ok_or(NoOrder)
}

/// The greatest whole number not above sum / 2, and what is left over.
pub fn halve(sum: i128) -> (i128, u8) {
    let (toward_zero, rest) = (sum / 2, sum % 2);
    match rest {
        0 => (toward_zero, 0),
        1 => (toward_zero, 1),
        _ => (toward_zero - 1, 1),
    }
}

/// Offset, half and delay of four timestamps.
pub fn measure(t1: u64, t2: u64, t3: u64, t4: u64) -> Result<Measured, Refusal> {
    let elapsed = ordered_difference(t4, t1)?;
    ArrivedBeforeSent.when(elapsed < 0)?;
    ArrivedTooLate.when(elapsed > i128::from(LIMIT))?;
    let hold = ordered_difference(t3, t2)?;
    AnsweredBeforeReceived.when(hold < 0)?;
    let delay = elapsed - hold;
    DelayNegative.when(delay < 0)?;
    let first = ordered_difference(t2, t1)?;
    let second = ordered_difference(t3, t4)?;
    FirstBelowSecond.when(first < second)?;
    let (offset, half) = halve(first + second);
    Ok(Measured { offset: offset as i64, half, delay: delay as i64 })
}

#[cfg(test)]
mod tests {
    use super::*;

    const T: u64 = SECOND;

    fn good(offset: i64, half: u8, delay: i64) -> Result<Measured, Refusal> {
        Ok(Measured { offset, half, delay })
    }

    #[test]
    fn figures() {
        assert_eq!(measure(T, T, T, T), good(0, 0, 0));
        assert_eq!(measure(T, T, T, T + 1), good(-1, 1, 1));
        assert_eq!(measure(T, T, T, T + (1 << 36)), good(-(1 << 35), 0, 1 << 36));
        assert_eq!(measure(T, T, T, T + (1 << 36) + 1), Err(ArrivedTooLate));
        assert_eq!(measure(T, T, T, T - 1), Err(ArrivedBeforeSent));
        assert_eq!(measure(T, T, T + 6, T + 5), Err(DelayNegative));
        assert_eq!(measure(T, T, T - 1, T), Err(AnsweredBeforeReceived));
    }

    #[test]
    fn across_2036() {
        let t1 = 0xFFFF_FFFA_0000_0000;
        let t2 = 0x0000_0004_8000_0000;
        let t3 = 0x0000_0005_8000_0000;
        let t4 = 0xFFFF_FFFB_C000_0000;
        assert_eq!(measure(t1, t2, t3, t4), good(43_486_543_872, 0, 3_221_225_472));
    }

    /// Half a circle.
    const HALF: u64 = 1 << 63;
    /// Half a circle from T.
    const FAR: u64 = T + HALF;

    #[test]
    fn differences_at_the_ends() {
        assert_eq!(difference(0, u64::MAX), Some(1));
        assert_eq!(difference(u64::MAX, 0), Some(-1));
        assert_eq!(difference(0, 0), Some(0));
    }

    #[test]
    fn differences_about_half_a_circle() {
        for y in [0, 1, T, HALF - 1, HALF, HALF + 1, u64::MAX] {
            let far = y.wrapping_add(HALF);
            assert_eq!(difference(far, y), None);
            assert_eq!(difference(far.wrapping_sub(1), y), Some(WRAP / 2 - 1));
            assert_eq!(difference(far.wrapping_add(1), y), Some(1 - WRAP / 2));
        }
    }

    #[test]
    fn both_ways() {
        let times = [0, 1, 2, T, HALF - 1, HALF, HALF + 1, FAR, u64::MAX - 1, u64::MAX];
        for (x, y) in times.iter().flat_map(|&x| times.map(|y| (x, y))) {
            assert_eq!(difference(x, y), difference(y, x).map(|d| -d));
            assert_eq!(difference(x, y).is_none(), x ^ y == HALF);
        }
    }

    #[test]
    fn no_order_before_each_test() {
        // T4 - T1.
        assert_eq!(measure(T, T, T, FAR - 1), Err(ArrivedTooLate));
        assert_eq!(measure(T, T, T, FAR), Err(NoOrder));
        assert_eq!(measure(T, T, T, FAR + 1), Err(ArrivedBeforeSent));
        // T3 - T2.
        assert_eq!(measure(T, T, FAR - 1, T), Err(DelayNegative));
        assert_eq!(measure(T, T, FAR, T), Err(NoOrder));
        assert_eq!(measure(T, T, FAR + 1, T), Err(AnsweredBeforeReceived));
        // P, where Q has no order either and where it has one.
        assert_eq!(measure(T, FAR - 1, FAR - 1, T), good(i64::MAX, 0, 0));
        assert_eq!(measure(T, FAR, FAR, T), Err(NoOrder));
        assert_eq!(measure(T, FAR, FAR + 1, T + 2), Err(NoOrder));
        assert_eq!(measure(T, FAR + 1, FAR + 1, T), good(-i64::MAX, 0, 0));
        // Q, and P is on either side.
        assert_eq!(measure(T, FAR + 5, FAR + 7, T + 6), good(-i64::MAX + 2, 0, 4));
        assert_eq!(measure(T, FAR + 5, FAR + 7, T + 7), Err(NoOrder));
        assert_eq!(measure(T, FAR + 5, FAR + 7, T + 8), Err(FirstBelowSecond));
    }

    #[test]
    fn earlier_tests_before_no_order() {
        // T3 - T2.
        assert_eq!(measure(T, T, FAR, T - 1), Err(ArrivedBeforeSent));
        assert_eq!(measure(T, T, FAR, T + LIMIT + 1), Err(ArrivedTooLate));
        // P, and then Q.
        assert_eq!(measure(T, FAR, FAR, T - 1), Err(ArrivedBeforeSent));
        assert_eq!(measure(T, FAR, FAR, T + LIMIT + 1), Err(ArrivedTooLate));
        assert_eq!(measure(T, FAR, FAR - 1, T), Err(AnsweredBeforeReceived));
        assert_eq!(measure(T, FAR, FAR + 6, T + 5), Err(DelayNegative));
        assert_eq!(measure(T, FAR - 2, FAR - 1, T - 1), Err(ArrivedBeforeSent));
        assert_eq!(measure(T, FAR + 7, FAR + 5, T + 5), Err(AnsweredBeforeReceived));
        assert_eq!(measure(T, FAR - 1, FAR + 5, T + 5), Err(DelayNegative));
    }

    #[test]
    fn no_order_before_later_tests() {
        assert_eq!(measure(T, T, T - 1, FAR), Err(NoOrder));
        assert_eq!(measure(T, T, FAR, FAR), Err(NoOrder));
        assert_eq!(measure(T, T + 1, FAR + 1, T), Err(NoOrder));
    }

    #[test]
    fn halves() {
        assert_eq!(halve(-1), (-1, 1));
        assert_eq!(halve(-2), (-1, 0));
        assert_eq!(halve(1), (0, 1));
        assert_eq!(halve(-WRAP), (-(1 << 63), 0));
        assert_eq!(halve(1 - WRAP), (-(1 << 63), 1));
        assert_eq!(halve(WRAP - 2), ((1 << 63) - 1, 0));
        assert_eq!(halve(WRAP - 3), ((1 << 63) - 2, 1));
    }
}
