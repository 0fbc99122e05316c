//! A ledger that pays corrections out slowly, all in i128: docs/RULES.md, "The ledger". Every
//! amount is a signed number of half units.

use crate::refusal::Refusal::{self, *};

/// The debt of a ledger just opened.
pub const OPENED: i64 = 0;
/// No debt has this size.
pub const DEBT_LIMIT: i128 = 1 << 50;
/// No entry has this size.
pub const ENTRY_LIMIT: i128 = 1 << 41;
/// The largest limit of a tick.
pub const TICK_LIMIT: u64 = 1 << 32;

/// What a tick paid, and the debt after it.
#[derive(Clone, Copy, PartialEq, Eq, Debug)]
pub struct Payment {
    pub paid: i64,
    pub debt: i64,
}

/// What an accepted offset and its half come to.
pub fn amount(offset: i64, half: u8) -> i128 {
    2 * i128::from(offset) + i128::from(half)
}

fn legal(debt: i64) -> bool {
    i128::from(debt).abs() < DEBT_LIMIT
}

/// Takes an entry, and hands the debt after it back.
pub fn entry(debt: i64, offset: i64, half: u8) -> Result<i64, Refusal> {
    RecordNotLegal.when(!legal(debt))?;
    let amount = amount(offset, half);
    EntryTooLarge.when(half > 1 || amount.abs() >= ENTRY_LIMIT)?;
    let sum = i128::from(debt) + amount;
    DebtTooLarge.when(sum.abs() >= DEBT_LIMIT)?;
    Ok(sum as i64)
}

/// Pays toward zero.
pub fn tick(debt: i64, limit: u64) -> Result<Payment, Refusal> {
    RecordNotLegal.when(!legal(debt))?;
    LimitOutOfRange.when(!(1..=TICK_LIMIT).contains(&limit))?;
    let owed = i128::from(debt);
    let paid = owed.signum() * i128::from(limit).min(owed.abs());
    Ok(Payment { paid: paid as i64, debt: (owed - paid) as i64 })
}

#[cfg(test)]
mod tests {
    use super::*;

    const D: i64 = 1 << 50;
    const E: i64 = 1 << 40;
    const L: u64 = 1 << 32;

    #[test]
    fn entries_of_either_sign() {
        assert_eq!(entry(OPENED, 0, 0), Ok(0));
        assert_eq!(entry(7, 0, 0), Ok(7));
        assert_eq!(entry(7, 3, 1), Ok(14));
        assert_eq!(entry(7, -4, 1), Ok(0));
        assert_eq!(entry(0, -1, 1), Ok(-1));
        assert_eq!(entry(0, E - 1, 1), Ok(2 * E - 1));
        assert_eq!(entry(0, E, 0), Err(EntryTooLarge));
        assert_eq!(entry(0, -E, 1), Ok(1 - 2 * E));
        assert_eq!(entry(0, -E, 0), Err(EntryTooLarge));
        assert_eq!(entry(0, -E - 1, 1), Err(EntryTooLarge));
    }

    #[test]
    fn halves_over_1() {
        for half in [2, 3, 128, 255] {
            assert_eq!(entry(5, 0, half), Err(EntryTooLarge));
            assert_eq!(entry(5, -1, half), Err(EntryTooLarge));
        }
    }

    #[test]
    fn offsets_at_the_ends() {
        for offset in [i64::MIN, i64::MAX, 1 << 62, -(1 << 62), (1 << 62) - 1] {
            let refused = [0, 1, 255].map(|half| entry(-5, offset, half));
            assert_eq!(refused, [Err(EntryTooLarge); 3]);
            let refused = [0, 1, 255].map(|half| entry(D, offset, half));
            assert_eq!(refused, [Err(RecordNotLegal); 3]);
        }
    }

    #[test]
    fn debts_at_the_limit() {
        assert_eq!(entry(D - 2, 0, 1), Ok(D - 1));
        assert_eq!(entry(D - 1, 0, 1), Err(DebtTooLarge));
        assert_eq!(entry(D - 1, -1, 1), Ok(D - 2));
        assert_eq!(entry(2 - D, -1, 1), Ok(1 - D));
        assert_eq!(entry(1 - D, -1, 1), Err(DebtTooLarge));
        assert_eq!(entry(1 - D, 0, 1), Ok(2 - D));
        assert_eq!(entry(D - 1, E, 0), Err(EntryTooLarge));
        assert_eq!(tick(D - 1, L), Ok(Payment { paid: 1 << 32, debt: D - 1 - (1 << 32) }));
        assert_eq!(tick(1 - D, 1), Ok(Payment { paid: -1, debt: 2 - D }));
    }

    #[test]
    fn debts_that_are_not_legal() {
        for debt in [D, -D, D + 1, i64::MIN, i64::MAX] {
            assert_eq!(entry(debt, -1, 1), Err(RecordNotLegal));
            assert_eq!(entry(debt, E, 2), Err(RecordNotLegal));
            assert_eq!(tick(debt, 1), Err(RecordNotLegal));
            assert_eq!(tick(debt, 0), Err(RecordNotLegal));
        }
    }

    #[test]
    fn ticks_pay_the_smaller() {
        for (debt, paid) in [(0, 0), (99, 99), (100, 100), (101, 100), (-99, -99), (-101, -100)] {
            assert_eq!(tick(debt, 100), Ok(Payment { paid, debt: debt - paid }));
        }
        assert_eq!(tick(0, L), Ok(Payment { paid: 0, debt: 0 }));
        assert_eq!(tick(-3, L), Ok(Payment { paid: -3, debt: 0 }));
        assert_eq!(tick(3, 1), Ok(Payment { paid: 1, debt: 2 }));
    }

    #[test]
    fn limits_out_of_range() {
        for limit in [0, L + 1, 1 << 63, u64::MAX] {
            assert_eq!(tick(0, limit), Err(LimitOutOfRange));
            assert_eq!(tick(-3, limit), Err(LimitOutOfRange));
        }
    }
}
