//! The boundaries of the ledger. `run` stands for a call that got the debt of the call before,
//! from debt zero on.

use super::Marks;
use crate::count::outcome::Outcome;
use crate::ledger::{DEBT_LIMIT, ENTRY_LIMIT, amount};
use crate::refusal::Refusal::*;

const DEBT: i64 = DEBT_LIMIT as i64;

/// The debt at the end of an answer.
pub fn handed_back(answer: &[u8]) -> Option<i64> {
    answer.last_chunk().map(|octets| i64::from_be_bytes(*octets))
}

/// Both sides of test 29, in either call.
fn debts(m: &mut Marks, debt: i64, outcome: Outcome) {
    let legal = outcome.passed();
    let refused = outcome.by(RecordNotLegal);
    m.see("debt=0", legal && debt == 0);
    m.see("debt=1", legal && debt == 1);
    m.see("debt=-1", legal && debt == -1);
    m.see("debt=2^50-1", legal && debt == DEBT - 1);
    m.see("debt=-2^50+1", legal && debt == 1 - DEBT);
    m.see("debt=2^50", refused && debt == DEBT);
    m.see("debt=-2^50", refused && debt == -DEBT);
    m.see("debt=2^63-1", refused && debt == i64::MAX);
    m.see("debt=-2^63", refused && debt == i64::MIN);
}

pub fn entry(m: &mut Marks, debt: i64, (offset, half): (i64, u8), outcome: Outcome, run: bool) {
    let amount = amount(offset, half);
    debts(m, debt, outcome);
    halves(m, offset, half, outcome);
    // Sizes count only where the half is right.
    let right = half < 2;
    sizes(m, amount, outcome, right);
    sums(m, debt.into(), amount, outcome, right);
    order(m, debt.into(), amount, outcome, right);
    runs_of_entries(m, debt, amount, outcome, run);
}

fn halves(m: &mut Marks, offset: i64, half: u8, outcome: Outcome) {
    let taken = outcome.passed();
    let refused = outcome.by(EntryTooLarge);
    let small = amount(offset, half).abs() < ENTRY_LIMIT;
    let most = refused && offset == i64::MAX;
    let least = refused && offset == i64::MIN;
    m.see_each("half-", [0, 1], |h| taken && half == h);
    m.see_each("below-zero-half-", [0, 1], |h| taken && offset < 0 && half == h);
    m.see_each("offset=2^63-1-half-", [0, 1], |h| most && half == h);
    m.see_each("offset=-2^63-half-", [0, 1], |h| least && half == h);
    m.see_each("refused-half-", [2, 255], |h| refused && small && half == h);
    m.see("half-and-size", refused && half > 1 && !small);
    m.see("29-before-half", outcome.by(RecordNotLegal) && half > 1);
    m.see("29-before-size", outcome.by(RecordNotLegal) && half < 2 && !small);
}

fn sizes(m: &mut Marks, amount: i128, outcome: Outcome, right: bool) {
    let taken = right && outcome.passed();
    let large = right && outcome.by(EntryTooLarge);
    m.see("entry=0", taken && amount == 0);
    m.see("entry=1", taken && amount == 1);
    m.see("entry=-1", taken && amount == -1);
    m.see("entry=2^41-1", taken && amount == ENTRY_LIMIT - 1);
    m.see("entry=2^41", large && amount == ENTRY_LIMIT);
    m.see("entry=-2^41+1", taken && amount == 1 - ENTRY_LIMIT);
    m.see("entry=-2^41", large && amount == -ENTRY_LIMIT);
    m.see("entry=2^63-1", large && amount == (1 << 63) - 1);
    m.see("entry=2^63", large && amount == 1 << 63);
    m.see("entry=-2^63", large && amount == -(1 << 63));
    m.see("entry=2^64-1", large && amount == (1 << 64) - 1);
    m.see("entry=-2^64", large && amount == -(1 << 64));
}

fn sums(m: &mut Marks, debt: i128, amount: i128, outcome: Outcome, right: bool) {
    let taken = right && outcome.passed();
    let refused = right && outcome.by(DebtTooLarge);
    let sum = debt + amount;
    m.see("sum=0", taken && sum == 0 && debt != 0);
    m.see("sum=2^50-1", taken && sum == DEBT_LIMIT - 1 && amount != 0);
    m.see("sum=2^50", refused && sum == DEBT_LIMIT);
    m.see("sum=-2^50+1", taken && sum == 1 - DEBT_LIMIT && amount != 0);
    m.see("sum=-2^50", refused && sum == -DEBT_LIMIT);
    m.see("sum-by-largest", refused && amount.abs() == ENTRY_LIMIT - 1);
    m.see("through-zero-down", taken && debt > 0 && sum < 0);
    m.see("through-zero-up", taken && debt < 0 && sum > 0);
}

fn order(m: &mut Marks, debt: i128, amount: i128, outcome: Outcome, right: bool) {
    let illegal = right && outcome.by(RecordNotLegal);
    let fits = (debt + amount).abs() < DEBT_LIMIT;
    let small = amount.abs() < ENTRY_LIMIT;
    m.see("29-though-sum-fits", illegal && debt == DEBT_LIMIT && amount < 0 && fits);
    m.see("29-though-sum-fits-below", illegal && debt == -DEBT_LIMIT && amount > 0 && fits);
    m.see("29-before-31", illegal && small && !fits);
    m.see("30-before-31", right && outcome.by(EntryTooLarge) && !fits);
}

fn runs_of_entries(m: &mut Marks, debt: i64, amount: i128, outcome: Outcome, run: bool) {
    let taken = run && outcome.passed();
    let too_large = run && outcome.by(DebtTooLarge);
    m.see("run-taken", taken && amount > 0);
    m.see("run-taken-below", taken && amount < 0);
    m.see("run-30", run && outcome.by(EntryTooLarge) && debt != 0);
    m.see("run-31", too_large && debt > 0);
    m.see("run-31-below", too_large && debt < 0);
    m.see("run-debt=2^50-1", run && debt == DEBT - 1);
    m.see("run-debt=-2^50+1", run && debt == 1 - DEBT);
}

pub fn tick(m: &mut Marks, debt: i64, limit: u64, answer: &[u8], outcome: Outcome, run: bool) {
    debts(m, debt, outcome);
    limits(m, debt, limit, outcome);
    debts_about_limit(m, debt.into(), limit.into(), outcome);
    runs_of_ticks(m, debt, answer, outcome, run);
}

fn limits(m: &mut Marks, debt: i64, limit: u64, outcome: Outcome) {
    let pays = outcome.passed();
    let refused = outcome.by(LimitOutOfRange);
    m.see("limit=0", refused && limit == 0);
    m.see("limit=1", pays && limit == 1);
    m.see("limit=2^32", pays && limit == 1 << 32);
    m.see("limit=2^32+1", refused && limit == (1 << 32) + 1);
    m.see("limit=2^63", refused && limit == 1 << 63);
    m.see("limit=2^64-1", refused && limit == u64::MAX);
    m.see("29-before-32", outcome.by(RecordNotLegal) && limit == 0);
    m.see("32-without-debt", refused && debt == 0);
    m.see("32-with-debt", refused && debt > 0);
    m.see("32-with-debt-below", refused && debt < 0);
}

fn debts_about_limit(m: &mut Marks, debt: i128, limit: i128, outcome: Outcome) {
    let pays = outcome.passed();
    let most = pays && limit == 1 << 32;
    m.see("debt=limit-1", pays && limit > 1 && debt == limit - 1);
    m.see("debt=limit", pays && debt == limit);
    m.see("debt=limit+1", pays && debt == limit + 1);
    m.see("debt=-limit+1", pays && limit > 1 && debt == 1 - limit);
    m.see("debt=-limit", pays && debt == -limit);
    m.see("debt=-limit-1", pays && debt == -limit - 1);
    m.see("debt=limit=2^32", most && debt == limit);
    m.see("debt=-limit=-2^32", most && debt == -limit);
}

fn runs_of_ticks(m: &mut Marks, debt: i64, answer: &[u8], outcome: Outcome, run: bool) {
    let pays = run && outcome.passed();
    let out = handed_back(answer) == Some(0);
    m.see("run-paid", pays && debt > 0);
    m.see("run-paid-below", pays && debt < 0);
    m.see("run-paid-out", pays && debt > 0 && out);
    m.see("run-paid-out-below", pays && debt < 0 && out);
    m.see("run-without-debt", pays && debt == 0);
    m.see("run-32", run && outcome.by(LimitOutOfRange) && debt != 0);
}
