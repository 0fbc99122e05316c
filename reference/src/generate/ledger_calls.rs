//! Calls of the ledger: near its limits, and runs of calls from an opened ledger.

use crate::conformance::call::Call;
use crate::ledger::{self, DEBT_LIMIT, ENTRY_LIMIT, OPENED, TICK_LIMIT};
use crate::random::Random;
use crate::timestamp::halve;

/// A run begins once in so many lines.
const RARE: u64 = 1200;
/// Calls of a run that goes to the debt's limit.
const LONG: u64 = 640;

fn signed(r: &mut Random, size: u64) -> i64 {
    if r.one_in(2) { size as i64 } else { -(size as i64) }
}

/// Any debt, those at the limit often.
fn any_debt(r: &mut Random) -> i64 {
    let size = match r.below(12) {
        0 => 0,
        1 => (1 << 50) - 1 - r.below(4),
        2 => (1 << 50) + r.below(4),
        3 => return r.pick([i64::MIN, i64::MIN + 1, i64::MAX, 1, -1]),
        4 => r.below(1 << 33),
        5 => (1 << 50) - r.below(1 << 42),
        6 => return r.number() as i64,
        7 => TICK_LIMIT - 1 + r.below(3),
        8 => r.below(100),
        _ => r.below(1 << 50),
    };
    signed(r, size)
}

/// An amount that suits a debt or not.
fn any_amount(r: &mut Random, debt: i64) -> i128 {
    let few = r.below(5) as i128 - 2;
    let limit = if debt < 0 { -DEBT_LIMIT } else { DEBT_LIMIT };
    let size = match r.below(12) {
        0 => (1 << 41) - 1 - r.below(3),
        1 => (1 << 41) + r.below(3),
        2 => r.below(4),
        // The sum is near the limit, or near zero.
        3 | 4 => return limit - i128::from(debt) + few,
        5 => return few - i128::from(debt),
        6 => r.below(1 << 33),
        7 => return (r.number() as i64).into(),
        _ => r.below(1 << 41),
    };
    signed(r, size).into()
}

fn any_offset(r: &mut Random) -> i64 {
    match r.below(3) {
        0 => r.number() as i64,
        1 => r.pick([i64::MIN, i64::MIN + 1, i64::MAX, i64::MAX - 1, -1]),
        _ => r.pick([1 << 62, (1 << 62) - 1, -(1 << 62), 1 << 40, -(1 << 40)]),
    }
}

fn wrong_half(r: &mut Random) -> u8 {
    match r.below(2) {
        0 => r.pick([2, 3, 128, 254, 255]),
        _ => 2 + r.octet_below(254),
    }
}

fn wrong_limit(r: &mut Random) -> u64 {
    match r.below(5) {
        0 => 0,
        1 => TICK_LIMIT + 1 + r.below(3),
        2 => u64::MAX - r.below(3),
        3 => 1 << (33 + r.below(31)),
        _ => TICK_LIMIT + 1 + r.below(u64::MAX - TICK_LIMIT),
    }
}

/// A limit that is not refused.
fn right_limit(r: &mut Random, debt: i64) -> u64 {
    match r.below(6) {
        0 => r.pick([1, 2, TICK_LIMIT - 1, TICK_LIMIT]),
        1 | 2 => (debt.unsigned_abs() + r.below(3)).saturating_sub(1).clamp(1, TICK_LIMIT),
        3 => 1 + r.below(100),
        4 => 1 << r.below(33),
        _ => 1 + r.below(TICK_LIMIT),
    }
}

/// One entry by itself.
pub fn entry(r: &mut Random, line: &mut Vec<u8>) {
    let debt = any_debt(r);
    let (offset, half) = halve(any_amount(r, debt));
    let offset = if r.one_in(10) { any_offset(r) } else { offset as i64 };
    let half = if r.one_in(10) { wrong_half(r) } else { half };
    Call::Entry { debt, offset, half }.put(line);
}

/// One tick by itself.
pub fn tick(r: &mut Random, line: &mut Vec<u8>) {
    let debt = any_debt(r);
    let limit = if r.one_in(5) { wrong_limit(r) } else { right_limit(r, debt) };
    Call::Tick { debt, limit }.put(line);
}

#[derive(Clone, Copy)]
enum Kind {
    /// Entries that a few ticks pay out.
    Small,
    Mixed,
    /// Large entries of one sign until the debt is at its limit.
    Above,
    Below,
}

/// Runs of calls, one after the other, each from an opened ledger.
pub struct Runs {
    debt: i64,
    /// The debt after the call just drawn.
    after: i64,
    kind: Kind,
    left: u64,
    opened: u64,
}

impl Runs {
    pub fn new() -> Runs {
        Runs { debt: OPENED, after: OPENED, kind: Kind::Small, left: 0, opened: 0 }
    }

    /// Appends the next call of a run; false where none is under way.
    pub fn call(&mut self, r: &mut Random, line: &mut Vec<u8>) -> bool {
        if self.left == 0 {
            if !r.one_in(RARE) {
                return false;
            }
            self.open(r);
        }
        self.left -= 1;
        let ticks = match self.kind {
            Kind::Above | Kind::Below => 3,
            Kind::Small | Kind::Mixed => 50,
        };
        if r.below(100) < ticks {
            self.tick(r, line);
        } else {
            self.entry(r, line);
        }
        true
    }

    /// The call just drawn was made.
    pub fn keep(&mut self) {
        self.debt = self.after;
    }

    fn open(&mut self, r: &mut Random) {
        self.kind = match self.opened % 32 {
            0 => Kind::Above,
            16 => Kind::Below,
            turn if turn % 2 == 0 => Kind::Mixed,
            _ => Kind::Small,
        };
        self.left = match self.kind {
            Kind::Above | Kind::Below => LONG,
            Kind::Small | Kind::Mixed => 2 + r.below(40),
        };
        self.opened += 1;
        self.debt = OPENED;
    }

    fn tick(&mut self, r: &mut Random, line: &mut Vec<u8>) {
        let debt = self.debt;
        let limit = if r.one_in(8) { wrong_limit(r) } else { right_limit(r, debt) };
        Call::Tick { debt, limit }.put(line);
        self.after = ledger::tick(debt, limit).map_or(debt, |payment| payment.debt);
    }

    fn entry(&mut self, r: &mut Random, line: &mut Vec<u8>) {
        let debt = self.debt;
        let amount = match self.kind {
            Kind::Small => small(r),
            Kind::Mixed => any_amount(r, debt),
            Kind::Above => large(r, debt),
            Kind::Below => -large(r, -debt),
        };
        let (offset, half) = halve(amount);
        let (mut offset, mut half) = (offset as i64, half);
        match r.below(60) {
            0 => offset = any_offset(r),
            1 => half = wrong_half(r),
            _ => {}
        }
        Call::Entry { debt, offset, half }.put(line);
        self.after = ledger::entry(debt, offset, half).unwrap_or(debt);
    }
}

/// An entry that a few ticks pay out.
fn small(r: &mut Random) -> i128 {
    let most = r.pick([4, 100, TICK_LIMIT, 4 * TICK_LIMIT]);
    let size = r.below(most);
    signed(r, size).into()
}

/// Large entries until the debt is near its limit, then both sides of it.
fn large(r: &mut Random, debt: i64) -> i128 {
    let room = DEBT_LIMIT - 1 - i128::from(debt);
    if room >= ENTRY_LIMIT {
        let less = r.pick([1, 2, TICK_LIMIT]);
        return ENTRY_LIMIT - 1 - i128::from(r.below(less));
    }
    match r.below(6) {
        0 => room,
        1 => room + 1,
        2 => room + 1 + i128::from(r.below(1000)),
        3 => r.below(room as u64 + 1).into(),
        4 => -i128::from(r.below(1 << 33)),
        _ => ENTRY_LIMIT - 1,
    }
}

#[cfg(test)]
mod tests {
    use super::*;
    use crate::conformance;

    /// A sum of entries, kept from lines and their answers alone.
    #[derive(Default)]
    struct Sums {
        entered: i128,
        paid: i128,
        owed: i64,
    }

    impl Sums {
        fn take(&mut self, line: &[u8]) {
            let mut answer = Vec::new();
            conformance::answer(line, &mut answer);
            let debt = match Call::parse(line).unwrap() {
                Call::Entry { debt, offset, half } => {
                    self.entered += if answer[0] == 0 { ledger::amount(offset, half) } else { 0 };
                    debt
                }
                Call::Tick { debt, .. } => {
                    self.paid +=
                        i128::from(i64::from_be_bytes(*answer[1..].first_chunk().unwrap()));
                    debt
                }
                other => panic!("{other:?}"),
            };
            assert_eq!(debt, self.owed);
            self.owed = i64::from_be_bytes(*answer.last_chunk().unwrap());
            assert_eq!(self.paid + i128::from(self.owed), self.entered);
        }
    }

    #[test]
    fn runs_keep_the_sum() {
        let mut r = Random::new(5);
        let mut runs = Runs::new();
        let mut sums = Sums::default();
        let (mut opened, mut calls) = (0, 0);
        while opened < 70 || runs.left > 0 {
            let mut line = Vec::new();
            if !runs.call(&mut r, &mut line) {
                continue;
            }
            if runs.opened != opened {
                opened = runs.opened;
                sums = Sums::default();
            }
            sums.take(&line);
            runs.keep();
            calls += 1;
        }
        assert!(calls > 3000, "{calls}");
    }
}
