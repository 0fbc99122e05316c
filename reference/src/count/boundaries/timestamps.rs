//! The boundaries of differences, of exchanges and of the sum of P and Q.

use super::{Marks, ticks};
use crate::count::outcome::Outcome;
use crate::refusal::Refusal::*;
use crate::timestamp::difference;
use std::cmp::Ordering;

/// Half the circle: a difference lies between minus this and this.
const HALF: i128 = 1 << 63;

pub fn is_positive(difference: Option<i128>) -> bool {
    difference.is_some_and(|units| units > 0)
}

pub fn is_negative(difference: Option<i128>) -> bool {
    difference.is_some_and(|units| units < 0)
}

pub fn differences(m: &mut Marks, x: u64, y: u64, outcome: Outcome) {
    let given = difference(x, y).filter(|_| outcome.passed());
    let no_order = outcome == Outcome::NoOrder;
    m.see_each("difference=", [-1, 0, 1], |units| given == Some(units));
    m.see("difference=2^63-1", given == Some(HALF - 1));
    m.see("difference=-2^63+1", given == Some(1 - HALF));
    m.see("no-order-x-above-y", no_order && x > y);
    m.see("no-order-x-below-y", no_order && x < y);
    m.see("positive-over-wrap", is_positive(given) && x < y);
    m.see("negative-over-wrap", is_negative(given) && x > y);
}

/// The five differences of an exchange; none where there is no order.
struct Exchange {
    t: [u64; 4],
    /// T4 - T1.
    e: Option<i128>,
    /// T3 - T2.
    h: Option<i128>,
    /// The delay.
    d: Option<i128>,
    p: Option<i128>,
    q: Option<i128>,
}

impl Exchange {
    fn new(t: [u64; 4]) -> Exchange {
        let [t1, t2, t3, t4] = t;
        let (e, h) = (difference(t4, t1), difference(t3, t2));
        let (p, q) = (difference(t2, t1), difference(t3, t4));
        Exchange { t, e, h, d: e.zip(h).map(|(e, h)| e - h), p, q }
    }

    /// How P and Q compare, where both have an order.
    fn first_to_second(&self) -> Option<Ordering> {
        self.p.zip(self.q).map(|(p, q)| p.cmp(&q))
    }
}

/// Both sides of the tests of four timestamps.
pub fn exchange(m: &mut Marks, t: [u64; 4], outcome: Outcome) {
    let x = Exchange::new(t);
    elapsed_and_hold(m, &x, outcome);
    first_and_second(m, &x, outcome);
    wraps(m, &x, outcome);
    exchange_order(m, &x, outcome);
    no_order(m, &x, outcome);
    order_about_no_order(m, &x, outcome);
    ticks::exchange(m, t, x.d, outcome);
}

fn elapsed_and_hold(m: &mut Marks, x: &Exchange, outcome: Outcome) {
    let passed = outcome.passed();
    m.see("e=0", passed && x.e == Some(0));
    m.see("e=-1", outcome.by(ArrivedBeforeSent) && x.e == Some(-1));
    m.see("e=-2^63+1", outcome.by(ArrivedBeforeSent) && x.e == Some(1 - HALF));
    m.see("e=2^36", passed && x.e == Some(1 << 36));
    m.see("e=2^36+1", outcome.by(ArrivedTooLate) && x.e == Some((1 << 36) + 1));
    m.see("e=2^63-1", outcome.by(ArrivedTooLate) && x.e == Some(HALF - 1));
    m.see("h=0", passed && x.h == Some(0));
    m.see("h=-1", outcome.by(AnsweredBeforeReceived) && x.h == Some(-1));
    m.see("h=-2^63+1", outcome.by(AnsweredBeforeReceived) && x.h == Some(1 - HALF));
    m.see("d=0", passed && x.d == Some(0) && is_positive(x.e));
    m.see("d=-1", outcome.by(DelayNegative) && x.d == Some(-1));
    m.see("h=2^63-1", outcome.by(DelayNegative) && x.h == Some(HALF - 1));
}

fn first_and_second(m: &mut Marks, x: &Exchange, outcome: Outcome) {
    let passed = outcome.passed();
    let below = outcome.by(FirstBelowSecond);
    let (least, most) = (Some(1 - HALF), Some(HALF - 1));
    let (p, q) = x.p.zip(x.q).unwrap_or_default();
    let odd = (p + q) % 2 != 0;
    ends_and_sums(m, p, q, passed);
    lower_ends(m, ["-2^63+1", "-2^64+3"], 1 - HALF, [p, q], passed);
    m.see("Q=-2^63+1-d=2^36", passed && x.q == least && x.d == Some(1 << 36));
    m.see("19-d=2", below && x.d == Some(2));
    m.see("19-P=-2^63+1", below && x.p == least && x.d > Some(2));
    m.see("19-Q=2^63-1", below && x.q == most && x.d > Some(2));
    m.see("19-Q=2^63-1-d=2^36", below && x.q == most && x.d == Some(1 << 36));
    m.see("half=1", passed && odd);
    m.see("half=1-below-zero", passed && odd && p + q < 0);
}

/// P and Q at the upper end of their range, alone and together, and sums about where they leave 64
/// bits.
fn ends_and_sums(m: &mut Marks, p: i128, q: i128, held: bool) {
    let sums = [
        ("P+Q=2^63-1", HALF - 1),
        ("P+Q=2^63", HALF),
        ("P+Q=2^64-3", 2 * HALF - 3),
        ("P+Q=-2^63", -HALF),
        ("P+Q=-2^63-1", -HALF - 1),
    ];
    m.see("P=2^63-1", held && p == HALF - 1 && q < p);
    m.see("P=Q=2^63-1", held && p == HALF - 1 && p == q);
    sums.into_iter().for_each(|(name, sum)| m.see(name, held && p + q == sum));
}

/// P and Q at the lower end of their range. The names are those of the end and of a sum one above
/// twice that.
fn lower_ends(m: &mut Marks, names: [&str; 2], least: i128, [p, q]: [i128; 2], held: bool) {
    let [end, sum] = names;
    m.see_with("Q=", end, held && q == least && p > q);
    m.see_with("P=Q=", end, held && p == least && p == q);
    m.see_with("P+Q=", sum, held && p + q == 2 * least + 1);
}

fn wraps(m: &mut Marks, x: &Exchange, outcome: Outcome) {
    let passed = outcome.passed();
    let [t1, t2, t3, t4] = x.t;
    let before = |t: u64| t >> 63 == 1;
    m.see("wrap-between-T1-T4", passed && t4 < t1);
    m.see("wrap-between-T2-T3", passed && t3 < t2);
    m.see("T1-before-T2-after", passed && before(t1) && !before(t2) && is_positive(x.p));
    m.see("T1-after-T2-before", passed && !before(t1) && before(t2) && is_negative(x.p));
    m.see("reading-of-ones", passed && x.t.contains(&u64::MAX));
}

fn exchange_order(m: &mut Marks, x: &Exchange, outcome: Outcome) {
    let below = x.first_to_second() == Some(Ordering::Less);
    let not_below = x.first_to_second().is_some_and(Ordering::is_ge);
    m.see("15-and-17", outcome.by(ArrivedBeforeSent) && is_negative(x.h));
    m.see("16-and-17", outcome.by(ArrivedTooLate) && is_negative(x.h));
    m.see("15-and-19", outcome.by(ArrivedBeforeSent) && below);
    m.see("16-and-19", outcome.by(ArrivedTooLate) && below);
    m.see("17-and-19", outcome.by(AnsweredBeforeReceived) && below);
    m.see("18-and-19", outcome.by(DelayNegative) && below);
    m.see("18-without-19", outcome.by(DelayNegative) && not_below);
}

/// Each difference that has no order, alone, and P and Q together.
fn no_order(m: &mut Marks, x: &Exchange, outcome: Outcome) {
    let without = [x.e, x.h, x.p, x.q].map(|difference| difference.is_none());
    let places = [
        ("43-e", [true, false, false, false]),
        ("43-h", [false, true, false, false]),
        ("43-P", [false, false, true, false]),
        ("43-Q", [false, false, false, true]),
        ("43-P-and-Q", [false, false, true, true]),
    ];
    for (name, alone) in places {
        m.see(name, outcome.by(NoOrder) && without == alone);
    }
}

/// Another test and a difference that has no order: the first of them refuses.
fn order_about_no_order(m: &mut Marks, x: &Exchange, outcome: Outcome) {
    let [e, h, p, q] = [x.e, x.h, x.p, x.q].map(|difference| difference.is_none());
    let below = x.first_to_second() == Some(Ordering::Less);
    let refused = outcome.by(NoOrder);
    m.see("43-e-and-17", refused && e && is_negative(x.h));
    m.see("43-e-and-19", refused && e && below);
    m.see("43-h-and-19", refused && h && below);
    m.see("15-and-43-h", outcome.by(ArrivedBeforeSent) && h);
    m.see("16-and-43-h", outcome.by(ArrivedTooLate) && h);
    for (name, without) in [("P", p && !q), ("Q", q && !p)] {
        m.see_with("15-and-43-", name, outcome.by(ArrivedBeforeSent) && without);
        m.see_with("16-and-43-", name, outcome.by(ArrivedTooLate) && without);
        m.see_with("17-and-43-", name, outcome.by(AnsweredBeforeReceived) && without);
        m.see_with("18-and-43-", name, outcome.by(DelayNegative) && without);
    }
}

pub fn measure(m: &mut Marks, t: [u64; 4], outcome: Outcome) {
    exchange(m, t, outcome);
    m.see("zero-taken", outcome.passed() && t.contains(&0));
}
