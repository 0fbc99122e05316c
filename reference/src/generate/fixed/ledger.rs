//! Fixed lines of the ledger.

use super::{Lines, T, pairs};
use crate::conformance::call::Call;

/// The debt's limit, and the offset at the entry's limit.
const DEBT: i64 = 1 << 50;
const OFFSET: i64 = 1 << 40;

/// An offset and its half.
type Entry = (i64, u8);

fn put_entries(lines: &mut Lines, debt: i64, entries: impl IntoIterator<Item = Entry>) {
    for (offset, half) in entries {
        lines.call(Call::Entry { debt, offset, half });
    }
}

/// Debts and offsets at every limit.
fn put_limits(lines: &mut Lines) {
    let debts = [0, 1, -1, DEBT - 1, 1 - DEBT, DEBT, -DEBT, DEBT + 1, i64::MAX, i64::MIN];
    let offsets = [0, 1, -1, OFFSET - 1, OFFSET, -OFFSET, -OFFSET - 1, i64::MAX, i64::MIN];
    for debt in debts {
        put_entries(lines, debt, pairs(&offsets, &[0, 1]));
        put_entries(lines, debt, [(0, 2), (OFFSET, 2), (0, 255), (OFFSET, 255)]);
    }
}

fn put_far_offsets(lines: &mut Lines) {
    let offsets = [1 << 62, (1 << 62) - 1, -(1 << 62), i64::MAX - 1, i64::MIN + 1];
    put_entries(lines, 0, pairs(&offsets, &[0, 1, 255]));
    put_entries(lines, 2, [(-1, 0), (-1, 1), (0, 2), (0, 3), (0, 128)]);
}

/// Sums that reach the limit, or stay one short of it.
fn put_sums(lines: &mut Lines) {
    let above = [(0, 1), (1, 0), (OFFSET - 1, 1)].map(|entry| (entry, DEBT, -1));
    let below = [(-1, 1), (-1, 0), (-OFFSET, 1)].map(|entry| (entry, -DEBT, 1));
    for ((offset, half), limit, short) in above.into_iter().chain(below) {
        let reaching = limit - (2 * offset + i64::from(half));
        lines.call(Call::Entry { debt: reaching, offset, half });
        lines.call(Call::Entry { debt: reaching + short, offset, half });
    }
}

/// Ticks under, at and over every limit.
fn put_ticks(lines: &mut Lines) {
    let sizes = [0, 1, (1 << 32) - 1, 1 << 32, (1 << 32) + 1, DEBT - 1, DEBT, DEBT + 1, i64::MAX];
    let limits = [0, 1, T - 1, T, T + 1, 1 << 63, u64::MAX];
    let of_either_sign = pairs(&sizes, &limits).flat_map(|(d, limit)| [(d, limit), (-d, limit)]);
    let least = pairs(&[i64::MIN], &limits);
    let about_100 = [99, 100, 101].into_iter().flat_map(|d| [(d, 100), (-d, 100)]);
    for (debt, limit) in of_either_sign.chain(least).chain(about_100) {
        lines.call(Call::Tick { debt, limit });
    }
}

pub fn put_lines(lines: &mut Lines) {
    put_limits(lines);
    put_far_offsets(lines);
    put_sums(lines);
    put_ticks(lines);
}
