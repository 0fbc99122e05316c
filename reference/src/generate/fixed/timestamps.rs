//! Fixed lines of differences, offsets and sums.

use super::clients::waiting;
use super::exchanges::{arrival, reply};
use super::{Lines, T, pairs};
use crate::conformance::call::Call;
use crate::timestamp::LIMIT;

const FAR: u64 = 1 << 62;
const BACK: u64 = T.wrapping_sub(FAR);
/// Half a circle from T.
const HALF: u64 = T + (1 << 63);

/// T1 to T4.
const EXCHANGES: [[u64; 4]; 23] = [
    [T, T, T, T],
    [T, T, T, T + 1],
    [T, T, T, T + (1 << 36)],
    [T, T, T, T + (1 << 36) + 1],
    [T, T, T, T - 1],
    [T, T, T + 6, T + 5],
    [T, T, T - 1, T],
    [T, T + FAR - 1, T + FAR - 1, T],
    [T, T + FAR, T + FAR, T],
    [T, T + FAR, T + FAR, T + 1],
    [T, BACK, BACK, T],
    [T, BACK, BACK, T + 1],
    [T, BACK - 1, BACK - 1, T],
    [T, HALF, HALF + 5, T + 5],
    [T, HALF, HALF + 5, T + 6],
    [T, HALF, HALF - 1, T],
    // The delay is negative; Q has no order, or P is not below Q.
    [T, HALF - 1, HALF + 5, T + 5],
    [T, HALF - 1, HALF + 6, T + 5],
    [T, T + 5, T + 5, T + 5],
    [0xFFFF_FFFA_0000_0000, 0x0000_0004_8000_0000, 0x0000_0005_8000_0000, 0xFFFF_FFFB_C000_0000],
    [0, 0, 0, 0],
    [u64::MAX; 4],
    [u64::MAX - 1, u64::MAX, 1, 3],
];

/// P and Q on one side of the half circle and on both, with each delay at its ends.
fn about_half() -> impl Iterator<Item = [u64; 4]> {
    const FAR: u64 = HALF + LIMIT;
    const T2: [u64; 8] = [HALF - 2, HALF - 1, HALF, HALF + 1, HALF + 2, FAR - 1, FAR, FAR + 1];
    const T4: [u64; 7] = [T - 1, T, T + 1, T + 2, T + LIMIT - 1, T + LIMIT, T + LIMIT + 1];
    pairs(&T2, &T4).map(|(t2, t4)| [T, t2, t2, t4])
}

/// Each of the four differences about half a circle, alone and with others, and with the faults of
/// the other tests.
fn about_no_order() -> impl Iterator<Item = [u64; 4]> {
    const HALF_CIRCLE: u64 = 1 << 63;
    const T2: [u64; 4] = [T, HALF - 1, HALF, HALF + 1];
    const T4: [u64; 7] = [T - 1, T, T + 1, T + LIMIT + 1, HALF - 1, HALF, HALF + 1];
    let holds = [u64::MAX, 0, 1, HALF_CIRCLE - 1, HALF_CIRCLE, HALF_CIRCLE + 1];
    pairs(&T2, &T4).flat_map(move |(t2, t4)| {
        holds.into_iter().map(move |hold| [T, t2, t2.wrapping_add(hold), t4])
    })
}

/// Four timestamps, measured and as an arrival.
pub fn put_exchange(lines: &mut Lines, [t1, t2, t3, t4]: [u64; 4]) {
    lines.call(Call::Measure { t1, t2, t3, t4 });
    if t1 != 0 {
        arrival(lines, &waiting(t1), t4, &reply(t2, t3), 48);
    }
}

fn put_exchanges(lines: &mut Lines) {
    for t in EXCHANGES.into_iter().chain(about_half()).chain(about_no_order()) {
        put_exchange(lines, t);
    }
}

fn put_differences(lines: &mut Lines) {
    let ends = [0, 1, u64::MAX, 1 << 63, (1 << 63) - 1, T];
    for (x, y) in pairs(&ends, &ends) {
        lines.call(Call::Difference { x, y });
    }
}

pub fn put_lines(lines: &mut Lines) {
    put_exchanges(lines);
    put_differences(lines);
}
