//! Fixed lines of ticks, and of exchanges between clocks that tick.

use super::Lines;
use super::timestamps::put_exchange;
use crate::conformance::call::Call;
use crate::generate::clocks::{Clock, Exchange};

/// Ticks about each power of two.
fn put_ticks(lines: &mut Lines) {
    let about = (0..=33).map(|k| 1 << k).flat_map(|power| [power - 1, power, power + 1]);
    for tick in [0, 4295, 4096, u64::MAX].into_iter().chain(about) {
        lines.call(Call::Precision { tick });
    }
}

/// The worked exchanges, T1 to T4: refused by 18, at the bound on each side, and across 2036.
const WORKED: [[u64; 4]; 4] = [
    [1, 2, 4, 2],
    [4, 7, 7, 4],
    [7, 4, 4, 7],
    [0xFFFF_FFFA_0000_0000, 0x0000_0004_0000_0000, 0x0000_0005_0000_0000, 0xFFFF_FFFB_0000_0000],
];

/// A server that ticks between received and answered, while the client's clock does not. It is
/// refused by 18 where any time passes.
fn exchange(client_tick: i128, server_tick: i128, hold: i128) -> Exchange {
    Exchange {
        client: Clock { constant: 3 * client_tick, tick: client_tick },
        server: Clock { constant: 4 * server_tick - 1, tick: server_tick },
        times: [0, 0, hold, hold],
    }
}

/// Each tick of the client's clock and of the server's.
fn exchanges() -> impl Iterator<Item = Exchange> {
    let ticks = (0..=32).map(|k| (1 << k, 1 << (32 - k))).chain([(1 << 32, 1 << 32)]);
    ticks.flat_map(|(client, server)| [0, 1].map(|hold| exchange(client, server, hold)))
}

pub fn put_lines(lines: &mut Lines) {
    put_ticks(lines);
    for readings in WORKED.into_iter().chain(exchanges().map(|exchange| exchange.readings())) {
        put_exchange(lines, readings);
    }
}
