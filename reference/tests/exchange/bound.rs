//! What an exchange must keep to, and what must come of it, in whole numbers from its true times.

use reference::arrival::Told;
use reference::generate::clocks::{Clock, Exchange};
use reference::refusal::Refusal::{self, DelayNegative};

/// A trip and the client's tick less one are together no longer.
pub const LONGEST: i128 = 1 << 36;
/// A difference's size and both ticks, each less one, are together below this.
pub const FAR: i128 = (1 << 63) - (1 << 36);

/// A reading before it is reduced modulo 2^64.
fn whole(clock: &Clock, time: i128) -> i128 {
    let exact = time + clock.constant;
    let toward_zero = exact / clock.tick * clock.tick;
    if toward_zero > exact { toward_zero - clock.tick } else { toward_zero }
}

/// T1 to T4 before they are reduced.
pub fn whole_readings(exchange: &Exchange) -> [i128; 4] {
    let Exchange { client, server, times: [sent, received, answered, arrived] } = exchange;
    [
        whole(client, *sent),
        whole(server, *received),
        whole(server, *answered),
        whole(client, *arrived),
    ]
}

/// What is left of the trip, and of the difference, to their limits.
pub fn room(exchange: &Exchange) -> [i128; 2] {
    let [sent, _, _, arrived] = exchange.times;
    let (client, server) = (exchange.client.tick - 1, exchange.server.tick - 1);
    let trip = arrived - sent + client;
    [LONGEST - trip, FAR - 1 - (exchange.difference().abs() + client + server)]
}

/// Holds the exchange against the premises.
pub fn check_premises(exchange: &Exchange) {
    let ticks = [exchange.client.tick, exchange.server.tick];
    assert!(ticks.iter().all(|tick| tick.count_ones() == 1 && (1..=1 << 32).contains(tick)));
    assert!(exchange.times.is_sorted());
    assert!(room(exchange).iter().all(|&left| left >= 0));
    let readings = exchange.readings();
    assert_eq!(readings, whole_readings(exchange).map(|whole| whole as u64));
    assert!(!readings.contains(&0));
}

/// How far an accepted offset missed, in half units, and the delay in units.
#[derive(Clone, Copy, PartialEq, Eq, Debug)]
pub struct Miss {
    pub miss: i128,
    pub delay: i128,
}

/// Holds what came of an exchange against what must. None where it was refused.
pub fn check(exchange: &Exchange, came: Result<Told, Refusal>) -> Option<Miss> {
    let [t1, t2, t3, t4] = whole_readings(exchange);
    let delay = (t4 - t1) - (t3 - t2);
    match came {
        Err(DelayNegative) => {
            assert!(delay < 0);
            None
        }
        Ok(Told::Accepted(m)) => {
            let twice = 2 * i128::from(m.offset) + i128::from(m.half);
            assert_eq!(twice, (t2 - t1) + (t3 - t4));
            assert_eq!(i128::from(m.delay), delay);
            assert!(m.half < 2 && m.delay >= 0);
            Some(check_bounds(exchange, twice, delay))
        }
        other => panic!("{exchange:?} {other:?}"),
    }
}

/// The offset is too large by no more than the client's tick explains, and too small by no more
/// than the server's.
fn check_bounds(exchange: &Exchange, twice: i128, delay: i128) -> Miss {
    let miss = twice - 2 * exchange.difference();
    let (client, server) = (exchange.client.tick - 1, exchange.server.tick - 1);
    assert!(miss.abs() <= delay + 2 * client.max(server));
    assert!(miss <= delay + 2 * client);
    assert!(-miss <= delay + 2 * server);
    Miss { miss, delay }
}
