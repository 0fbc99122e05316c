//! Worked exchanges between clocks that tick: one refused by 18, two at the bound, and the replay's
//! at ticks of one second.

use crate::bound::{Miss, check, check_premises};
use crate::client::run;
use reference::arrival::Told;
use reference::generate::clocks::{Clock, Exchange};
use reference::random::Random;
use reference::refusal::Refusal::{self, DelayNegative};
use reference::timestamp::Measured;

const SECOND: i128 = 1 << 32;

/// Runs an exchange that must read and give this; how far it missed, if it was accepted.
fn worked(exchange: &Exchange, readings: [u64; 4], wanted: Result<Told, Refusal>) -> Option<Miss> {
    check_premises(exchange);
    assert_eq!(exchange.readings(), readings);
    let came = run(&mut Random::new(1), exchange);
    assert_eq!(came, wanted);
    check(exchange, came)
}

fn accepted(offset: i64, half: u8, delay: i64) -> Result<Told, Refusal> {
    Ok(Told::Accepted(Measured { offset, half, delay }))
}

/// One unit passes, in which the server's clock goes on by two.
#[test]
fn refused_by_18() {
    let exchange = Exchange {
        client: Clock { constant: 1, tick: 1 },
        server: Clock { constant: 3, tick: 2 },
        times: [0, 0, 1, 1],
    };
    let [t1, t2, t3, t4] = [1, 2, 4, 2];
    assert_eq!((t4 - t1) - (t3 - t2), -1);
    let readings = [t1, t2, t3, t4].map(|reading: i64| reading as u64);
    assert_eq!(worked(&exchange, readings, Err(DelayNegative)), None);
}

#[test]
fn at_the_bound_above() {
    let exchange = Exchange {
        client: Clock { constant: 0, tick: 4 },
        server: Clock { constant: 0, tick: 1 },
        times: [4, 7, 7, 7],
    };
    let miss = worked(&exchange, [4, 7, 7, 4], accepted(3, 0, 0));
    assert_eq!(miss, Some(Miss { miss: 2 * (4 - 1), delay: 0 }));
}

#[test]
fn at_the_bound_below() {
    let exchange = Exchange {
        client: Clock { constant: 0, tick: 1 },
        server: Clock { constant: 0, tick: 4 },
        times: [7, 7, 7, 7],
    };
    let miss = worked(&exchange, [7, 4, 4, 7], accepted(-3, 0, 0));
    assert_eq!(miss, Some(Miss { miss: -2 * (4 - 1), delay: 0 }));
}

/// Each way takes 3/8 s, and the server holds the request for one second.
#[test]
fn the_replay_at_ticks_of_one_second() {
    let exchange = |tick| Exchange {
        client: Clock { constant: -6 * SECOND, tick },
        server: Clock { constant: 33 * SECOND / 8, tick },
        times: [0, 3 * SECOND / 8, 11 * SECOND / 8, 14 * SECOND / 8],
    };
    assert_eq!(exchange(1).difference(), 81 * SECOND / 8);
    let exact = [0xFFFF_FFFA_0000_0000, 0x4_8000_0000, 0x5_8000_0000, 0xFFFF_FFFB_C000_0000];
    let miss = worked(&exchange(1), exact, accepted(43_486_543_872, 0, 3_221_225_472));
    assert_eq!(miss, Some(Miss { miss: 0, delay: 3_221_225_472 }));
    let seconds = [0xFFFF_FFFA_0000_0000, 0x4_0000_0000, 0x5_0000_0000, 0xFFFF_FFFB_0000_0000];
    let miss = worked(&exchange(SECOND), seconds, accepted(10 << 32, 0, 0));
    assert_eq!(miss, Some(Miss { miss: -SECOND / 4, delay: 0 }));
}
