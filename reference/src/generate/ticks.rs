//! Exchanges between clocks that tick, within the limits that make them accepted or refused by 18:
//! the ends of the limits often, and readings that are cut by nothing or by all they can be.

use super::clocks::{Clock, Exchange};
use crate::random::Random;

/// What a trip and the client's tick less one may add up to.
const LIMIT: i128 = 1 << 36;
/// What the size of a difference and both ticks, each less one, may not add up to.
const FAR: i128 = (1 << 63) - (1 << 36);
const WRAP: i128 = 1 << 64;

/// The client's and the server's tick.
#[derive(Clone, Copy, Debug)]
pub struct Ticks {
    pub client: i128,
    pub server: i128,
}

impl Ticks {
    pub fn any(r: &mut Random) -> Ticks {
        Ticks { client: any_tick(r), server: any_tick(r) }
    }

    fn larger(self) -> i128 {
        self.client.max(self.server)
    }

    fn longest_trip(self) -> i128 {
        LIMIT - (self.client - 1)
    }

    /// The largest size of a difference.
    fn farthest(self) -> i128 {
        FAR - 1 - (self.client - 1) - (self.server - 1)
    }
}

fn any_tick(r: &mut Random) -> i128 {
    match r.below(16) {
        0 => 1,
        1 => 1 << 32,
        _ => 1 << r.below(33),
    }
}

fn up_to(r: &mut Random, most: i128) -> i128 {
    r.below(most as u64 + 1).into()
}

fn any(r: &mut Random) -> i128 {
    i128::from(r.number() as i64)
}

fn trip(r: &mut Random, ticks: Ticks) -> i128 {
    let longest = ticks.longest_trip();
    match r.below(8) {
        0 => longest,
        1 => longest - 1,
        2 => 0,
        3..=5 => up_to(r, longest.min(4 * ticks.larger())),
        _ => up_to(r, longest),
    }
}

/// A part of a time that passes: nothing, all of it, or any part.
fn part(r: &mut Random, whole: i128) -> i128 {
    match r.below(4) {
        0 => 0,
        1 => whole,
        _ => up_to(r, whole),
    }
}

fn times(r: &mut Random, ticks: Ticks) -> [i128; 4] {
    let sent = any(r);
    let trip = trip(r, ticks);
    let hold = part(r, trip);
    let received = sent + part(r, trip - hold);
    [sent, received, received + hold, sent + trip]
}

fn difference(r: &mut Random, ticks: Ticks) -> i128 {
    let farthest = ticks.farthest();
    match r.below(10) {
        0 => farthest,
        1 => -farthest,
        2 => r.pick([farthest - 1, 1 - farthest]),
        3 => r.pick([-1, 0, 1]),
        4 | 5 => up_to(r, 4 * ticks.larger()) - 2 * ticks.larger(),
        _ => up_to(r, 2 * farthest) - farthest,
    }
}

/// The client's constant; at times the client's or the server's clock passes 2036 in the exchange.
fn constant(r: &mut Random, times: [i128; 4], difference: i128) -> i128 {
    let [sent, received, answered, arrived] = times;
    let wraps = WRAP * (i128::from(r.below(5)) - 2);
    match r.below(4) {
        0 => wraps - sent - up_to(r, arrived - sent),
        1 => wraps - received - difference - up_to(r, answered - received),
        _ => wraps + any(r),
    }
}

/// How much of a reading is cut off.
fn cut(r: &mut Random, tick: i128) -> i128 {
    match r.below(3) {
        0 => 0,
        1 => tick - 1,
        _ => up_to(r, tick - 1),
    }
}

/// The next value from this one on whose rest is the one given.
fn next_with_rest(value: i128, rest: i128, tick: i128) -> i128 {
    value + (rest - value).rem_euclid(tick)
}

/// The same toward zero or past it, so that a size does not grow by a tick or more.
fn nearer_with_rest(value: i128, rest: i128, tick: i128) -> i128 {
    if value > 0 { -next_with_rest(-value, -rest, tick) } else { next_with_rest(value, rest, tick) }
}

/// An exchange whose readings on the way out, or back, are cut as drawn.
fn any_exchange(r: &mut Random, ticks: Ticks) -> Exchange {
    let times @ [sent, received, answered, arrived] = times(r, ticks);
    let [own, other] = r.pick([[sent, received], [arrived, answered]]);
    let mut difference = difference(r, ticks);
    let any = constant(r, times, difference);
    let client = next_with_rest(any, cut(r, ticks.client) - own, ticks.client);
    if r.one_in(2) {
        let rest = cut(r, ticks.server) - other - client;
        difference = nearer_with_rest(difference, rest, ticks.server);
    }
    Exchange {
        client: Clock { constant: client, tick: ticks.client },
        server: Clock { constant: client + difference, tick: ticks.server },
        times,
    }
}

/// An exchange between clocks with these ticks; no reading is zero.
pub fn exchange(r: &mut Random, ticks: Ticks) -> Exchange {
    loop {
        let drawn = any_exchange(r, ticks);
        if !drawn.readings().contains(&0) {
            return drawn;
        }
    }
}
