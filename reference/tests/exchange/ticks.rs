//! Exchanges between clocks that tick, with each tick of the one and each of the other.

use crate::bound::{Miss, check, check_premises, room, whole_readings};
use crate::client::run;
use reference::generate::clocks::Exchange;
use reference::generate::ticks::{Ticks, exchange};
use reference::random::Random;
use std::collections::BTreeMap;

/// Exchanges of each pair of ticks.
const OF_EACH: u64 = 160;
/// Each thing that is counted occurs at least as often.
const OFTEN: u32 = 100;

/// How often each thing occurred.
#[derive(Default)]
struct Tally(BTreeMap<String, u32>);

impl Tally {
    fn see(&mut self, word: &str, name: &str, held: bool) {
        *self.0.entry(format!("{word} {name}")).or_default() += u32::from(held);
    }

    fn see_premises(&mut self, word: &str, exchange: &Exchange) {
        let [trip, far] = room(exchange);
        let [sent, received, answered, arrived] = exchange.times;
        let [t1, t2, t3, t4] = whole_readings(exchange).map(|whole| whole >> 64);
        let ticks = [exchange.client.tick, exchange.server.tick];
        let difference = exchange.difference();
        self.see(word, "in all", true);
        self.see(word, "trip at its limit", trip == 0);
        self.see(word, "trip one short of it", trip == 1);
        self.see(word, "difference at its limit above", far == 0 && difference > 0);
        self.see(word, "difference at its limit below", far == 0 && difference < 0);
        self.see(word, "difference one short of it", far == 1);
        self.see(word, "difference none", difference == 0);
        self.see(word, "client passes 2036", t1 != t4);
        self.see(word, "server passes 2036", t2 != t3);
        self.see(word, "received at once", sent == received);
        self.see(word, "arrived at once", answered == arrived);
        self.see(word, "received and arrived at once", arrived - sent == answered - received);
        self.see(word, "client's tick 1", ticks[0] == 1 && ticks[1] > 1);
        self.see(word, "server's tick 1", ticks[0] > 1 && ticks[1] == 1);
        self.see(word, "client's tick 2^32", ticks[0] == 1 << 32);
        self.see(word, "server's tick 2^32", ticks[1] == 1 << 32);
    }

    fn see_accepted(&mut self, exchange: &Exchange, miss: Miss) {
        let (client, server) = (exchange.client.tick, exchange.server.tick);
        let equal = client == server && client > 1;
        let [sent, received, answered, arrived] = exchange.times;
        let above = miss.miss == miss.delay + 2 * (client - 1);
        let below = -miss.miss == miss.delay + 2 * (server - 1);
        self.see("accepted", "answered at once", received == answered);
        self.see("accepted", "all at once", sent == arrived);
        self.see("accepted", "delay 0", miss.delay == 0);
        self.see("at the bound above", "client's tick larger", above && client > server);
        self.see("at the bound above", "client's tick smaller", above && client < server);
        self.see("at the bound above", "ticks equal", above && equal);
        self.see("at the bound below", "server's tick larger", below && client < server);
        self.see("at the bound below", "server's tick smaller", below && client > server);
        self.see("at the bound below", "ticks equal", below && equal);
    }

    /// Whether the exchange is accepted.
    fn take(&mut self, exchange: &Exchange, miss: Option<Miss>) -> bool {
        let word = if miss.is_some() { "accepted" } else { "refused by 18" };
        self.see_premises(word, exchange);
        miss.inspect(|&miss| self.see_accepted(exchange, miss)).is_some()
    }
}

/// Both outcomes occur, except where neither clock ticks.
fn exchanges_of(r: &mut Random, ticks: Ticks, tally: &mut Tally) {
    let mut accepted = 0;
    for _ in 0..OF_EACH {
        let exchange = exchange(r, ticks);
        check_premises(&exchange);
        let came = run(r, &exchange);
        accepted += u64::from(tally.take(&exchange, check(&exchange, came)));
    }
    let exact = ticks.client == 1 && ticks.server == 1;
    assert!(accepted > 0);
    assert_eq!(accepted == OF_EACH, exact, "{ticks:?}");
}

#[test]
fn each_pair_of_ticks() {
    let mut r = Random::new(14);
    let mut tally = Tally::default();
    for pair in 0..33 * 33 {
        let ticks = Ticks { client: 1 << (pair / 33), server: 1 << (pair % 33) };
        exchanges_of(&mut r, ticks, &mut tally);
    }
    let counts = tally.0;
    assert!(counts["accepted in all"] + counts["refused by 18 in all"] >= 100_000);
    let seldom: Vec<_> = counts.iter().filter(|&(_, &count)| count < OFTEN).collect();
    assert!(seldom.is_empty(), "{seldom:?}");
}
