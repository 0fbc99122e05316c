//! The whole run of an exchange at a record of a list.

use crate::bound::{check, check_premises};
use crate::calls::{any_call, refused_call, token};
use crate::client::settings;
use reference::associations::Associations;
use reference::client::FRESH;
use reference::generate::clocks::Exchange;
use reference::generate::ticks::{Ticks, exchange};
use reference::random::Random;
use reference::server::reply;

/// A list of fresh records after calls for any of them.
fn any_list(r: &mut Random) -> Associations {
    let count = 1 + r.below(8) as usize;
    let mut list = Associations { records: vec![FRESH; count], in_use: 0 };
    for _ in 0..r.below(40) {
        let number = r.below(count as u64) as usize;
        list = any_call(r, &list, number).unwrap_or(list);
    }
    list
}

/// Calls for other records and refused ones for this, until its reply arrives: whether that is
/// accepted. None where the ask is refused.
fn run(r: &mut Random, exchange: &Exchange) -> Option<bool> {
    check_premises(exchange);
    let [t1, t2, t3, t4] = exchange.readings();
    let before = any_list(r);
    let number = r.below(before.records.len() as u64) as usize;
    let mut request = [0xEE; 48];
    let mut list = before.ask(number, &mut request, 4, t1, token(r), 1 << 40).ok()?;
    let waiting = list.records[number];
    let mut answer = [0; 48];
    reply(&settings(r), t2, t3, &request, &mut answer).unwrap();
    for _ in 0..r.below(12) {
        let other = r.below(list.records.len() as u64) as usize;
        if other != number {
            list = any_call(r, &list, other).unwrap_or(list);
        }
        refused_call(r, &list, number);
        assert_eq!(list.records[number], waiting);
    }
    let came = list.arrival(number, &answer, t4);
    let in_use = came.as_ref().map_or(list.in_use, |arrived| arrived.next.in_use);
    assert_eq!(in_use, list.in_use);
    Some(check(exchange, came.map(|arrived| arrived.told)).is_some())
}

#[test]
fn exact_clocks() {
    let mut r = Random::new(12);
    let ticks = Ticks { client: 1, server: 1 };
    let ran: Vec<bool> = (0..20_000)
        .filter_map(|_| {
            let exchange = exchange(&mut r, ticks);
            run(&mut r, &exchange)
        })
        .collect();
    assert!(ran.len() > 5000, "{}", ran.len());
    assert!(!ran.contains(&false));
}

#[test]
fn clocks_that_tick() {
    let mut r = Random::new(13);
    let ran: Vec<bool> = (0..20_000)
        .filter_map(|_| {
            let ticks = Ticks::any(&mut r);
            let exchange = exchange(&mut r, ticks);
            run(&mut r, &exchange)
        })
        .collect();
    let accepted = ran.iter().filter(|&&accepted| accepted).count();
    assert!(accepted > 3000 && ran.len() - accepted > 500, "{accepted} of {}", ran.len());
}
