//! The whole run of an exchange at a client.

use crate::bound::{check, check_premises};
use crate::calls::{refused_call, token};
use reference::arrival::{Told, arrival};
use reference::associations::Associations;
use reference::client::{Client, FRESH, Token, ask};
use reference::conformance::answer::put_answer;
use reference::conformance::call::Call;
use reference::conformance::records::put_client;
use reference::generate::clocks::Exchange;
use reference::generate::ticks::{Ticks, exchange};
use reference::random::Random;
use reference::refusal::Refusal;
use reference::server::{Settings, reply};

pub fn settings(r: &mut Random) -> Settings {
    Settings {
        synchronised: true,
        leap: r.octet_below(3),
        precision: -(r.octet_below(33) as i8),
        identifier: *b"GPS\0",
        reference: r.number(),
    }
}

/// The record that an answer to an arrival hands back stands at its end.
fn assert_unchanged(waiting: &Client, packet: &[u8], t4: u64, alternate: bool) {
    let (mut answer, mut record) = (Vec::new(), Vec::new());
    put_answer(&Call::Arrival { client: *waiting, t4, alternate, packet }, &mut answer);
    put_client(waiting, &mut record);
    assert!(answer.ends_with(&record));
}

/// A fresh client asks, the server answers, calls that are refused come in between, and the reply
/// arrives.
pub fn run(r: &mut Random, exchange: &Exchange) -> Result<Told, Refusal> {
    let [t1, t2, t3, t4] = exchange.readings();
    let mut request = [0xEE; 48];
    let version = 1 + r.octet_below(4);
    let token = if r.one_in(4) { Token(t1) } else { token(r) };
    let waiting = ask(&FRESH, &mut request, version, t1, token, r.below(1 << 40)).unwrap();
    let mut answer = [0; 48];
    reply(&settings(r), t2, t3, &request, &mut answer).unwrap();
    let alone = Associations { records: vec![waiting], in_use: 0 };
    for _ in 0..r.below(6) {
        refused_call(r, &alone, 0);
    }
    let alternate = r.one_in(2);
    let came = arrival(&waiting, &answer, t4, alternate);
    if came.is_err() {
        assert_unchanged(&waiting, &answer, t4, alternate);
    }
    came.map(|arrived| arrived.told)
}

/// At ticks of one unit nothing is added to the bound, and nothing is refused.
#[test]
fn exact_clocks() {
    let mut r = Random::new(11);
    for _ in 0..60_000 {
        let exchange = exchange(&mut r, Ticks { client: 1, server: 1 });
        check_premises(&exchange);
        let came = run(&mut r, &exchange);
        let miss = check(&exchange, came).unwrap();
        assert!(miss.miss.abs() <= miss.delay);
    }
}
