//! Clocks that are a quarter and half a circle apart: measured, arriving and replayed.

use reference::arrival::{Told, arrival};
use reference::associations::Associations;
use reference::client::{Client, FRESH, Phase, Token};
use reference::packet::{self, Fields};
use reference::refusal::Refusal::{self, FirstBelowSecond, NoOrder};
use reference::timestamp::{Measured, measure};
use reference::{ledger, replay};

const QUARTER: u64 = 1 << 62;
const HALF: u64 = 1 << 63;

/// Offset, half and delay.
type Figure = Result<(i64, u8, i64), Refusal>;

/// What comes of T2 = T3 = T1 + x and T4 = T1 + y.
const FIGURES: [(u64, u64, Figure); 16] = [
    (QUARTER - 1, 0, Ok(((1 << 62) - 1, 0, 0))),
    (QUARTER, 0, Ok((1 << 62, 0, 0))),
    (3 * QUARTER, 0, Ok((-(1 << 62), 0, 0))),
    (3 * QUARTER, 1, Ok((-(1 << 62) - 1, 1, 1))),
    (HALF - 1, 0, Ok((i64::MAX, 0, 0))),
    (HALF - 1, 1, Ok((i64::MAX - 1, 1, 1))),
    (HALF, 0, Err(NoOrder)),
    (HALF, 1, Err(NoOrder)),
    (HALF, 1 << 36, Err(NoOrder)),
    (HALF + 1, 0, Ok((i64::MIN + 1, 0, 0))),
    (HALF + 1, 1, Err(NoOrder)),
    (HALF + 1, 2, Err(FirstBelowSecond)),
    (HALF + 2, 1, Ok((i64::MIN + 1, 1, 1))),
    (HALF + (1 << 36) - 1, 1 << 36, Err(FirstBelowSecond)),
    (HALF + (1 << 36), 1 << 36, Err(NoOrder)),
    (HALF + (1 << 36) + 1, 1 << 36, Ok((i64::MIN + (1 << 35) + 1, 0, 1 << 36))),
];

/// Calls with T1, T2 = T3, T4 and what is wanted, for several T1.
fn for_each(check: impl Fn(u64, u64, u64, Result<Measured, Refusal>)) {
    for t1 in [1 << 32, 5, u64::MAX - 5] {
        for (x, y, figure) in FIGURES {
            let wanted = figure.map(|(offset, half, delay)| Measured { offset, half, delay });
            check(t1, t1.wrapping_add(x), t1.wrapping_add(y), wanted);
        }
    }
}

/// The token of every request.
const TOKEN: u64 = 77;

/// A reply to a request.
fn reply(t2: u64) -> [u8; 48] {
    let mut packet = [0; 48];
    let fields = Fields { version: 4, mode: 4, stratum: 1, ..Fields::default() };
    let times = Fields { originate: TOKEN, receive: t2, transmit: t2, ..fields };
    packet::write(&times, &mut packet).unwrap();
    packet
}

#[test]
fn measured() {
    for_each(|t1, t2, t4, wanted| assert_eq!(measure(t1, t2, t2, t4), wanted));
}

#[test]
fn arriving_at_a_client_and_at_a_record_of_a_list() {
    for_each(|t1, t2, t4, wanted| {
        let token = Token(TOKEN);
        let client = Client { phase: Phase::Waiting, t1, token, version: 4, asked: true, ..FRESH };
        let list = Associations { records: vec![FRESH, client], in_use: 0 };
        let packet = reply(t2);
        let told = wanted.map(Told::Accepted);
        assert_eq!(arrival(&client, &packet, t4, false).map(|arrived| arrived.told), told);
        assert_eq!(list.arrival(1, &packet, t4).map(|arrived| arrived.told), told);
    });
}

#[test]
fn replayed() {
    for_each(|t1, t2, t4, wanted| {
        let packet: String = reply(t2).map(|octet| format!("{octet:02X}")).concat();
        let frames = format!("A1{:016X}{t1:016X}{TOKEN:016X}\nA2{:016X}{t4:016X}{packet}\n", 0, 0);
        let mut answers = Vec::new();
        replay::run(frames.as_bytes(), &mut answers).unwrap();
        let answer = match wanted {
            Ok(m) => format!("00{:016X}{:02X}{:016X}\n", m.offset, m.half, m.delay),
            Err(refusal) => format!("{:02X}\n", refusal.number()),
        };
        assert_eq!(
            String::from_utf8(answers).unwrap().split_inclusive('\n').nth(1),
            Some(&*answer)
        );
    });
}

#[test]
fn too_far_for_the_ledger() {
    for (_, _, figure) in FIGURES {
        if let Ok((offset, half, _)) = figure {
            assert_eq!(ledger::entry(0, offset, half), Err(Refusal::EntryTooLarge));
        }
    }
}
