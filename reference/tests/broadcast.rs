//! Our writer's broadcast packet on many seeds: its client gives the true difference less the time
//! that the packet travelled, and a unicast client refuses it.

use reference::arrival::arrival;
use reference::broadcast;
use reference::client::{Client, FRESH, Phase, Token};
use reference::random::Random;
use reference::refusal::Refusal::*;
use reference::server::Settings;

/// No two clocks are this far apart.
const FAR: i128 = (1 << 62) - (1 << 36);

fn any(r: &mut Random) -> i128 {
    i128::from(r.number() as i64)
}

fn settings(r: &mut Random, synchronised: bool) -> Settings {
    Settings {
        synchronised,
        leap: r.octet_below(3),
        precision: -(r.octet_below(33) as i8),
        identifier: *b"GPS\0",
        reference: r.number(),
    }
}

fn written(r: &mut Random, synchronised: bool, t3: u64) -> [u8; 48] {
    let set = settings(r, synchronised);
    let (version, poll) = (1 + r.octet_below(4), 4 + r.octet_below(11));
    let mut packet = [0x77; 48];
    assert_eq!(broadcast::write(&set, version, poll, t3, &mut packet), Ok(()));
    packet
}

#[test]
fn the_result_is_below_the_true_difference_by_the_time_travelled() {
    let mut r = Random::new(6);
    for _ in 0..100_000 {
        let sent = any(&mut r);
        let within = i128::from(r.below((1 << 36) + 1));
        let travelled = r.pick([0, 1, 1 << 36, within]);
        let inside = i128::from(r.below(2 * FAR as u64 - 1)) - FAR + 1;
        let difference = r.pick([FAR - 1, 1 - FAR, 0, inside]);
        let client = any(&mut r);
        let t3 = (sent + client + difference) as u64;
        let t4 = (sent + travelled + client) as u64;
        assert!(t3 != 0 && t4 != 0);
        let packet = written(&mut r, true, t3);
        assert_eq!(broadcast::arrival(&packet, t4).map(i128::from), Ok(difference - travelled));
    }
}

#[test]
fn a_packet_that_is_not_synchronised_is_refused() {
    let mut r = Random::new(7);
    for t3 in [0, 1, u64::MAX] {
        let packet = written(&mut r, false, t3);
        assert_eq!(broadcast::arrival(&packet, 1), Err(BroadcastUnsynchronised));
    }
}

#[test]
fn a_unicast_client_refuses_it() {
    let mut r = Random::new(8);
    let idle = Client { asked: true, uptime: 7, ..FRESH };
    let stopped = Client { phase: Phase::Stopped, ..idle };
    for _ in 0..10_000 {
        let (t3, t4, version) = (r.number(), r.number(), 1 + r.octet_below(4));
        let token = Token(if r.one_in(2) { t3 } else { r.number() });
        let waiting = Client { phase: Phase::Waiting, t1: t3, token, version, ..idle };
        let (synchronised, alternate) = (r.one_in(2), r.one_in(2));
        let packet = written(&mut r, synchronised, t3);
        assert_eq!(arrival(&waiting, &packet, t4, alternate).err(), Some(OriginateMismatch));
        for client in [FRESH, idle, stopped] {
            assert_eq!(arrival(&client, &packet, t4, alternate).err(), Some(NotWaiting));
        }
    }
}
