//! Calls that come between an ask and its reply.

use reference::arrival::arrival;
use reference::associations::Associations;
use reference::client::{Token, ask, give_up};
use reference::generate::faults::{Fault, add_fault};
use reference::generate::packets::octets_of;
use reference::generate::replies::good_reply;
use reference::random::Random;
use reference::refusal::Refusal::{self, OriginateMismatch};

pub fn token(r: &mut Random) -> Token {
    Token(r.number())
}

/// A call for a waiting record that is refused, of the record alone and of the list.
pub fn refused_call(r: &mut Random, list: &Associations, number: usize) {
    let waiting = &list.records[number];
    match r.below(3) {
        0 => {
            let (mut buffer, clock, token, uptime) = ([7; 60], r.number(), token(r), r.number());
            assert!(ask(waiting, &mut buffer, 4, clock, token, uptime).is_err());
            assert!(list.ask(number, &mut buffer, 4, clock, token, uptime).is_err());
            assert_eq!(buffer, [7; 60]);
        }
        1 => {
            let uptime = r.below(waiting.uptime + 16);
            assert!(give_up(waiting, uptime).is_err());
            assert!(list.give_up(number, uptime).is_err());
        }
        _ => {
            let mut other = good_reply(r, waiting);
            if r.one_in(2) {
                add_fault(r, Fault::Kiss, waiting, &mut other);
            }
            add_fault(r, Fault::By(OriginateMismatch), waiting, &mut other);
            let packet = octets_of(&other.fields);
            let arrived = arrival(waiting, &packet, other.t4, r.one_in(2));
            assert_eq!(arrived, Err(OriginateMismatch));
            assert_eq!(list.arrival(number, &packet, other.t4), Err(OriginateMismatch));
        }
    }
}

/// Any call for a record, which may change it; a packet answers the record's request, and may be a
/// kiss.
pub fn any_call(
    r: &mut Random,
    list: &Associations,
    number: usize,
) -> Result<Associations, Refusal> {
    let client = list.records[number];
    let uptime = client.uptime + r.below(1 << 15);
    match r.below(4) {
        0 => list.ask(number, &mut [0; 48], 4, r.number(), token(r), uptime),
        1 => list.give_up(number, uptime),
        _ => {
            let mut reply = good_reply(r, &client);
            if r.one_in(2) {
                add_fault(r, Fault::Kiss, &client, &mut reply);
            }
            let packet = octets_of(&reply.fields);
            list.arrival(number, &packet, reply.t4).map(|arrived| arrived.next)
        }
    }
}
