//! Calls of the client. What a call is given beside the record is drawn by functions of their own,
//! which serve the calls for a record of a list too.

use super::faults::{Fault, add_fault};
use super::packets::{alter, octets_of};
use super::plain_calls::buffer_length;
use super::records::{legal_record, record};
use super::replies::good_reply;
use super::server_calls::legal_settings;
use super::tails::{make_illegal, put_tail};
use super::ticks::{Ticks, exchange};
use super::timestamps::{nonzero_token, timestamp, uptime};
use crate::client::{Client, Phase, Token, request_fields};
use crate::conformance::call::{AskArguments, Call, LONGEST_PACKET};
use crate::random::Random;
use crate::refusal::Refusal::*;
use crate::server::reply_fields;

fn version(r: &mut Random) -> u8 {
    match r.below(10) {
        0 => r.pick([0, 5, 6, 7, 8, 255]),
        1 => r.octet(),
        _ => 1 + r.octet_below(4),
    }
}

/// An uptime about the end of the poll interval, which may have an illegal exponent.
fn uptime_of_ask(r: &mut Random, last: u64, exponent: u8) -> u64 {
    let interval = 1 << (exponent & 31);
    let due = last.wrapping_add(interval);
    match r.below(10) {
        0 => due.wrapping_sub(1),
        1 | 2 => due,
        3 => due.wrapping_add(1),
        4 => last.wrapping_sub(r.below(3)),
        5 => due.wrapping_add(r.below(1 << 20)),
        6 => last.wrapping_add(r.below(interval)),
        7 => u64::MAX - r.below(3),
        8 => uptime(r),
        _ => due.saturating_add(r.below(1 << 40)),
    }
}

/// A token, at times zero or the T1 of the request that the client waits for.
fn token(r: &mut Random, client: &Client, clock: u64) -> Token {
    match r.below(16) {
        0 => Token::ZERO,
        1 if client.phase == Phase::Waiting => Token(client.t1),
        _ => nonzero_token(r, clock),
    }
}

pub fn asked(r: &mut Random, client: &Client) -> AskArguments {
    let n = if r.one_in(2) { 48 } else { buffer_length(r) };
    let version = version(r);
    let clock = if r.one_in(16) { 0 } else { timestamp(r) };
    let token = token(r, client, clock);
    let uptime = uptime_of_ask(r, client.uptime, client.exponent);
    AskArguments { n, version, clock, token, uptime }
}

pub fn ask(r: &mut Random, line: &mut Vec<u8>) {
    let client = record(r, Phase::Idle);
    let arguments = asked(r, &client);
    Call::Ask { client, arguments }.put(line);
}

/// Kisses, the originate test and the last tests occur more often.
const FAULTS: [Fault; 23] = [
    Fault::By(PacketLengthWrong),
    Fault::By(OriginateMismatch),
    Fault::By(OriginateMismatch),
    Fault::By(ReplyModeWrong),
    Fault::By(VersionMismatch),
    Fault::Kiss,
    Fault::Kiss,
    Fault::Kiss,
    Fault::By(OwnClockZero),
    Fault::By(ServerUnsynchronised),
    Fault::By(StratumTooHigh),
    Fault::By(ServerTimestampZero),
    Fault::By(RootDelayOutOfRange),
    Fault::By(RootDispersionTooLarge),
    Fault::By(ArrivedBeforeSent),
    Fault::By(ArrivedTooLate),
    Fault::By(AnsweredBeforeReceived),
    Fault::By(DelayNegative),
    Fault::By(DelayNegative),
    Fault::By(FirstBelowSecond),
    Fault::By(FirstBelowSecond),
    Fault::By(NoOrder),
    Fault::By(NoOrder),
];

/// A record, T4 and a packet that comes to it, at times from clocks that tick.
pub fn arrived(r: &mut Random) -> (Client, u64, Vec<u8>) {
    if r.one_in(8) {
        return reply_of_ticking_clocks(r);
    }
    let client = record(r, Phase::Waiting);
    let (t4, packet) = reply_with_faults(r, &client);
    (client, t4, packet)
}

/// The record of an ask, and our server's reply to it, unaltered.
fn reply_of_ticking_clocks(r: &mut Random) -> (Client, u64, Vec<u8>) {
    let ticks = Ticks::any(r);
    let [t1, t2, t3, t4] = exchange(r, ticks).readings();
    let token = nonzero_token(r, t1);
    let client = Client { t1, token, ..legal_record(r, Phase::Waiting) };
    let request = request_fields(client.version, client.token);
    let fields = reply_fields(&legal_settings(r), t2, t3, &request);
    (client, t4, octets_of(&fields))
}

/// An arrival's T4 and packet.
fn reply_with_faults(r: &mut Random, client: &Client) -> (u64, Vec<u8>) {
    let mut reply = good_reply(r, client);
    let mut illegal = false;
    for _ in 0..r.pick([0, 0, 1, 1, 1, 1, 1, 2, 2, 3]) {
        let fault = r.pick(FAULTS);
        illegal |= fault == Fault::By(PacketLengthWrong);
        add_fault(r, fault, client, &mut reply);
    }
    let mut packet = octets_of(&reply.fields);
    if r.one_in(4) {
        put_tail(r, &mut packet);
    }
    alter(r, 24, &mut packet);
    if illegal {
        make_illegal(r, LONGEST_PACKET, &mut packet);
    }
    (reply.t4, packet)
}

pub fn arrival(r: &mut Random, line: &mut Vec<u8>) {
    let (client, t4, packet) = arrived(r);
    let alternate = r.one_in(2);
    Call::Arrival { client, t4, alternate, packet: &packet }.put(line);
}

/// A give-up's uptime.
pub fn uptime_of_give_up(r: &mut Random, client: &Client) -> u64 {
    match r.below(8) {
        0 => client.uptime.wrapping_add(15),
        1 | 2 => client.uptime.wrapping_add(16),
        3 => client.uptime.wrapping_add(17),
        4 => client.uptime.wrapping_add(r.below(32)),
        5 => client.uptime.wrapping_sub(r.below(3)),
        6 => client.uptime.saturating_add(r.below(1 << 40)),
        _ => uptime(r),
    }
}

pub fn give_up(r: &mut Random, line: &mut Vec<u8>) {
    let client = record(r, Phase::Waiting);
    let uptime = uptime_of_give_up(r, &client);
    Call::GiveUp { client, uptime }.put(line);
}

#[cfg(test)]
mod tests {
    use super::*;
    use crate::arrival::{Told, arrival};

    #[test]
    fn replies_of_ticking_clocks_are_accepted_or_refused_by_18() {
        let mut r = Random::new(1);
        let (mut accepted, mut refused) = (0, 0);
        for _ in 0..10_000 {
            let (client, t4, packet) = reply_of_ticking_clocks(&mut r);
            match arrival(&client, &packet, t4, false).map(|arrived| arrived.told) {
                Ok(Told::Accepted(_)) => accepted += 1,
                Err(DelayNegative) => refused += 1,
                other => panic!("{other:?}"),
            }
        }
        assert!(accepted > 5000 && refused > 500, "{accepted} {refused}");
    }
}
