//! Replies with a fault, each refused by a wanted number, or made a kiss.

use super::packets::kiss_code;
use super::replies::{ROOT_SECOND, Reply};
use super::timestamps::timestamp;
use crate::client::Client;
use crate::packet::Fields;
use crate::random::Random;
use crate::refusal::Refusal::{self, *};
use crate::timestamp::{LIMIT, SECOND};

/// Half the circle.
const HALF: u64 = 1 << 63;

/// What a reply is changed to have: it is a kiss, or refused.
#[derive(Clone, Copy, PartialEq, Eq, Debug)]
pub enum Fault {
    Kiss,
    By(Refusal),
}

/// The 32 bits of a root delay or root dispersion that does not pass. One function serves both: a
/// negative delay, read without its sign, is 2^31 or more.
fn large_root(r: &mut Random) -> u32 {
    match r.below(6) {
        0 => r.pick([ROOT_SECOND, u32::MAX]),
        1 => r.pick([ROOT_SECOND + 1, (1 << 31) - 1, 1 << 31, (1 << 31) + 1]),
        // Just above the limit, and small negative delays.
        2 => ROOT_SECOND + r.below(ROOT_SECOND.into()) as u32,
        3 => u32::MAX - r.below(ROOT_SECOND.into()) as u32,
        _ => ROOT_SECOND + r.below((1 << 32) - u64::from(ROOT_SECOND)) as u32,
    }
}

/// Makes a reply a kiss, which may carry what the tests after it refuse.
fn make_kiss(r: &mut Random, fields: &mut Fields) {
    fields.stratum = 0;
    fields.identifier = kiss_code(r);
    if r.one_in(2) {
        fields.leap = 3;
    }
    if r.one_in(4) {
        fields.receive = 0;
        fields.transmit = 0;
    }
    if r.one_in(4) {
        fields.root_delay = large_root(r) as i32;
    }
    if r.one_in(4) {
        fields.root_dispersion = large_root(r);
    }
}

/// An originate timestamp that is not the token.
fn other_originate(r: &mut Random, client: &Client, receive: u64) -> u64 {
    let token = client.token.0;
    let other = match r.below(10) {
        0 => token.wrapping_add(1),
        1 => token.wrapping_sub(1),
        2 => 0,
        3 => u64::MAX,
        4 => receive,
        5 => timestamp(r),
        6 => token.swap_bytes(),
        7 | 8 => client.t1,
        _ => token ^ (1 << r.below(64)),
    };
    if other == token { !token } else { other }
}

/// Units that a difference is negative by.
fn backward(r: &mut Random) -> u64 {
    match r.below(5) {
        0 | 1 => 1,
        2 => 1 + r.below(SECOND),
        3 => HALF - 1,
        _ => 1 + r.below(HALF - 1),
    }
}

/// From `least` to 2^63 - 1 units, the ends often.
fn forward(r: &mut Random, least: u64) -> u64 {
    match r.below(5) {
        0 | 1 => least,
        2 => least + r.below(SECOND),
        3 => HALF - 1,
        _ => least + r.below(HALF - least),
    }
}

/// Units that P is above -2^63, at least one and fewer than the delay, so that Q lies across the
/// half circle.
fn first_below_second(r: &mut Random, delay: u64) -> u64 {
    match r.below(4) {
        0 => 1,
        // Q is 2^63 - 1.
        1 => delay - 1,
        _ => 1 + r.below(delay - 1),
    }
}

fn make_delay_negative(r: &mut Random, t1: u64, reply: &mut Reply) {
    let elapsed = reply.t4.wrapping_sub(t1) & (LIMIT * 2 - 1);
    reply.fields.transmit = reply.fields.receive.wrapping_add(forward(r, elapsed + 1));
}

fn make_first_below_second(r: &mut Random, t1: u64, reply: &mut Reply) {
    let fields = &mut reply.fields;
    let mut hold = fields.transmit.wrapping_sub(fields.receive);
    // P and Q lie on different sides of the half circle only where the delay is two or more.
    match reply.t4.wrapping_sub(t1).wrapping_sub(hold) {
        0 | 1 if hold < 2 => reply.t4 = t1.wrapping_add(hold + 2),
        0 | 1 => hold -= 2,
        _ => {}
    }
    let delay = reply.t4.wrapping_sub(t1).wrapping_sub(hold);
    fields.receive = t1.wrapping_add(HALF).wrapping_add(first_below_second(r, delay));
    fields.transmit = fields.receive.wrapping_add(hold);
}

/// Takes the order from T4 and T1, T3 and T2, T2 and T1, or T3 and T4; the last two keep the hold.
fn make_half_circle_apart(r: &mut Random, t1: u64, reply: &mut Reply) {
    let fields = &mut reply.fields;
    let hold = fields.transmit.wrapping_sub(fields.receive);
    match r.below(4) {
        0 => reply.t4 = t1.wrapping_add(HALF),
        1 => fields.transmit = fields.receive.wrapping_add(HALF),
        2 => {
            fields.receive = t1.wrapping_add(HALF);
            fields.transmit = fields.receive.wrapping_add(hold);
        }
        _ => {
            fields.transmit = reply.t4.wrapping_add(HALF);
            fields.receive = fields.transmit.wrapping_sub(hold);
        }
    }
}

fn add_time_fault(r: &mut Random, refusal: Refusal, t1: u64, reply: &mut Reply) {
    let fields = &mut reply.fields;
    match refusal {
        OwnClockZero => reply.t4 = 0,
        ServerTimestampZero => {
            let which = r.below(3);
            if which != 0 {
                fields.receive = 0;
            }
            if which != 1 {
                fields.transmit = 0;
            }
        }
        ArrivedBeforeSent => reply.t4 = t1.wrapping_sub(backward(r)),
        ArrivedTooLate => reply.t4 = t1.wrapping_add(forward(r, LIMIT + 1)),
        AnsweredBeforeReceived => fields.transmit = fields.receive.wrapping_sub(backward(r)),
        DelayNegative => make_delay_negative(r, t1, reply),
        FirstBelowSecond => make_first_below_second(r, t1, reply),
        NoOrder => make_half_circle_apart(r, t1, reply),
        _ => {}
    }
}

fn high_stratum(r: &mut Random) -> u8 {
    match r.below(2) {
        0 => r.pick([16, 17, 128, 255]),
        _ => 16 + r.octet_below(240),
    }
}

/// Changes a reply so that it has the fault, if no test before that refuses it. A packet's
/// length is not changed here.
pub fn add_fault(r: &mut Random, fault: Fault, client: &Client, reply: &mut Reply) {
    let fields = &mut reply.fields;
    match fault {
        Fault::Kiss => make_kiss(r, fields),
        Fault::By(OriginateMismatch) => {
            fields.originate = other_originate(r, client, fields.receive);
        }
        Fault::By(ReplyModeWrong) => fields.mode = (5 + r.octet_below(7)) % 8,
        Fault::By(VersionMismatch) => {
            fields.version = (fields.version % 8 + 1 + r.octet_below(7)) % 8;
        }
        Fault::By(ServerUnsynchronised) => fields.leap = 3,
        Fault::By(StratumTooHigh) => fields.stratum = high_stratum(r),
        Fault::By(RootDelayOutOfRange) => fields.root_delay = large_root(r) as i32,
        Fault::By(RootDispersionTooLarge) => fields.root_dispersion = large_root(r),
        Fault::By(refusal) => add_time_fault(r, refusal, client.t1, reply),
    }
}

#[cfg(test)]
mod tests {
    use super::*;
    use crate::arrival::{Arrived, Told, arrival};
    use crate::client::{FRESH, Phase};
    use crate::generate::packets::octets_of;
    use crate::generate::replies::good_reply;
    use crate::generate::timestamps::nonzero_token;

    /// The arrival of a reply that has a fault, if one is given.
    fn arrived(r: &mut Random, fault: Option<Fault>) -> (Fields, Result<Arrived, Refusal>) {
        // Any number: a changed clock is then not zero, which other tests refuse.
        let t1 = r.number();
        let token = nonzero_token(r, t1);
        let client = Client { phase: Phase::Waiting, t1, token, version: 4, asked: true, ..FRESH };
        let mut reply = good_reply(r, &client);
        fault.into_iter().for_each(|fault| add_fault(r, fault, &client, &mut reply));
        (reply.fields, arrival(&client, &octets_of(&reply.fields), reply.t4, r.one_in(2)))
    }

    const REFUSALS: [Refusal; 15] = [
        OwnClockZero,
        OriginateMismatch,
        ReplyModeWrong,
        VersionMismatch,
        ServerUnsynchronised,
        StratumTooHigh,
        ServerTimestampZero,
        RootDelayOutOfRange,
        RootDispersionTooLarge,
        ArrivedBeforeSent,
        ArrivedTooLate,
        AnsweredBeforeReceived,
        DelayNegative,
        FirstBelowSecond,
        NoOrder,
    ];

    #[test]
    fn good_replies_are_accepted() {
        let mut r = Random::new(3);
        for _ in 0..2000 {
            let (fields, result) = arrived(&mut r, None);
            assert!(matches!(result.unwrap().told, Told::Accepted(_)), "{fields:?}");
        }
    }

    #[test]
    fn replies_are_refused_by_their_fault() {
        let mut r = Random::new(3);
        for refusal in REFUSALS.into_iter().cycle().take(30_000) {
            let (fields, result) = arrived(&mut r, Some(Fault::By(refusal)));
            assert_eq!(result, Err(refusal), "{fields:?}");
        }
    }

    #[test]
    fn kisses_have_any_root_fields() {
        let mut r = Random::new(4);
        let (mut delays, mut dispersions) = (0, 0);
        for _ in 0..2000 {
            let (fields, result) = arrived(&mut r, Some(Fault::Kiss));
            assert!(matches!(result.unwrap().told, Told::Kiss { .. }), "{fields:?}");
            delays += u32::from(fields.root_delay < 0);
            dispersions += u32::from(fields.root_dispersion >= ROOT_SECOND);
        }
        assert!(delays > 100 && dispersions > 100);
    }
}
