//! Each test of an arrival on both sides, and the order of the tests.

use reference::arrival::{Told, arrival};
use reference::client::{Client, FRESH, Phase, Token};
use reference::kiss::CODES;
use reference::packet::{self, Fields};
use reference::refusal::Refusal::{self, *};
use reference::timestamp::Measured;

const T: u64 = 1 << 32;
/// Half a circle from T.
const FAR: u64 = T + (1 << 63);

const TOKEN: u64 = 0x0123_4567_89AB_CDEF;

const WAITING: Client = Client {
    phase: Phase::Waiting,
    t1: T,
    token: Token(TOKEN),
    version: 4,
    asked: true,
    uptime: 100,
    ..FRESH
};

const GOOD: Fields = Fields {
    leap: 0,
    version: 4,
    mode: 4,
    stratum: 1,
    poll: 0,
    precision: 0,
    root_delay: 0,
    root_dispersion: 0,
    identifier: [0; 4],
    reference: 0,
    originate: TOKEN,
    receive: T,
    transmit: T,
};

/// Both root fields out of range.
const BAD_ROOTS: Fields = Fields { root_delay: -1, root_dispersion: u32::MAX, ..GOOD };

#[derive(Clone, Copy, PartialEq, Debug)]
enum Outcome {
    Refused(Refusal),
    Accepted,
    Kiss(u8),
}
use Outcome::*;

/// The arrival of a packet with these fields, which is the same with an alternate and without one.
fn outcome(fields: Fields, t4: u64) -> Outcome {
    let outcomes = [true, false].map(|alternate| outcome_with(alternate, fields, t4));
    assert_eq!(outcomes[0], outcomes[1]);
    outcomes[0]
}

/// The outcome; the record after it is looked at too.
fn outcome_with(alternate: bool, fields: Fields, t4: u64) -> Outcome {
    let mut octets = [0; 48];
    packet::write(&fields, &mut octets).unwrap();
    let idle = Client { asked: true, uptime: 100, ..FRESH };
    let stopped = Client { phase: Phase::Stopped, ..idle };
    let backed_off = Client { exponent: 7, ..idle };
    match arrival(&WAITING, &octets, t4, alternate) {
        Err(refusal) => Refused(refusal),
        Ok(arrived) => match arrived.told {
            Told::Accepted(_) => {
                assert_eq!(arrived.next, idle);
                Accepted
            }
            Told::Kiss { code, row } => {
                assert_eq!(arrived.next, if alternate { stopped } else { backed_off });
                assert_eq!(code, fields.identifier);
                Kiss(row)
            }
        },
    }
}

#[test]
fn fields() {
    assert_eq!(outcome(GOOD, T), Accepted);
    assert_eq!(outcome(Fields { originate: TOKEN + 1, ..GOOD }, T), Refused(OriginateMismatch));
    assert_eq!(outcome(Fields { originate: T, ..GOOD }, T), Refused(OriginateMismatch));
    assert_eq!(outcome(Fields { mode: 3, ..GOOD }, T), Refused(ReplyModeWrong));
    assert_eq!(outcome(Fields { version: 3, ..GOOD }, T), Refused(VersionMismatch));
    assert_eq!(outcome(Fields { stratum: 0, ..GOOD }, 0), Kiss(0));
    assert_eq!(outcome(GOOD, 0), Refused(OwnClockZero));
    assert_eq!(outcome(Fields { leap: 2, ..GOOD }, T), Accepted);
    assert_eq!(outcome(Fields { leap: 3, ..GOOD }, T), Refused(ServerUnsynchronised));
    assert_eq!(outcome(Fields { stratum: 15, ..GOOD }, T), Accepted);
    assert_eq!(outcome(Fields { stratum: 16, ..GOOD }, T), Refused(StratumTooHigh));
    assert_eq!(outcome(Fields { receive: 0, ..GOOD }, T), Refused(ServerTimestampZero));
    assert_eq!(outcome(Fields { transmit: 0, ..GOOD }, T), Refused(ServerTimestampZero));
}

#[test]
fn the_token_is_compared_and_t1_is_measured() {
    for (t1, token) in [(T, 1), (T, T), (T, T + 1), (1, T), (u64::MAX, T)] {
        let client = Client { t1, token: Token(token), ..WAITING };
        let t4 = t1.wrapping_add(2);
        for originate in [0, 1, T, T + 1, u64::MAX] {
            let mut octets = [0; 48];
            let fields = Fields { originate, receive: t4, transmit: t4, ..GOOD };
            packet::write(&fields, &mut octets).unwrap();
            let told = arrival(&client, &octets, t4, false).map(|arrived| arrived.told);
            let measured = Told::Accepted(Measured { offset: 1, half: 0, delay: 2 });
            let wanted = if originate == token { Ok(measured) } else { Err(OriginateMismatch) };
            assert_eq!(told, wanted);
        }
    }
}

#[test]
fn timestamps() {
    assert_eq!(outcome(GOOD, T - 1), Refused(ArrivedBeforeSent));
    assert_eq!(outcome(GOOD, T + (1 << 36)), Accepted);
    assert_eq!(outcome(GOOD, T + (1 << 36) + 1), Refused(ArrivedTooLate));
    let back = Fields { transmit: T - 1, ..GOOD };
    assert_eq!(outcome(back, T), Refused(AnsweredBeforeReceived));
    let long = Fields { transmit: T + 6, ..GOOD };
    assert_eq!(outcome(long, T + 5), Refused(DelayNegative));
    let past_half = Fields { receive: FAR + 1, transmit: FAR + 1, ..GOOD };
    assert_eq!(outcome(past_half, T), Accepted);
    assert_eq!(outcome(past_half, T + 2), Refused(FirstBelowSecond));
}

#[test]
fn no_order() {
    let with = |receive, transmit, t4| outcome(Fields { receive, transmit, ..GOOD }, t4);
    assert_eq!(with(T, T, FAR), Refused(NoOrder));
    assert_eq!(with(T, FAR, T), Refused(NoOrder));
    assert_eq!(with(FAR, FAR, T), Refused(NoOrder));
    assert_eq!(with(FAR + 1, FAR + 1, T + 1), Refused(NoOrder));
}

#[test]
fn earlier_tests_come_before_no_order() {
    let with = |receive, transmit, t4| outcome(Fields { receive, transmit, ..GOOD }, t4);
    assert_eq!(with(0, T, FAR), Refused(ServerTimestampZero));
    assert_eq!(with(T, FAR, T - 1), Refused(ArrivedBeforeSent));
    assert_eq!(with(T, FAR, T + (1 << 36) + 1), Refused(ArrivedTooLate));
    assert_eq!(with(FAR, FAR - 1, T), Refused(AnsweredBeforeReceived));
    assert_eq!(with(FAR, FAR + 6, T + 5), Refused(DelayNegative));
    assert_eq!(outcome(Fields { stratum: 0, ..GOOD }, FAR), Kiss(0));
    let mut octets = [0; 48];
    packet::write(&GOOD, &mut octets).unwrap();
    let client = Client { t1: 1 << 63, ..WAITING };
    assert_eq!(arrival(&client, &octets, 0, false), Err(OwnClockZero));
}

#[test]
fn lengths_and_phases() {
    let arrived = |client, length: usize| arrival(&client, &vec![0; length], T, false).err();
    assert_eq!(arrived(WAITING, 47), Some(PacketLengthWrong));
    assert_eq!(arrived(FRESH, 47), Some(PacketLengthWrong));
    assert_eq!(arrived(FRESH, 48), Some(NotWaiting));
    assert_eq!(arrived(Client { exponent: 15, ..WAITING }, 47), Some(RecordNotLegal));
}

#[test]
fn every_kiss_whatever_else_it_carries() {
    for (row, identifier) in (1..).zip(CODES) {
        let plain = Fields { stratum: 0, identifier, ..GOOD };
        let odd = Fields { leap: 3, stratum: 0, identifier, ..BAD_ROOTS };
        assert_eq!(outcome(plain, T), Kiss(row));
        assert_eq!(outcome(odd, 0), Kiss(row));
    }
}

#[test]
fn root_delays() {
    let outcome = |root_delay| outcome(Fields { root_delay, ..GOOD }, T);
    for delay in [0, 1, 65535] {
        assert_eq!(outcome(delay), Accepted, "{delay}");
    }
    let refused = [65536, 65537, i32::MAX, i32::MIN, -65536, -1].map(outcome);
    assert!(refused.iter().all(|o| *o == Refused(RootDelayOutOfRange)));
}

#[test]
fn root_dispersions() {
    let outcome = |root_dispersion| outcome(Fields { root_dispersion, ..GOOD }, T);
    for dispersion in [0, 1, 65535] {
        assert_eq!(outcome(dispersion), Accepted, "{dispersion}");
    }
    let refused = [65536, 65537, (1 << 31) - 1, 1 << 31, u32::MAX].map(outcome);
    assert!(refused.iter().all(|o| *o == Refused(RootDispersionTooLarge)));
}

#[test]
fn root_fields_come_after() {
    let wrong = BAD_ROOTS;
    assert_eq!(outcome(Fields { originate: T, ..wrong }, T), Refused(OriginateMismatch));
    assert_eq!(outcome(Fields { mode: 3, ..wrong }, T), Refused(ReplyModeWrong));
    assert_eq!(outcome(Fields { version: 3, ..wrong }, T), Refused(VersionMismatch));
    assert_eq!(outcome(wrong, 0), Refused(OwnClockZero));
    assert_eq!(outcome(Fields { leap: 3, ..wrong }, T), Refused(ServerUnsynchronised));
    assert_eq!(outcome(Fields { stratum: 16, ..wrong }, T), Refused(StratumTooHigh));
    assert_eq!(outcome(Fields { receive: 0, ..wrong }, T), Refused(ServerTimestampZero));
    assert_eq!(outcome(Fields { transmit: 0, ..wrong }, T), Refused(ServerTimestampZero));
    assert_eq!(outcome(wrong, T), Refused(RootDelayOutOfRange));
}

#[test]
fn root_fields_come_before_timestamps() {
    let later = [
        (T, T, FAR, NoOrder),
        (T, FAR, T, NoOrder),
        (FAR, FAR, T, NoOrder),
        (FAR + 1, FAR + 1, T + 1, NoOrder),
        (T, T, T - 1, ArrivedBeforeSent),
        (T, T, T + (1 << 36) + 1, ArrivedTooLate),
        (T, T - 1, T, AnsweredBeforeReceived),
        (T, T + 6, T + 5, DelayNegative),
        (FAR + 1, FAR + 1, T + 2, FirstBelowSecond),
    ];
    for (receive, transmit, t4, refusal) in later {
        let with = |root_delay, root_dispersion| {
            outcome(Fields { root_delay, root_dispersion, receive, transmit, ..GOOD }, t4)
        };
        assert_eq!(with(65536, 0), Refused(RootDelayOutOfRange));
        assert_eq!(with(0, 65536), Refused(RootDispersionTooLarge));
        assert_eq!(with(65535, 65535), Refused(refusal));
    }
}

#[test]
fn kisses_at_each_exponent() {
    let mut kiss = [0; 48];
    packet::write(&Fields { stratum: 0, identifier: *b"RATE", ..GOOD }, &mut kiss).unwrap();
    for (exponent, raised) in (6..=14).zip([7, 8, 9, 10, 11, 12, 13, 14, 14]) {
        let waiting = Client { exponent, ..WAITING };
        let idle = Client { asked: true, uptime: 100, ..FRESH };
        let without = arrival(&waiting, &kiss, T, false).unwrap();
        let with = arrival(&waiting, &kiss, T, true).unwrap();
        assert_eq!(without.told, with.told);
        assert_eq!(without.next, Client { exponent: raised, ..idle });
        assert_eq!(with.next, Client { phase: Phase::Stopped, exponent, ..idle });
    }
}
