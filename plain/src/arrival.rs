//! The arrival of a packet at the client.

use crate::client::{Client, EXPONENT_LEAST, EXPONENT_MOST, Phase, Request};
use crate::kiss;
use crate::packet::{self, Fields, LEAP_ALARM, MODE_SERVER};
use crate::refusal::Refusal;
use crate::timestamp::{Difference, Timestamp};

/// 16 s, in units of 2^-32 s.
const ROUND_TRIP_MOST: i64 = 1 << 36;
/// One second, in units of 2^-16 s.
const ROOT_LIMIT: u32 = 1 << 16;

#[derive(Clone, Copy, Debug, PartialEq, Eq)]
pub enum Arrival {
    Accepted(Sample),
    Kiss { code: u32, row: u8 },
}

/// Twice the offset plus the half is the sum of the two differences.
#[derive(Clone, Copy, Debug, PartialEq, Eq)]
pub struct Sample {
    pub offset: i64,
    pub half: u8,
    pub delay: i64,
}

impl Client {
    /// Returns what the packet tells and the next record.
    #[inline(always)]
    pub fn arrival(
        &self,
        packet: &[u8],
        t4: Timestamp,
        alternate: bool,
    ) -> Result<(Arrival, Self), Refusal> {
        if !self.is_legal() {
            return Err(Refusal::IllegalRecord);
        }
        let reply = packet::read(packet)?;
        self.check_answers(&reply)?;
        if reply.stratum == 0 {
            return Ok(self.kiss(reply.identifier, alternate));
        }
        check_server(&reply, t4)?;
        let sample = measure(self.request.t1, reply.receive, reply.transmit, t4)?;
        let next = self.end_request(Phase::Idle, EXPONENT_LEAST);
        Ok((Arrival::Accepted(sample), next))
    }

    /// Whether the packet is a reply to the request that is waited for.
    #[inline(always)]
    fn check_answers(&self, reply: &Fields) -> Result<(), Refusal> {
        if self.phase != Phase::Waiting {
            return Err(Refusal::NotWaiting);
        }
        if reply.originate != self.request.token {
            return Err(Refusal::OriginateDiffers);
        }
        if reply.mode != MODE_SERVER {
            return Err(Refusal::ModeNotServer);
        }
        if reply.version != self.request.version {
            return Err(Refusal::VersionDiffers);
        }
        Ok(())
    }

    #[inline(always)]
    fn kiss(&self, code: u32, alternate: bool) -> (Arrival, Self) {
        let next = if alternate {
            self.end_request(Phase::Stopped, self.exponent)
        } else {
            self.end_request(Phase::Idle, EXPONENT_MOST.min(self.exponent + 1))
        };
        let row = kiss::row(code);
        (Arrival::Kiss { code, row }, next)
    }

    #[inline(always)]
    fn end_request(&self, phase: Phase, exponent: u8) -> Self {
        Self {
            phase,
            request: Request::NONE,
            exponent,
            ..*self
        }
    }
}

/// The tests of the server's own state, and of the clock reading before them.
#[inline(always)]
fn check_server(reply: &Fields, t4: Timestamp) -> Result<(), Refusal> {
    if t4.is_zero() {
        return Err(Refusal::ClockZero);
    }
    if reply.leap == LEAP_ALARM {
        return Err(Refusal::ServerUnsynchronised);
    }
    if reply.stratum > 15 {
        return Err(Refusal::StratumTooHigh);
    }
    if reply.receive.is_zero() || reply.transmit.is_zero() {
        return Err(Refusal::ReceiveOrTransmitZero);
    }
    // A negative root delay has its high bit set and so is not below the limit either.
    if reply.root_delay.cast_unsigned() >= ROOT_LIMIT {
        return Err(Refusal::RootDelay);
    }
    if reply.root_dispersion >= ROOT_LIMIT {
        return Err(Refusal::RootDispersion);
    }
    Ok(())
}

#[inline(always)]
fn measure(t1: Timestamp, t2: Timestamp, t3: Timestamp, t4: Timestamp) -> Result<Sample, Refusal> {
    let round_trip = match t4.since(t1) {
        Difference::Ahead(units) => units,
        Difference::Behind(_) => return Err(Refusal::RoundTripNegative),
        Difference::NoOrder => return Err(Refusal::NoOrder),
    };
    if round_trip > ROUND_TRIP_MOST {
        return Err(Refusal::RoundTripTooLong);
    }
    let hold = match t3.since(t2) {
        Difference::Ahead(units) => units,
        Difference::Behind(_) => return Err(Refusal::HoldNegative),
        Difference::NoOrder => return Err(Refusal::NoOrder),
    };
    let delay = round_trip - hold;
    if delay < 0 {
        return Err(Refusal::DelayNegative);
    }
    let first = t2.since(t1).units().ok_or(Refusal::NoOrder)?;
    let second = t3.since(t4).units().ok_or(Refusal::NoOrder)?;
    if first < second {
        return Err(Refusal::OffsetOutOfRange);
    }
    let (offset, half) = halve(first, second);
    Ok(Sample {
        offset,
        half,
        delay,
    })
}

/// Half of the sum, rounded down, and what the rounding left.
#[inline(always)]
fn halve(first: i64, second: i64) -> (i64, u8) {
    let sum = i128::from(first) + i128::from(second);
    ((sum >> 1) as i64, (sum & 1) as u8)
}

#[cfg(test)]
mod tests {
    use super::*;

    const SECOND: u64 = 1 << 32;
    /// Half a circle from T1.
    const FAR: u64 = SECOND + (1 << 63);

    fn waiting() -> Client {
        Client {
            phase: Phase::Waiting,
            request: Request {
                t1: Timestamp(SECOND),
                token: Timestamp(77),
                version: 4,
            },
            asked: true,
            uptime: 3,
            exponent: 8,
        }
    }

    fn reply() -> Fields {
        Fields {
            version: 4,
            mode: 4,
            stratum: 1,
            originate: Timestamp(77),
            receive: Timestamp(SECOND),
            transmit: Timestamp(SECOND),
            ..Fields::default()
        }
    }

    fn arrive(client: &Client, fields: &Fields, t4: u64) -> Result<(Arrival, Client), Refusal> {
        let mut packet = [0; 48];
        packet::write(fields, &mut packet).unwrap();
        client.arrival(&packet, Timestamp(t4), false)
    }

    fn number(fields: &Fields, t4: u64) -> u8 {
        arrive(&waiting(), fields, t4).unwrap_err().number()
    }

    fn measured(t2: u64, t3: u64, t4: u64) -> Result<(i64, u8, i64), u8> {
        let stamps = (Timestamp(t2), Timestamp(t3), Timestamp(t4));
        measure(Timestamp(SECOND), stamps.0, stamps.1, stamps.2)
            .map(|s| (s.offset, s.half, s.delay))
            .map_err(Refusal::number)
    }

    #[test]
    fn the_request_is_compared_first() {
        let stranger = Fields {
            originate: Timestamp(78),
            mode: 5,
            version: 3,
            stratum: 0,
            ..reply()
        };
        assert_eq!(number(&stranger, 0), 9);
        let own = Fields {
            originate: Timestamp(77),
            ..stranger
        };
        assert_eq!(number(&own, 0), 10);
        assert_eq!(number(&Fields { mode: 4, ..own }, 0), 11);
    }

    #[test]
    fn length_and_phase_come_before_the_originate() {
        let mut client = Client {
            phase: Phase::Idle,
            request: Request::NONE,
            ..waiting()
        };
        let short = client.arrival(&[0; 47], Timestamp(0), false);
        assert_eq!(short, Err(Refusal::PacketLength));
        let idle = arrive(&client, &reply(), SECOND);
        assert_eq!(idle, Err(Refusal::NotWaiting));
        client.exponent = 15;
        let illegal = client.arrival(&[0; 47], Timestamp(0), false);
        assert_eq!(illegal, Err(Refusal::IllegalRecord));
    }

    #[test]
    fn the_server_is_tested_in_order() {
        let mut bad = Fields {
            leap: 3,
            stratum: 16,
            root_delay: -1,
            root_dispersion: 65536,
            receive: Timestamp(0),
            ..reply()
        };
        assert_eq!(number(&bad, 0), 3);
        assert_eq!(number(&bad, 1), 12);
        bad.leap = 2;
        assert_eq!(number(&bad, 1), 13);
        bad.stratum = 15;
        assert_eq!(number(&bad, 1), 14);
        bad.receive = Timestamp(SECOND);
        assert_eq!(number(&bad, 1), 33);
        bad.root_delay = 65536;
        assert_eq!(number(&bad, 1), 33);
        bad.root_delay = 65535;
        assert_eq!(number(&bad, 1), 34);
        bad.root_dispersion = 65535;
        assert_eq!(number(&bad, 1), 15);
    }

    #[test]
    fn an_accepted_reply_ends_the_request() {
        let sample = Sample {
            offset: -1,
            half: 1,
            delay: 1,
        };
        let answer = arrive(&waiting(), &reply(), SECOND + 1);
        let expected = Client {
            asked: true,
            uptime: 3,
            ..Client::FRESH
        };
        assert_eq!(answer, Ok((Arrival::Accepted(sample), expected)));
    }

    #[test]
    fn a_kiss_stops_or_backs_off() {
        let rate = u32::from_be_bytes(*b"RATE");
        let fields = Fields {
            leap: 3,
            stratum: 0,
            identifier: rate,
            ..reply()
        };
        let mut packet = [0; 48];
        packet::write(&fields, &mut packet).unwrap();
        for (alternate, exponent, phase, next) in [
            (true, 8, Phase::Stopped, 8),
            (false, 8, Phase::Idle, 9),
            (false, 14, Phase::Idle, 14),
        ] {
            let client = Client {
                exponent,
                ..waiting()
            };
            let answer = client.arrival(&packet, Timestamp(0), alternate);
            let kiss = Arrival::Kiss {
                code: rate,
                row: 12,
            };
            let ended = Client {
                phase,
                request: Request::NONE,
                exponent: next,
                ..client
            };
            assert_eq!(answer, Ok((kiss, ended)));
        }
    }

    #[test]
    fn measures_on_each_side_of_a_line() {
        let t1 = SECOND;
        assert_eq!(measured(t1, t1, t1), Ok((0, 0, 0)));
        assert_eq!(
            measured(t1, t1, t1 + (1 << 36)),
            Ok((-(1 << 35), 0, 1 << 36))
        );
        assert_eq!(measured(t1, t1, t1 + (1 << 36) + 1), Err(16));
        assert_eq!(measured(t1, t1, t1 - 1), Err(15));
        assert_eq!(measured(t1, t1 + 6, t1 + 5), Err(18));
        assert_eq!(measured(t1, t1 - 1, t1), Err(17));
    }

    #[test]
    fn clocks_may_be_nearly_half_a_circle_apart() {
        let (t1, far) = (SECOND, FAR);
        assert_eq!(measured(far - 1, far - 1, t1), Ok((i64::MAX, 0, 0)));
        assert_eq!(measured(far, far, t1), Err(43));
        assert_eq!(measured(far, far, t1 + 1), Err(43));
        assert_eq!(measured(far + 1, far + 1, t1), Ok((-i64::MAX, 0, 0)));
        assert_eq!(measured(far + 1, far + 1, t1 + 1), Err(43));
        assert_eq!(measured(far + 1, far + 1, t1 + 2), Err(19));
        assert_eq!(measured(far + 2, far + 2, t1 + 1), Ok((-i64::MAX, 1, 1)));
    }

    #[test]
    fn round_trip_and_hold_of_half_a_circle_have_no_order() {
        let (t1, far) = (SECOND, FAR);
        assert_eq!(measured(t1, t1, far - 1), Err(16));
        assert_eq!(measured(t1, t1, far), Err(43));
        assert_eq!(measured(t1, t1, far + 1), Err(15));
        assert_eq!(measured(t1, far - 1, t1), Err(18));
        assert_eq!(measured(t1, far, t1), Err(43));
        assert_eq!(measured(t1, far + 1, t1), Err(17));
    }

    #[test]
    fn no_order_keeps_its_places_among_the_tests() {
        let (t1, far) = (SECOND, FAR);
        assert_eq!(measured(t1, far, t1 - 1), Err(15));
        assert_eq!(measured(t1, far, t1 + (1 << 36) + 1), Err(16));
        assert_eq!(measured(far, far - 1, t1), Err(17));
        assert_eq!(measured(far, far + 6, t1 + 5), Err(18));
        assert_eq!(measured(far - 1, far + 5, t1 + 5), Err(18));
        assert_eq!(measured(t1, t1 - 1, far), Err(43));
        let late_root = Fields {
            root_dispersion: 65536,
            ..reply()
        };
        assert_eq!(number(&late_root, far), 34);
        assert_eq!(number(&reply(), far), 43);
    }
}
