//! The client's record and its ask.

use crate::packet::{self, Fields, MODE_CLIENT};
use crate::refusal::Refusal;
use crate::timestamp::Timestamp;

pub const EXPONENT_LEAST: u8 = 6;
pub const EXPONENT_MOST: u8 = 14;

#[derive(Clone, Copy, Debug, PartialEq, Eq)]
pub enum Phase {
    Idle,
    Waiting,
    Stopped,
}

/// What is kept of the request that is waited for; all zero outside waiting.
#[derive(Clone, Copy, Debug, PartialEq, Eq)]
pub struct Request {
    pub t1: Timestamp,
    pub token: Timestamp,
    pub version: u8,
}

impl Request {
    pub const NONE: Self = Self {
        t1: Timestamp::ZERO,
        token: Timestamp::ZERO,
        version: 0,
    };

    #[inline(always)]
    fn is_legal(&self) -> bool {
        !self.t1.is_zero() && !self.token.is_zero() && is_version(self.version)
    }
}

#[derive(Clone, Copy, Debug, PartialEq, Eq)]
pub struct Client {
    pub phase: Phase,
    pub request: Request,
    pub asked: bool,
    /// The uptime of the last ask that was not refused; zero before any.
    pub uptime: u64,
    pub exponent: u8,
}

#[inline(always)]
fn is_version(version: u8) -> bool {
    (1..=4).contains(&version)
}

impl Client {
    pub const FRESH: Self = Self {
        phase: Phase::Idle,
        request: Request::NONE,
        asked: false,
        uptime: 0,
        exponent: EXPONENT_LEAST,
    };

    #[inline(always)]
    pub fn is_legal(&self) -> bool {
        if !self.asked {
            return *self == Self::FRESH;
        }
        let request_legal = match self.phase {
            Phase::Waiting => self.request.is_legal(),
            Phase::Idle | Phase::Stopped => self.request == Request::NONE,
        };
        request_legal && (EXPONENT_LEAST..=EXPONENT_MOST).contains(&self.exponent)
    }

    /// Writes a request and returns the record that waits for the reply.
    #[inline(always)]
    pub fn ask(&self, buffer: &mut [u8], request: Request, uptime: u64) -> Result<Self, Refusal> {
        if !self.is_legal() {
            return Err(Refusal::IllegalRecord);
        }
        let octets = packet::check_buffer(buffer)?;
        check_request(&request)?;
        self.check_may_ask(uptime)?;
        let fields = Fields {
            version: request.version,
            mode: MODE_CLIENT,
            transmit: request.token,
            ..Fields::default()
        };
        *octets = fields.to_octets();
        Ok(Self {
            phase: Phase::Waiting,
            request,
            asked: true,
            uptime,
            exponent: self.exponent,
        })
    }

    #[inline(always)]
    fn check_may_ask(&self, uptime: u64) -> Result<(), Refusal> {
        match self.phase {
            Phase::Stopped => Err(Refusal::Stopped),
            Phase::Waiting => Err(Refusal::AlreadyWaiting),
            Phase::Idle if self.asked && self.is_early(uptime) => Err(Refusal::TooEarly),
            Phase::Idle => Ok(()),
        }
    }

    /// Whether less than 2^exponent s have passed since the last ask.
    #[inline(always)]
    fn is_early(&self, uptime: u64) -> bool {
        match uptime.checked_sub(self.uptime) {
            Some(passed) => passed < 1 << self.exponent,
            None => true,
        }
    }
}

#[inline(always)]
fn check_request(request: &Request) -> Result<(), Refusal> {
    if !is_version(request.version) {
        return Err(Refusal::AskedVersion);
    }
    if request.t1.is_zero() {
        return Err(Refusal::ClockZero);
    }
    if request.token.is_zero() {
        return Err(Refusal::TokenZero);
    }
    Ok(())
}

#[cfg(test)]
mod tests {
    use super::*;

    fn request(version: u8, t1: u64, token: u64) -> Request {
        Request {
            t1: Timestamp(t1),
            token: Timestamp(token),
            version,
        }
    }

    fn number(client: Client, asked: Request, uptime: u64) -> u8 {
        let mut buffer = [0x5A; 48];
        let answer = client.ask(&mut buffer, asked, uptime);
        assert_eq!(answer.is_err(), buffer == [0x5A; 48]);
        answer.map_or_else(Refusal::number, |_| 0)
    }

    #[test]
    fn an_ask_shows_the_token_and_keeps_the_clock() {
        let mut buffer = [0x5A; 49];
        let client = Client::FRESH.ask(&mut buffer, request(4, 5, 6), 7).unwrap();
        let mut expected = [0; 49];
        expected[0] = 0x23;
        expected[47] = 6;
        expected[48] = 0x5A;
        assert_eq!(buffer, expected);
        assert_eq!(client.phase, Phase::Waiting);
        assert_eq!(client.request, request(4, 5, 6));
        assert_eq!((client.asked, client.uptime, client.exponent), (true, 7, 6));
    }

    #[test]
    fn asks_are_refused_in_order() {
        let fresh = Client::FRESH;
        let short = fresh.ask(&mut [0; 47], request(0, 0, 0), 0);
        assert_eq!(short, Err(Refusal::BufferTooShort));
        assert_eq!(number(fresh, request(0, 0, 0), 0), 2);
        assert_eq!(number(fresh, request(5, 0, 0), 0), 2);
        assert_eq!(number(fresh, request(1, 0, 0), 0), 3);
        assert_eq!(number(fresh, request(1, 1, 0), 0), 42);
        assert_eq!(number(fresh, request(1, 1, 1), 0), 0);
    }

    #[test]
    fn stopped_and_waiting_clients_do_not_ask() {
        let stopped = Client {
            phase: Phase::Stopped,
            asked: true,
            ..Client::FRESH
        };
        assert_eq!(number(stopped, request(4, 1, 1), 1 << 20), 4);
        let waiting = Client {
            phase: Phase::Waiting,
            request: request(4, 1, 1),
            ..stopped
        };
        assert_eq!(number(waiting, request(4, 1, 1), 1 << 20), 5);
    }

    #[test]
    fn the_poll_interval_is_kept() {
        let idle = Client {
            asked: true,
            uptime: 100,
            exponent: 7,
            ..Client::FRESH
        };
        assert_eq!(number(idle, request(4, 1, 1), 99), 6);
        assert_eq!(number(idle, request(4, 1, 1), 227), 6);
        assert_eq!(number(idle, request(4, 1, 1), 228), 0);
        let late = Client {
            uptime: u64::MAX,
            ..idle
        };
        assert_eq!(number(late, request(4, 1, 1), u64::MAX), 6);
    }

    #[test]
    fn illegal_records_are_refused_first() {
        let asked = Client {
            asked: true,
            ..Client::FRESH
        };
        let waiting = Client {
            phase: Phase::Waiting,
            request: request(4, 1, 1),
            ..asked
        };
        let illegal = [
            Client {
                exponent: 5,
                ..asked
            },
            Client {
                exponent: 15,
                ..asked
            },
            Client {
                exponent: 7,
                ..Client::FRESH
            },
            Client {
                uptime: 1,
                ..Client::FRESH
            },
            Client {
                phase: Phase::Stopped,
                ..Client::FRESH
            },
            Client {
                request: request(4, 1, 1),
                ..asked
            },
            Client {
                request: request(0, 1, 1),
                ..waiting
            },
            Client {
                request: request(4, 0, 1),
                ..waiting
            },
            Client {
                request: request(4, 1, 0),
                ..waiting
            },
            Client {
                asked: false,
                ..waiting
            },
        ];
        for record in illegal {
            assert_eq!(number(record, request(0, 0, 0), 0), 29, "{record:?}");
        }
    }
}
