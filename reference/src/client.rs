//! The client's record, with ask and give up: docs/RULES.md, "The client".

use crate::packet::{self, Fields};
use crate::refusal::Refusal::{self, *};

pub const LEAST_EXPONENT: u8 = 6;
pub const LARGEST_EXPONENT: u8 = 14;
/// Seconds after an ask before its request may be given up.
const GIVE_UP_SECONDS: i128 = 16;

#[derive(Clone, Copy, PartialEq, Eq, Debug)]
pub enum Phase {
    Idle,
    Waiting,
    Stopped,
}

/// What a request's transmit field carries, so that it does not show the clock. It is no timestamp.
#[derive(Clone, Copy, PartialEq, Eq, Debug)]
pub struct Token(pub u64);

impl Token {
    pub const ZERO: Token = Token(0);
}

#[derive(Clone, Copy, PartialEq, Eq, Debug)]
pub struct Client {
    pub phase: Phase,
    /// The clock reading at the request.
    pub t1: u64,
    pub token: Token,
    pub version: u8,
    pub asked: bool,
    pub uptime: u64,
    pub exponent: u8,
}

pub const FRESH: Client = Client {
    phase: Phase::Idle,
    t1: 0,
    token: Token::ZERO,
    version: 0,
    asked: false,
    uptime: 0,
    exponent: LEAST_EXPONENT,
};

pub fn legal(client: &Client) -> bool {
    let Client { t1, token, version, .. } = *client;
    let request_legal = match client.phase {
        Phase::Waiting => t1 != 0 && token != Token::ZERO && (1..=4).contains(&version),
        Phase::Idle | Phase::Stopped => (t1, token, version) == (0, Token::ZERO, 0),
    };
    let exponent_legal = (LEAST_EXPONENT..=LARGEST_EXPONENT).contains(&client.exponent);
    request_legal && exponent_legal && (client.asked || *client == FRESH)
}

/// The client after its request is done with.
pub fn without_request(client: &Client, phase: Phase, exponent: u8) -> Client {
    Client { phase, t1: 0, token: Token::ZERO, version: 0, exponent, ..*client }
}

/// The exponent after a request that brought no time.
pub fn raised(exponent: u8) -> u8 {
    LARGEST_EXPONENT.min(exponent + 1)
}

/// Whether the time to the next ask has not passed yet.
fn too_soon(client: &Client, uptime: u64) -> bool {
    let interval = 2i128.pow(client.exponent.into());
    client.asked && i128::from(uptime) < i128::from(client.uptime) + interval
}

pub fn request_fields(version: u8, token: Token) -> Fields {
    Fields { version, mode: 3, transmit: token.0, ..Fields::default() }
}

/// Writes a request, and hands the waiting client back.
pub fn ask(
    client: &Client,
    buffer: &mut [u8],
    version: u8,
    clock: u64,
    token: Token,
    uptime: u64,
) -> Result<Client, Refusal> {
    RecordNotLegal.when(!legal(client))?;
    BufferTooShort.when(buffer.len() < packet::LENGTH)?;
    VersionUnsupported.when(!(1..=4).contains(&version))?;
    OwnClockZero.when(clock == 0)?;
    TokenZero.when(token == Token::ZERO)?;
    ClientStopped.when(client.phase == Phase::Stopped)?;
    AlreadyWaiting.when(client.phase == Phase::Waiting)?;
    AskedTooSoon.when(too_soon(client, uptime))?;
    packet::write(&request_fields(version, token), buffer)?;
    Ok(Client {
        phase: Phase::Waiting,
        t1: clock,
        token,
        version,
        asked: true,
        uptime,
        exponent: client.exponent,
    })
}

/// Ends the wait for a reply, and hands the idle client back.
pub fn give_up(client: &Client, uptime: u64) -> Result<Client, Refusal> {
    RecordNotLegal.when(!legal(client))?;
    NotWaiting.when(client.phase != Phase::Waiting)?;
    GaveUpTooSoon.when(i128::from(uptime) < i128::from(client.uptime) + GIVE_UP_SECONDS)?;
    Ok(without_request(client, Phase::Idle, raised(client.exponent)))
}

#[cfg(test)]
mod tests {
    use super::*;

    const WAITING: Client = Client {
        phase: Phase::Waiting,
        t1: 1 << 32,
        token: Token(7),
        version: 4,
        asked: true,
        uptime: 100,
        exponent: 6,
    };
    const IDLE: Client = Client { asked: true, ..FRESH };
    const STOPPED: Client = Client { phase: Phase::Stopped, ..IDLE };

    #[test]
    fn poll_intervals() {
        for exponent in 6..=14 {
            let c = Client { asked: true, uptime: 1000, exponent, ..FRESH };
            let due = 1000 + (1u64 << exponent);
            let mut buffer = [7; 50];
            assert_eq!(ask(&c, &mut buffer, 4, 1, Token(1), due - 1), Err(AskedTooSoon));
            assert_eq!(ask(&c, &mut buffer, 4, 1, Token(1), 999), Err(AskedTooSoon));
            assert_eq!(buffer, [7; 50]);
            assert!(ask(&c, &mut buffer, 4, 1, Token(1), due).is_ok());
            assert_eq!(buffer[48..], [7, 7]);
        }
    }

    #[test]
    fn poll_intervals_do_not_wrap() {
        let late = Client { asked: true, uptime: u64::MAX - 10, ..FRESH };
        let mut buffer = [7; 48];
        assert_eq!(ask(&late, &mut buffer, 4, 1, Token(1), u64::MAX), Err(AskedTooSoon));
        assert_eq!(ask(&late, &mut buffer, 4, 1, Token(1), 60), Err(AskedTooSoon));
        assert!(ask(&FRESH, &mut buffer, 4, 1, Token(1), 0).is_ok());
    }

    #[test]
    fn request() {
        let mut buffer = [7; 48];
        let waiting = ask(&FRESH, &mut buffer, 3, 5, Token(0x0102_0304_0506_0708), 9);
        let wanted = Client {
            phase: Phase::Waiting,
            t1: 5,
            token: Token(0x0102_0304_0506_0708),
            version: 3,
            asked: true,
            uptime: 9,
            exponent: 6,
        };
        assert_eq!(waiting, Ok(wanted));
        assert_eq!(buffer[0], 0x1B);
        assert_eq!(buffer[1..40], [0; 39]);
        assert_eq!(buffer[40..], [1, 2, 3, 4, 5, 6, 7, 8]);
    }

    #[test]
    fn request_does_not_show_the_clock() {
        let request = |clock, token| {
            let mut buffer = [7; 48];
            let waiting = ask(&FRESH, &mut buffer, 4, clock, token, 9).unwrap();
            assert_eq!((waiting.t1, waiting.token), (clock, token));
            buffer
        };
        for token in [1, 5, 1 << 32, u64::MAX].map(Token) {
            for clock in [2, 5, 1 << 32, u64::MAX] {
                assert_eq!(request(clock, token), request(1, token));
            }
            assert_eq!(request(5, token)[40..], token.0.to_be_bytes());
        }
    }

    #[test]
    fn ask_order() {
        let mut buffer = [7; 48];
        let illegal = Client { exponent: 5, ..FRESH };
        let mut number = |client: Client, length, version, clock, token| {
            ask(&client, &mut buffer[..length], version, clock, Token(token), 0).unwrap_err()
        };
        assert_eq!(number(illegal, 0, 0, 0, 0), RecordNotLegal);
        assert_eq!(number(STOPPED, 47, 0, 0, 0), BufferTooShort);
        assert_eq!(number(STOPPED, 48, 0, 0, 0), VersionUnsupported);
        assert_eq!(number(STOPPED, 48, 5, 0, 0), VersionUnsupported);
        assert_eq!(number(STOPPED, 48, 4, 0, 0), OwnClockZero);
        assert_eq!(number(STOPPED, 48, 4, 0, 1), OwnClockZero);
        for client in [STOPPED, WAITING, IDLE, FRESH] {
            assert_eq!(number(client, 48, 4, 1, 0), TokenZero);
        }
        assert_eq!(number(STOPPED, 48, 4, 1, 1), ClientStopped);
        assert_eq!(number(WAITING, 48, 4, 1, 1), AlreadyWaiting);
        assert_eq!(number(IDLE, 48, 4, 1, 1), AskedTooSoon);
        assert_eq!(buffer, [7; 48]);
    }

    #[test]
    fn give_ups() {
        assert_eq!(give_up(&WAITING, 115), Err(GaveUpTooSoon));
        assert_eq!(give_up(&WAITING, 99), Err(GaveUpTooSoon));
        let idle = Client { asked: true, uptime: 100, exponent: 7, ..FRESH };
        assert_eq!(give_up(&WAITING, 116), Ok(idle));
        assert_eq!(give_up(&FRESH, 116), Err(NotWaiting));
        let largest = Client { exponent: 14, ..WAITING };
        assert_eq!(give_up(&largest, 116), Ok(Client { exponent: 14, ..idle }));
        let late = Client { uptime: u64::MAX - 15, ..WAITING };
        assert_eq!(give_up(&late, u64::MAX), Err(GaveUpTooSoon));
        let late = Client { uptime: u64::MAX - 16, ..WAITING };
        assert!(give_up(&late, u64::MAX).is_ok());
    }

    #[test]
    fn legality() {
        let illegal = [
            Client { exponent: 5, ..WAITING },
            Client { exponent: 15, ..WAITING },
            Client { t1: 0, ..WAITING },
            Client { token: Token::ZERO, ..WAITING },
            Client { version: 0, ..WAITING },
            Client { version: 5, ..WAITING },
            Client { asked: false, ..WAITING },
            Client { t1: 1, ..STOPPED },
            Client { token: Token(1), ..STOPPED },
            Client { version: 4, ..STOPPED },
            Client { t1: 1, ..IDLE },
            Client { token: Token(1), ..IDLE },
            Client { version: 4, ..IDLE },
            Client { asked: false, ..STOPPED },
            Client { exponent: 7, ..FRESH },
            Client { uptime: 1, ..FRESH },
        ];
        for client in illegal {
            assert!(!legal(&client), "{client:?}");
        }
        assert!(legal(&FRESH) && legal(&WAITING) && legal(&IDLE) && legal(&STOPPED));
        assert!(legal(&Client { token: Token(WAITING.t1), ..WAITING }));
        assert!(legal(&Client { uptime: u64::MAX, exponent: 9, ..STOPPED }));
    }
}
