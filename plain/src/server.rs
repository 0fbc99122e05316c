//! The server's reply to one request.

use crate::packet::{self, Fields, LEAP_ALARM, MODE_CLIENT, MODE_SERVER};
use crate::refusal::Refusal;
use crate::timestamp::{Difference, Timestamp};

const INIT: u32 = u32::from_be_bytes(*b"INIT");

#[derive(Clone, Copy, Debug)]
pub struct Settings {
    pub synchronised: bool,
    pub leap: u8,
    pub precision: i8,
    pub identifier: u32,
    pub reference: Timestamp,
}

impl Settings {
    #[inline(always)]
    fn is_legal(&self) -> bool {
        self.leap <= 2 && (-32..=0).contains(&self.precision)
    }
}

/// Writes the reply to the buffer; after a refusal the buffer is as it was.
#[inline(always)]
pub fn reply(
    settings: &Settings,
    request: &[u8],
    received: Timestamp,
    answered: Timestamp,
    buffer: &mut [u8],
) -> Result<(), Refusal> {
    let octets = packet::check_buffer(buffer)?;
    let request = packet::read(request)?;
    if request.mode != MODE_CLIENT {
        return Err(Refusal::ModeNotClient);
    }
    if !(1..=4).contains(&request.version) {
        return Err(Refusal::RequestVersion);
    }
    if !settings.is_legal() {
        return Err(Refusal::Settings);
    }
    let fields = if settings.synchronised {
        synchronised(settings, &request, received, answered)?
    } else {
        unsynchronised(settings, &request)
    };
    *octets = fields.to_octets();
    Ok(())
}

#[inline(always)]
fn synchronised(
    settings: &Settings,
    request: &Fields,
    received: Timestamp,
    answered: Timestamp,
) -> Result<Fields, Refusal> {
    if received.is_zero() || answered.is_zero() {
        return Err(Refusal::ReceiveOrTransmitZero);
    }
    match answered.since(received) {
        Difference::Ahead(_) => {}
        Difference::Behind(_) => return Err(Refusal::HoldNegative),
        Difference::NoOrder => return Err(Refusal::NoOrder),
    }
    Ok(Fields {
        leap: settings.leap,
        stratum: 1,
        identifier: settings.identifier,
        reference: settings.reference,
        receive: received,
        transmit: answered,
        ..common(settings, request)
    })
}

#[inline(always)]
fn unsynchronised(settings: &Settings, request: &Fields) -> Fields {
    Fields {
        leap: LEAP_ALARM,
        identifier: INIT,
        ..common(settings, request)
    }
}

/// The fields that both kinds of reply share; the others are zero.
#[inline(always)]
fn common(settings: &Settings, request: &Fields) -> Fields {
    Fields {
        version: request.version,
        mode: MODE_SERVER,
        poll: request.poll,
        precision: settings.precision,
        originate: request.transmit,
        ..Fields::default()
    }
}

#[cfg(test)]
mod tests {
    use super::*;

    const SETTINGS: Settings = Settings {
        synchronised: true,
        leap: 1,
        precision: -20,
        identifier: u32::from_be_bytes(*b"GPS\0"),
        reference: Timestamp(9),
    };

    fn request() -> [u8; 48] {
        let mut request = [0; 48];
        request[0] = 0x23;
        request[2] = 6;
        request[40..].copy_from_slice(&7_u64.to_be_bytes());
        request
    }

    fn number(settings: &Settings, request: &[u8], t2: u64, t3: u64) -> u8 {
        let mut buffer = [0x5A; 48];
        let answer = reply(settings, request, Timestamp(t2), Timestamp(t3), &mut buffer);
        assert_eq!(answer.is_err(), buffer == [0x5A; 48]);
        answer.map_or_else(Refusal::number, |()| 0)
    }

    #[test]
    fn a_synchronised_server_tells_its_time() {
        let mut buffer = [0x5A; 49];
        let answer = reply(
            &SETTINGS,
            &request(),
            Timestamp(10),
            Timestamp(11),
            &mut buffer,
        );
        assert_eq!(answer, Ok(()));
        let expected = Fields {
            leap: 1,
            version: 4,
            mode: 4,
            stratum: 1,
            poll: 6,
            precision: -20,
            identifier: SETTINGS.identifier,
            reference: Timestamp(9),
            originate: Timestamp(7),
            receive: Timestamp(10),
            transmit: Timestamp(11),
            ..Fields::default()
        };
        assert_eq!(packet::read(&buffer[..48]), Ok(expected));
        assert_eq!(buffer[48], 0x5A);
    }

    #[test]
    fn an_unsynchronised_server_tells_no_time() {
        let settings = Settings {
            synchronised: false,
            ..SETTINGS
        };
        let mut buffer = [0x5A; 48];
        let answer = reply(
            &settings,
            &request(),
            Timestamp(0),
            Timestamp(0),
            &mut buffer,
        );
        assert_eq!(answer, Ok(()));
        let mut expected = [0; 48];
        expected[..4].copy_from_slice(&[0xE4, 0, 6, 0xEC]);
        expected[12..16].copy_from_slice(b"INIT");
        expected[31] = 7;
        assert_eq!(buffer, expected);
    }

    #[test]
    fn requests_are_refused_in_order() {
        let mut refused = request();
        refused[0] = 0x04;
        assert_eq!(number(&SETTINGS, &refused[..47], 0, 0), 7);
        assert_eq!(number(&SETTINGS, &refused, 0, 0), 21);
        refused[0] = 0x03;
        assert_eq!(number(&SETTINGS, &refused, 0, 0), 22);
        refused[0] = 0x2B;
        assert_eq!(number(&SETTINGS, &refused, 0, 0), 22);
        assert_eq!(number(&SETTINGS, &request(), 0, 5), 14);
        assert_eq!(number(&SETTINGS, &request(), 5, 0), 14);
        assert_eq!(number(&SETTINGS, &request(), 5, 4), 17);
        assert_eq!(number(&SETTINGS, &request(), u64::MAX, 4), 0);
    }

    #[test]
    fn a_hold_of_half_a_circle_has_no_order() {
        let half = 1 << 63;
        let numbers = |t2: u64, t3: u64| {
            let unsynchronised = Settings {
                synchronised: false,
                ..SETTINGS
            };
            [SETTINGS, unsynchronised].map(|set| number(&set, &request(), t2, t3))
        };
        assert_eq!(numbers(5, half + 4), [0, 0]);
        assert_eq!(numbers(5, half + 5), [43, 0]);
        assert_eq!(numbers(half + 5, 5), [43, 0]);
        assert_eq!(numbers(5, half + 6), [17, 0]);
        assert_eq!(numbers(0, half), [14, 0]);
    }

    #[test]
    fn settings_are_tested_also_when_unsynchronised() {
        let numbers = |leap, precision| {
            let synchronised = Settings {
                leap,
                precision,
                ..SETTINGS
            };
            let unsynchronised = Settings {
                synchronised: false,
                ..synchronised
            };
            [synchronised, unsynchronised].map(|set| number(&set, &request(), 5, 5))
        };
        assert_eq!(numbers(2, 0), [0, 0]);
        assert_eq!(numbers(0, -32), [0, 0]);
        assert_eq!(numbers(3, 0), [23, 23]);
        assert_eq!(numbers(0, 1), [23, 23]);
        assert_eq!(numbers(0, -33), [23, 23]);
    }

    #[test]
    fn a_short_buffer_is_refused_first() {
        let answer = reply(&SETTINGS, &[], Timestamp(0), Timestamp(0), &mut [0; 47]);
        assert_eq!(answer, Err(Refusal::BufferTooShort));
    }
}
