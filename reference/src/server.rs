//! The server's reply: docs/RULES.md, "The server".

use crate::packet::{self, Fields};
use crate::refusal::Refusal::{self, *};
use crate::timestamp;

#[derive(Clone, Copy, PartialEq, Eq, Debug)]
pub struct Settings {
    pub synchronised: bool,
    pub leap: u8,
    pub precision: i8,
    pub identifier: [u8; 4],
    pub reference: u64,
}

impl Settings {
    /// Refuses settings that are out of range, synchronised or not.
    pub fn test(&self) -> Result<(), Refusal> {
        SettingsOutOfRange.when(self.leap > 2 || !(-32..=0).contains(&self.precision))
    }
}

/// Writes the reply to a request.
pub fn reply(
    settings: &Settings,
    t2: u64,
    t3: u64,
    request: &[u8],
    buffer: &mut [u8],
) -> Result<(), Refusal> {
    BufferTooShort.when(buffer.len() < packet::LENGTH)?;
    let request = packet::read(request)?;
    RequestModeWrong.when(request.mode != 3)?;
    RequestVersionUnsupported.when(!(1..=4).contains(&request.version))?;
    settings.test()?;
    if settings.synchronised {
        ServerTimestampZero.when(t2 == 0 || t3 == 0)?;
        AnsweredBeforeReceived.when(timestamp::ordered_difference(t3, t2)? < 0)?;
    }
    packet::write(&reply_fields(settings, t2, t3, &request), buffer)
}

/// The fields of the reply to a request.
pub fn reply_fields(settings: &Settings, t2: u64, t3: u64, request: &Fields) -> Fields {
    if settings.synchronised {
        synchronised(settings, t2, t3, request)
    } else {
        unsynchronised(settings, request)
    }
}

fn unsynchronised(settings: &Settings, request: &Fields) -> Fields {
    Fields {
        leap: 3,
        version: request.version,
        mode: 4,
        poll: request.poll,
        precision: settings.precision,
        identifier: *b"INIT",
        originate: request.transmit,
        ..Fields::default()
    }
}

fn synchronised(settings: &Settings, t2: u64, t3: u64, request: &Fields) -> Fields {
    Fields {
        leap: settings.leap,
        stratum: 1,
        identifier: settings.identifier,
        reference: settings.reference,
        receive: t2,
        transmit: t3,
        ..unsynchronised(settings, request)
    }
}

#[cfg(test)]
mod tests {
    use super::*;

    const SET: Settings = Settings {
        synchronised: true,
        leap: 1,
        precision: -20,
        identifier: *b"GPS\0",
        reference: 0x0102_0304_0506_0708,
    };
    const UNSYNCHRONISED: Settings = Settings { synchronised: false, ..SET };

    fn request(first: u8) -> [u8; 48] {
        let mut octets = [0x11; 48];
        octets[0] = first;
        octets
    }

    #[test]
    fn synchronised_octet_for_octet() {
        let mut buffer = [0x77; 50];
        assert_eq!(reply(&SET, 5, 6, &request(0xDB), &mut buffer), Ok(()));
        let mut wanted = vec![0x40 + 0x18 + 4, 1, 0x11, 0xEC];
        wanted.extend([0; 8]);
        wanted.extend(b"GPS\0");
        wanted.extend([1, 2, 3, 4, 5, 6, 7, 8]);
        wanted.extend([0x11; 8]);
        wanted.extend([0, 0, 0, 0, 0, 0, 0, 5, 0, 0, 0, 0, 0, 0, 0, 6]);
        wanted.extend([0x77; 2]);
        assert_eq!(buffer[..], wanted);
    }

    #[test]
    fn unsynchronised_octet_for_octet() {
        let mut buffer = [0x77; 50];
        assert_eq!(reply(&UNSYNCHRONISED, 0, 0, &request(0x23), &mut buffer), Ok(()));
        let mut wanted = vec![0xC0 + 0x20 + 4, 0, 0x11, 0xEC];
        wanted.extend([0; 8]);
        wanted.extend(b"INIT");
        wanted.extend([0; 8]);
        wanted.extend([0x11; 8]);
        wanted.extend([0; 16]);
        wanted.extend([0x77; 2]);
        assert_eq!(buffer[..], wanted);
    }

    #[test]
    fn order() {
        let mut buffer = [0x77; 48];
        let bad = Settings { leap: 3, ..SET };
        let r = request(0x23);
        assert_eq!(reply(&bad, 0, 0, &r[..47], &mut buffer[..47]), Err(BufferTooShort));
        let mut number = |settings, t2, t3, request: &[u8]| {
            reply(settings, t2, t3, request, &mut buffer).unwrap_err()
        };
        assert_eq!(number(&bad, 0, 0, &r[..47]), PacketLengthWrong);
        assert_eq!(number(&bad, 0, 0, &request(0x04)), RequestModeWrong);
        assert_eq!(number(&bad, 0, 0, &request(0x03)), RequestVersionUnsupported);
        assert_eq!(number(&bad, 0, 0, &request(0x2B)), RequestVersionUnsupported);
        assert_eq!(number(&bad, 0, 0, &r), SettingsOutOfRange);
        let off = Settings { leap: 3, ..UNSYNCHRONISED };
        assert_eq!(number(&off, 5, 6, &r), SettingsOutOfRange);
        assert_eq!(number(&SET, 0, 6, &r), ServerTimestampZero);
        assert_eq!(number(&SET, 5, 0, &r), ServerTimestampZero);
        assert_eq!(number(&SET, 6, 5, &r), AnsweredBeforeReceived);
        assert_eq!(buffer, [0x77; 48]);
    }

    #[test]
    fn holds_about_half_a_circle() {
        let half = 1 << 63;
        let number = |set, t2, t3| reply(set, t2, t3, &request(0x23), &mut [0; 48]).err();
        for t2 in [1, 5, half - 5, half + 5, u64::MAX] {
            let far = t2.wrapping_add(half);
            for (t3, wanted) in [
                (far.wrapping_sub(1), None),
                (far, Some(NoOrder)),
                (far.wrapping_add(1), Some(AnsweredBeforeReceived)),
            ] {
                assert_eq!(number(&SET, t2, t3), wanted);
                assert_eq!(number(&UNSYNCHRONISED, t2, t3), None);
            }
        }
        let bad = Settings { leap: 3, ..SET };
        assert_eq!(number(&bad, 1, half + 1), Some(SettingsOutOfRange));
        assert_eq!(number(&SET, 0, half), Some(ServerTimestampZero));
        assert_eq!(number(&SET, half, 0), Some(ServerTimestampZero));
    }

    #[test]
    fn precisions() {
        for precision in i8::MIN..=i8::MAX {
            let set = Settings { precision, ..UNSYNCHRONISED };
            let answered = reply(&set, 5, 5, &request(0x23), &mut [0; 48]);
            let refused = !(-32..=0).contains(&precision);
            assert_eq!(answered.err(), refused.then_some(SettingsOutOfRange));
        }
    }
}
