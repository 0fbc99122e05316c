//! The broadcast packet and its client: docs/RULES.md, "Broadcast".

use crate::packet::{self, Fields};
use crate::refusal::Refusal::{self, *};
use crate::server::{Settings, reply_fields};
use crate::timestamp;

const MODE: u8 = 5;

/// Writes a broadcast packet.
pub fn write(
    settings: &Settings,
    version: u8,
    poll: u8,
    t3: u64,
    buffer: &mut [u8],
) -> Result<(), Refusal> {
    BufferTooShort.when(buffer.len() < packet::LENGTH)?;
    RequestVersionUnsupported.when(!(1..=4).contains(&version))?;
    settings.test()?;
    PollOutOfRange.when(!(4..=14).contains(&poll))?;
    ServerTimestampZero.when(settings.synchronised && t3 == 0)?;
    // As a reply to a request whose transmit timestamp is zero, with T2 zero.
    let request = Fields { version, poll, ..Fields::default() };
    packet::write(&Fields { mode: MODE, ..reply_fields(settings, 0, t3, &request) }, buffer)
}

/// T3 - T4 of a broadcast packet that arrives at T4.
pub fn arrival(packet: &[u8], t4: u64) -> Result<i64, Refusal> {
    let fields = packet::read(packet)?;
    BroadcastModeWrong.when(fields.mode != MODE)?;
    BroadcastVersionUnsupported.when(!(1..=4).contains(&fields.version))?;
    BroadcastUnsynchronised.when(fields.leap == 3)?;
    BroadcastStratumWrong.when(!(1..=15).contains(&fields.stratum))?;
    BroadcastTransmitZero.when(fields.transmit == 0)?;
    OwnClockZero.when(t4 == 0)?;
    let difference = timestamp::ordered_difference(fields.transmit, t4)?;
    Ok(difference as i64)
}

#[cfg(test)]
mod tests {
    use super::*;

    const SET: Settings = Settings {
        synchronised: true,
        leap: 1,
        precision: -20,
        identifier: *b"GPS\0",
        reference: 0x0102_0304_0506_0708,
    };
    const UNSYNCHRONISED: Settings = Settings { synchronised: false, ..SET };

    #[test]
    fn synchronised_octet_for_octet() {
        let mut buffer = [0x77; 50];
        assert_eq!(write(&SET, 3, 14, 6, &mut buffer), Ok(()));
        let mut wanted = vec![0x40 + 0x18 + 5, 1, 14, 0xEC];
        wanted.extend([0; 8]);
        wanted.extend(b"GPS\0");
        wanted.extend([1, 2, 3, 4, 5, 6, 7, 8]);
        wanted.extend([0; 16]);
        wanted.extend([0, 0, 0, 0, 0, 0, 0, 6]);
        wanted.extend([0x77; 2]);
        assert_eq!(buffer[..], wanted);
    }

    #[test]
    fn unsynchronised_octet_for_octet() {
        for t3 in [0, 6] {
            let mut buffer = [0x77; 50];
            assert_eq!(write(&UNSYNCHRONISED, 4, 4, t3, &mut buffer), Ok(()));
            let mut wanted = vec![0xC0 + 0x20 + 5, 0, 4, 0xEC];
            wanted.extend([0; 8]);
            wanted.extend(b"INIT");
            wanted.extend([0; 32]);
            wanted.extend([0x77; 2]);
            assert_eq!(buffer[..], wanted);
        }
    }

    #[test]
    fn order_of_the_writer() {
        let mut buffer = [0x77; 48];
        let bad = Settings { leap: 3, ..SET };
        let bad_off = Settings { leap: 3, ..UNSYNCHRONISED };
        assert_eq!(write(&bad, 0, 3, 0, &mut buffer[..47]), Err(BufferTooShort));
        let mut number =
            |settings, version, poll, t3| write(settings, version, poll, t3, &mut buffer);
        for set in [&bad, &bad_off] {
            assert_eq!(number(set, 0, 3, 0), Err(RequestVersionUnsupported));
            assert_eq!(number(set, 5, 3, 0), Err(RequestVersionUnsupported));
            assert_eq!(number(set, 4, 3, 0), Err(SettingsOutOfRange));
        }
        for (set, poll) in [(&SET, 3), (&SET, 15), (&UNSYNCHRONISED, 3), (&UNSYNCHRONISED, 15)] {
            assert_eq!(number(set, 4, poll, 0), Err(PollOutOfRange));
        }
        assert_eq!(number(&SET, 4, 4, 0), Err(ServerTimestampZero));
        assert_eq!(buffer, [0x77; 48]);
    }

    /// A packet with the fields that are looked at, all others unlike those of our writer.
    fn packet_of(first: u8, stratum: u8, transmit: u64) -> [u8; 48] {
        let mut octets = [0xFF; 48];
        octets[0] = first;
        octets[1] = stratum;
        octets[40..].copy_from_slice(&transmit.to_be_bytes());
        octets
    }

    /// Half a circle from 1.
    const FAR: u64 = (1 << 63) + 1;

    #[test]
    fn order_of_the_client() {
        assert_eq!(arrival(&packet_of(0xC4, 0, 0)[..47], 0), Err(PacketLengthWrong));
        let number = |first, stratum, transmit, t4| {
            arrival(&packet_of(first, stratum, transmit), t4).unwrap_err()
        };
        assert_eq!(number(0xC4, 0, 0, 0), BroadcastModeWrong);
        assert_eq!(number(0xC6, 0, 0, 0), BroadcastModeWrong);
        assert_eq!(number(0xC5, 0, 0, 0), BroadcastVersionUnsupported);
        assert_eq!(number(0xED, 0, 0, 0), BroadcastVersionUnsupported);
        assert_eq!(number(0xE5, 0, 0, 0), BroadcastUnsynchronised);
        assert_eq!(number(0xA5, 0, 0, 0), BroadcastStratumWrong);
        assert_eq!(number(0xA5, 16, 0, 0), BroadcastStratumWrong);
        assert_eq!(number(0xA5, 15, 0, 0), BroadcastTransmitZero);
        assert_eq!(number(0xA5, 15, 1, 0), OwnClockZero);
        assert_eq!(number(0xA5, 16, 1, FAR), BroadcastStratumWrong);
        assert_eq!(number(0xA5, 15, 0, 1 << 63), BroadcastTransmitZero);
        assert_eq!(number(0xA5, 15, 1 << 63, 0), OwnClockZero);
        assert_eq!(number(0xA5, 15, 1, FAR), NoOrder);
    }

    #[test]
    fn differences() {
        let given = |transmit, t4| arrival(&packet_of(0x0D, 1, transmit), t4);
        assert_eq!(given(1, 1), Ok(0));
        assert_eq!(given(1, 2), Ok(-1));
        assert_eq!(given(1, u64::MAX), Ok(2));
        assert_eq!(given(u64::MAX, 1), Ok(-2));
        assert_eq!(given(FAR - 1, 1), Ok(i64::MAX));
        assert_eq!(given(FAR, 1), Err(NoOrder));
        assert_eq!(given(FAR + 1, 1), Ok(-i64::MAX));
        assert_eq!(given(1, FAR - 1), Ok(-i64::MAX));
        assert_eq!(given(1, FAR), Err(NoOrder));
        assert_eq!(given(1, FAR + 1), Ok(i64::MAX));
    }
}
