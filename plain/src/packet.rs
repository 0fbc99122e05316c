//! The 48 octets of a packet and their fields.

use crate::extension;
use crate::refusal::Refusal;
use crate::timestamp::Timestamp;

pub const LENGTH: usize = 48;

pub const MODE_CLIENT: u8 = 3;
pub const MODE_SERVER: u8 = 4;
/// The leap indicator of a server that is not synchronised.
pub const LEAP_ALARM: u8 = 3;

pub type Octets = [u8; LENGTH];

#[derive(Clone, Copy, Debug, Default, PartialEq, Eq)]
pub struct Fields {
    pub leap: u8,
    pub version: u8,
    pub mode: u8,
    pub stratum: u8,
    pub poll: u8,
    pub precision: i8,
    pub root_delay: i32,
    pub root_dispersion: u32,
    pub identifier: u32,
    pub reference: Timestamp,
    pub originate: Timestamp,
    pub receive: Timestamp,
    pub transmit: Timestamp,
}

/// The first 48 octets of a packet; a shorter one is refused, and one with a tail that is not legal.
/// Most packets have no tail, so that is tested first.
#[inline(always)]
pub fn check_length(packet: &[u8]) -> Result<&Octets, Refusal> {
    match packet.split_first_chunk() {
        Some((octets, [])) => Ok(octets),
        Some((octets, tail)) if extension::is_legal_tail(tail) => Ok(octets),
        _ => Err(Refusal::PacketLength),
    }
}

/// The part of a buffer that a packet is written to.
#[inline(always)]
pub fn check_buffer(buffer: &mut [u8]) -> Result<&mut Octets, Refusal> {
    buffer.first_chunk_mut().ok_or(Refusal::BufferTooShort)
}

#[inline(always)]
pub fn read(packet: &[u8]) -> Result<Fields, Refusal> {
    check_length(packet).map(Fields::from_octets)
}

#[inline(always)]
pub fn write(fields: &Fields, buffer: &mut [u8]) -> Result<(), Refusal> {
    let octets = check_buffer(buffer)?;
    if fields.leap > 3 || fields.version > 7 || fields.mode > 7 {
        return Err(Refusal::FieldTooLarge);
    }
    *octets = fields.to_octets();
    Ok(())
}

impl Fields {
    #[inline(always)]
    pub fn from_octets(octets: &Octets) -> Self {
        Self {
            leap: octets[0] >> 6,
            version: octets[0] >> 3 & 7,
            mode: octets[0] & 7,
            stratum: octets[1],
            poll: octets[2],
            precision: octets[3].cast_signed(),
            root_delay: u32_at(octets, 4).cast_signed(),
            root_dispersion: u32_at(octets, 8),
            identifier: u32_at(octets, 12),
            reference: timestamp_at(octets, 16),
            originate: timestamp_at(octets, 24),
            receive: timestamp_at(octets, 32),
            transmit: timestamp_at(octets, 40),
        }
    }

    /// Leap indicator, version and mode must fit their bits.
    #[inline(always)]
    pub fn to_octets(&self) -> Octets {
        let mut octets = [0; LENGTH];
        octets[0] = self.leap << 6 | self.version << 3 | self.mode;
        octets[1] = self.stratum;
        octets[2] = self.poll;
        octets[3] = self.precision.cast_unsigned();
        octets[4..8].copy_from_slice(&self.root_delay.to_be_bytes());
        octets[8..12].copy_from_slice(&self.root_dispersion.to_be_bytes());
        octets[12..16].copy_from_slice(&self.identifier.to_be_bytes());
        octets[16..24].copy_from_slice(&self.reference.0.to_be_bytes());
        octets[24..32].copy_from_slice(&self.originate.0.to_be_bytes());
        octets[32..40].copy_from_slice(&self.receive.0.to_be_bytes());
        octets[40..48].copy_from_slice(&self.transmit.0.to_be_bytes());
        octets
    }
}

#[inline(always)]
fn u32_at(octets: &Octets, at: usize) -> u32 {
    u32::from_be_bytes([octets[at], octets[at + 1], octets[at + 2], octets[at + 3]])
}

#[inline(always)]
fn timestamp_at(octets: &Octets, at: usize) -> Timestamp {
    let seconds = u64::from(u32_at(octets, at));
    let fraction = u64::from(u32_at(octets, at + 4));
    Timestamp(seconds << 32 | fraction)
}

#[cfg(test)]
mod tests {
    use super::*;

    fn sample() -> Fields {
        Fields {
            leap: 2,
            version: 4,
            mode: 5,
            stratum: 0x11,
            poll: 0x22,
            precision: -20,
            root_delay: -2,
            root_dispersion: 0x0102_0304,
            identifier: u32::from_be_bytes(*b"GPS\0"),
            reference: Timestamp(0x1011_1213_1415_1617),
            originate: Timestamp(0x2021_2223_2425_2627),
            receive: Timestamp(0x3031_3233_3435_3637),
            transmit: Timestamp(0x4041_4243_4445_4647),
        }
    }

    #[test]
    fn fields_written_read_back_the_same() {
        let mut buffer = [0x5A; 50];
        assert_eq!(write(&sample(), &mut buffer), Ok(()));
        assert_eq!(read(&buffer[..48]), Ok(sample()));
        assert_eq!(buffer[..4], [0xA5, 0x11, 0x22, 0xEC]);
        assert_eq!(buffer[4..8], [0xFF, 0xFF, 0xFF, 0xFE]);
        assert_eq!(buffer[12..16], *b"GPS\0");
        assert_eq!(
            buffer[40..],
            [0x40, 0x41, 0x42, 0x43, 0x44, 0x45, 0x46, 0x47, 0x5A, 0x5A]
        );
    }

    #[test]
    fn a_packet_has_48_octets_or_a_legal_tail() {
        for length in 0..80 {
            let legal = [48, 52, 68, 72].contains(&length);
            assert_eq!(read(&vec![0; length]).is_ok(), legal, "{length}");
        }
        let mut packet = [0; 1028];
        packet[51] = 28;
        assert!(read(&packet[..76]).is_ok());
        assert!(read(&packet[..77]).is_err());
        packet[50..52].copy_from_slice(&976_u16.to_be_bytes());
        assert!(read(&packet[..1024]).is_ok());
        assert!(read(&packet[..1020]).is_err());
        packet[50..52].copy_from_slice(&980_u16.to_be_bytes());
        assert!(read(&packet).is_err());
    }

    #[test]
    fn a_short_buffer_is_refused_before_a_large_field() {
        let large = Fields {
            leap: 4,
            ..sample()
        };
        assert_eq!(write(&large, &mut [0; 47]), Err(Refusal::BufferTooShort));
        assert_eq!(write(&large, &mut [0; 48]), Err(Refusal::FieldTooLarge));
    }
}
