//! The fields of the 48 octets, read and written: docs/RULES.md, "The 48 octets".

use crate::extension;
use crate::octets::{Reader, Short, Writer};
use crate::refusal::Refusal::{self, *};

/// Octets that the fields take.
pub const LENGTH: usize = 48;

#[derive(Clone, Copy, PartialEq, Eq, Debug, Default)]
pub struct Fields {
    pub leap: u8,
    pub version: u8,
    pub mode: u8,
    pub stratum: u8,
    pub poll: u8,
    pub precision: i8,
    pub root_delay: i32,
    pub root_dispersion: u32,
    pub identifier: [u8; 4],
    pub reference: u64,
    pub originate: u64,
    pub receive: u64,
    pub transmit: u64,
}

pub fn read(packet: &[u8]) -> Result<Fields, Refusal> {
    extension::tail(packet)?;
    read_fields(packet).map_err(|Short| PacketLengthWrong)
}

fn read_fields(packet: &[u8]) -> Result<Fields, Short> {
    let mut octets = Reader::new(packet);
    let first = octets.u8()?;
    Ok(Fields {
        leap: first / 64,
        version: first / 8 % 8,
        mode: first % 8,
        stratum: octets.u8()?,
        poll: octets.u8()?,
        precision: octets.i8()?,
        root_delay: octets.i32()?,
        root_dispersion: octets.u32()?,
        identifier: octets.octets()?,
        reference: octets.u64()?,
        originate: octets.u64()?,
        receive: octets.u64()?,
        transmit: octets.u64()?,
    })
}

pub fn write(fields: &Fields, buffer: &mut [u8]) -> Result<(), Refusal> {
    BufferTooShort.when(buffer.len() < LENGTH)?;
    FieldTooLarge.when(fields.leap > 3 || fields.version > 7 || fields.mode > 7)?;
    write_fields(fields, buffer).map_err(|Short| BufferTooShort)
}

fn write_fields(fields: &Fields, buffer: &mut [u8]) -> Result<(), Short> {
    let mut octets = Writer::new(buffer);
    octets.put([fields.leap * 64 + fields.version * 8 + fields.mode])?;
    octets.put([fields.stratum, fields.poll])?;
    octets.put(fields.precision.to_be_bytes())?;
    octets.put(fields.root_delay.to_be_bytes())?;
    octets.put(fields.root_dispersion.to_be_bytes())?;
    octets.put(fields.identifier)?;
    octets.put(fields.reference.to_be_bytes())?;
    octets.put(fields.originate.to_be_bytes())?;
    octets.put(fields.receive.to_be_bytes())?;
    octets.put(fields.transmit.to_be_bytes())
}

#[cfg(test)]
mod tests {
    use super::*;
    use crate::random::Random;

    #[test]
    fn any_48_octets_write_back() {
        let mut r = Random::new(1);
        for first in 0..=255 {
            let mut packet: [u8; LENGTH] = std::array::from_fn(|_| r.octet());
            packet[0] = first;
            let fields = read(&packet).unwrap();
            let mut back = [0xAA; 60];
            assert_eq!(write(&fields, &mut back), Ok(()));
            assert_eq!(back[..48], packet);
            assert_eq!(back[48..], [0xAA; 12]);
        }
    }

    #[test]
    fn lengths() {
        for n in 0..=80 {
            let packet = vec![0x23; n];
            let refused = (![48, 52, 68, 72].contains(&n)).then_some(PacketLengthWrong);
            assert_eq!(read(&packet).err(), refused);
            let mut buffer = vec![0; n];
            let refused = (n < 48).then_some(BufferTooShort);
            assert_eq!(write(&Fields::default(), &mut buffer).err(), refused);
        }
    }

    #[test]
    fn sizes() {
        let mut buffer = [9; 48];
        let large = [
            Fields { leap: 4, ..Fields::default() },
            Fields { version: 8, ..Fields::default() },
            Fields { mode: 8, ..Fields::default() },
        ];
        for fields in large {
            assert_eq!(write(&fields, &mut buffer), Err(FieldTooLarge));
            assert_eq!(write(&fields, &mut buffer[..47]), Err(BufferTooShort));
        }
        assert_eq!(buffer, [9; 48]);
    }
}
