//! Differences of timestamps, exchanges measured, and the fields of a packet.

use crate::{lent, lent_mut, written};
use reference::packet::{self, Fields};
use reference::refusal::Refusal::{self, *};
use reference::timestamp;

/// The fields of a packet, in its order; signed ones by the bits of their octets.
type Numbers = [u64; 13];

#[unsafe(no_mangle)]
pub extern "C" fn independent_difference(x: u64, y: u64, difference: &mut i64) -> u32 {
    written(timestamp::ordered_difference(x, y), |answer| *difference = answer as i64)
}

#[unsafe(no_mangle)]
pub extern "C" fn independent_measure(
    t1: u64,
    t2: u64,
    t3: u64,
    t4: u64,
    offset: &mut i64,
    half: &mut u32,
    delay: &mut i64,
) -> u32 {
    written(timestamp::measure(t1, t2, t3, t4), |measured| {
        *offset = measured.offset;
        *half = measured.half.into();
        *delay = measured.delay;
    })
}

fn numbers_of(fields: &Fields) -> Numbers {
    let [precision] = fields.precision.to_be_bytes();
    [
        fields.leap.into(),
        fields.version.into(),
        fields.mode.into(),
        fields.stratum.into(),
        fields.poll.into(),
        precision.into(),
        u32::from_be_bytes(fields.root_delay.to_be_bytes()).into(),
        fields.root_dispersion.into(),
        u32::from_be_bytes(fields.identifier).into(),
        fields.reference,
        fields.originate,
        fields.receive,
        fields.transmit,
    ]
}

#[unsafe(no_mangle)]
pub unsafe extern "C" fn independent_read_fields(
    packet: *const u8,
    packet_length: usize,
    fields: &mut Numbers,
) -> u32 {
    let read = packet::read(unsafe { lent(packet, packet_length) });
    written(read, |read| *fields = numbers_of(&read))
}

fn octet(number: u64) -> Result<u8, Refusal> {
    number.try_into().map_err(|_| FieldTooLarge)
}

fn four_octets(number: u64) -> Result<[u8; 4], Refusal> {
    u32::try_from(number).map(u32::to_be_bytes).map_err(|_| FieldTooLarge)
}

fn fields_of(numbers: &Numbers) -> Result<Fields, Refusal> {
    let [leap, version, mode, stratum, poll, precision, ..] = *numbers;
    let [.., root_delay, root_dispersion, identifier, _, _, _, _] = *numbers;
    let [.., reference, originate, receive, transmit] = *numbers;
    Ok(Fields {
        leap: octet(leap)?,
        version: octet(version)?,
        mode: octet(mode)?,
        stratum: octet(stratum)?,
        poll: octet(poll)?,
        precision: i8::from_be_bytes([octet(precision)?]),
        root_delay: i32::from_be_bytes(four_octets(root_delay)?),
        root_dispersion: u32::from_be_bytes(four_octets(root_dispersion)?),
        identifier: four_octets(identifier)?,
        reference,
        originate,
        receive,
        transmit,
    })
}

#[unsafe(no_mangle)]
pub unsafe extern "C" fn independent_write_fields(
    fields: &Numbers,
    buffer: *mut u8,
    buffer_length: usize,
) -> u32 {
    let buffer = unsafe { lent_mut(buffer, buffer_length) };
    let written_fields = BufferTooShort
        .when(buffer.len() < packet::LENGTH)
        .and_then(|()| fields_of(fields))
        .and_then(|fields| packet::write(&fields, buffer));
    written(written_fields, |()| ())
}
