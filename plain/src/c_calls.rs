//! The calls for C in plain Rust: the numbers, slices, images and answers of docs/C.md.

use crate::arrival::Arrival;
use crate::client::{Client, EXPONENT_LEAST, Phase, Request};
use crate::packet::{self, Fields};
use crate::refusal::Refusal;
use crate::server::{self, Settings};
use crate::timestamp::Timestamp;

pub const FIELDS: usize = 13;
pub const IMAGE: usize = 32;
pub const ANSWER: usize = 24;
/// An image or an answer slice that is not legal.
const NOT_LEGAL: u32 = 46;

#[inline(always)]
pub fn read_fields(packet: &[u8], fields: &mut [u64; FIELDS]) -> u32 {
    packet::read(packet).map_or_else(number, |read| {
        *fields = numbers(&read);
        0
    })
}

#[inline(always)]
pub fn write_fields(fields: &[u64; FIELDS], buffer: &mut [u8]) -> u32 {
    if buffer.len() < packet::LENGTH {
        return number(Refusal::BufferTooShort);
    }
    match fields_of(fields) {
        Some(fields) => packet::write(&fields, buffer).map_or_else(number, |()| 0),
        None => number(Refusal::FieldTooLarge),
    }
}

#[inline(always)]
pub fn ask(
    image: &mut [u8],
    buffer: &mut [u8],
    version: u32,
    clock: u64,
    token: u64,
    uptime: u64,
) -> u32 {
    let Some(client) = read_image(image) else {
        return NOT_LEGAL;
    };
    let request = Request {
        t1: Timestamp(clock),
        token: Timestamp(token),
        version: u8::try_from(version).unwrap_or(u8::MAX),
    };
    client
        .ask(buffer, request, uptime)
        .map_or_else(number, |next| {
            write_image(image, &next);
            0
        })
}

#[inline(always)]
pub fn arrival(image: &mut [u8], answer: &mut [u8], t4: u64, alternate: u32, packet: &[u8]) -> u32 {
    let (Some(client), Ok(answer)) = (read_image(image), answer.try_into()) else {
        return NOT_LEGAL;
    };
    client
        .arrival(packet, Timestamp(t4), alternate != 0)
        .map_or_else(number, |(told, next)| {
            write_answer(answer, &told);
            write_image(image, &next);
            0
        })
}

/// T2 and T3 are the two times.
#[inline(always)]
pub fn reply(settings: &Settings, times: [u64; 2], buffer: &mut [u8], request: &[u8]) -> u32 {
    let [t2, t3] = times.map(Timestamp);
    server::reply(settings, request, t2, t3, buffer).map_or_else(number, |()| 0)
}

/// What 8 bits do not hold is out of range at either end.
#[inline(always)]
pub fn settings(
    synchronised: u32,
    leap: u32,
    precision: i32,
    identifier: u32,
    reference: u64,
) -> Settings {
    Settings {
        synchronised: synchronised != 0,
        leap: u8::try_from(leap).unwrap_or(u8::MAX),
        precision: i8::try_from(precision).unwrap_or(i8::MAX),
        identifier,
        reference: Timestamp(reference),
    }
}

#[inline(always)]
fn number(refusal: Refusal) -> u32 {
    match refusal {
        Refusal::IllegalRecord => NOT_LEGAL,
        other => other.number().into(),
    }
}

#[inline(always)]
pub fn numbers(f: &Fields) -> [u64; FIELDS] {
    [
        f.leap.into(),
        f.version.into(),
        f.mode.into(),
        f.stratum.into(),
        f.poll.into(),
        f.precision.cast_unsigned().into(),
        f.root_delay.cast_unsigned().into(),
        f.root_dispersion.into(),
        f.identifier.into(),
        f.reference.0,
        f.originate.0,
        f.receive.0,
        f.transmit.0,
    ]
}

/// None where a number is too wide for its field.
#[inline(always)]
fn fields_of(n: &[u64; FIELDS]) -> Option<Fields> {
    let octet = |at: usize| u8::try_from(n[at]).ok();
    let word = |at: usize| u32::try_from(n[at]).ok();
    Some(Fields {
        leap: octet(0)?,
        version: octet(1)?,
        mode: octet(2)?,
        stratum: octet(3)?,
        poll: octet(4)?,
        precision: octet(5)?.cast_signed(),
        root_delay: word(6)?.cast_signed(),
        root_dispersion: word(7)?,
        identifier: word(8)?,
        reference: Timestamp(n[9]),
        originate: Timestamp(n[10]),
        receive: Timestamp(n[11]),
        transmit: Timestamp(n[12]),
    })
}

#[inline(always)]
fn u64_at(octets: &[u8; IMAGE], at: usize) -> u64 {
    let mut part = [0; 8];
    part.copy_from_slice(&octets[at..at + 8]);
    u64::from_be_bytes(part)
}

/// The record of an image, whose values must still be looked at together.
#[inline(always)]
fn read_image(image: &[u8]) -> Option<Client> {
    let image: &[u8; IMAGE] = image.try_into().ok()?;
    if image[2] > 1 || image[4..8] != [0; 4] {
        return None;
    }
    Some(Client {
        phase: match image[0] {
            0 => Phase::Idle,
            1 => Phase::Waiting,
            2 => Phase::Stopped,
            _ => return None,
        },
        request: Request {
            t1: Timestamp(u64_at(image, 8)),
            token: Timestamp(u64_at(image, 16)),
            version: image[1],
        },
        asked: image[2] == 1,
        uptime: u64_at(image, 24),
        exponent: image[3].checked_add(EXPONENT_LEAST)?,
    })
}

/// Nothing where the slice is not an image's.
#[inline(always)]
pub fn write_image(image: &mut [u8], client: &Client) {
    let Ok(image): Result<&mut [u8; IMAGE], _> = image.try_into() else {
        return;
    };
    *image = [0; IMAGE];
    image[0] = match client.phase {
        Phase::Idle => 0,
        Phase::Waiting => 1,
        Phase::Stopped => 2,
    };
    image[1] = client.request.version;
    image[2] = client.asked.into();
    image[3] = client.exponent - EXPONENT_LEAST;
    image[8..16].copy_from_slice(&client.request.t1.0.to_be_bytes());
    image[16..24].copy_from_slice(&client.request.token.0.to_be_bytes());
    image[24..32].copy_from_slice(&client.uptime.to_be_bytes());
}

#[inline(always)]
fn write_answer(answer: &mut [u8; ANSWER], told: &Arrival) {
    *answer = [0; ANSWER];
    match *told {
        Arrival::Accepted(sample) => {
            answer[0] = 1;
            answer[1] = sample.half;
            answer[8..16].copy_from_slice(&sample.offset.to_be_bytes());
            answer[16..24].copy_from_slice(&sample.delay.to_be_bytes());
        }
        Arrival::Kiss { code, row } => {
            answer[0] = 2;
            answer[2] = row;
            answer[4..8].copy_from_slice(&code.to_be_bytes());
        }
    }
}

#[cfg(test)]
mod tests {
    use super::*;

    #[test]
    fn fields_come_back() {
        let told: [u64; FIELDS] = [1, 2, 3, 4, 5, 255, 0xFFFF_FFFF, 8, 9, 10, 11, 12, u64::MAX];
        let (mut packet, mut read) = ([0; 48], [0; FIELDS]);
        assert_eq!(write_fields(&told, &mut packet), 0);
        assert_eq!(read_fields(&packet, &mut read), 0);
        assert_eq!(read, told);
        assert_eq!(read_fields(&packet[1..], &mut read), 7);
    }

    #[test]
    fn numbers_that_are_too_wide_are_refused() {
        for at in 0..9 {
            let mut fields = [0; FIELDS];
            fields[at] = if at < 6 { 256 } else { 1 << 32 };
            assert_eq!(write_fields(&fields, &mut [0; 48]), 27);
            assert_eq!(write_fields(&fields, &mut [0; 47]), 1);
        }
        assert_eq!(write_fields(&[0; FIELDS], &mut []), 1);
    }

    #[test]
    fn an_image_waits_after_an_ask() {
        let (mut image, mut buffer, mut answer) = ([0; IMAGE], [0; 48], [0; ANSWER]);
        assert_eq!(ask(&mut image, &mut buffer, 4, 10, 20, 30), 0);
        assert_eq!((image[0], image[1], image[2], image[15]), (1, 4, 1, 10));
        assert_eq!(ask(&mut image, &mut buffer, 4, 10, 20, 30), 5);
        assert_eq!(arrival(&mut image, &mut answer, 11, 0, &buffer), 9);
        image[3] = 9;
        assert_eq!(arrival(&mut image, &mut answer, 11, 0, &buffer), 46);
    }
}
