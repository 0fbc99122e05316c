//! Calls as C firmware makes them, as they stand in conformance lines.

use super::call::{Call, LONGEST_PACKET, Malformed, put_numbers, read_n};
use crate::firmware::{ANSWER, WideSettings};
use crate::image::image_of;
use crate::octets::Reader;
use crate::server::Settings;

/// The longest image or answer slice of a line.
pub const LONGEST_SLICE: u8 = 40;
/// The place in a line of octets of an image's length.
pub const IMAGE_LENGTH_AT: usize = 1;
/// The place in a line of octets of the length n of a reply's buffer.
pub const N_OF_FIRMWARE_REPLY_AT: usize = 41;

/// `n` is the length of the buffer that is lent to the call.
#[derive(Clone, PartialEq, Eq, Debug)]
pub enum FirmwareCall<'a> {
    Fresh { image: Vec<u8> },
    Ask { image: Vec<u8>, n: u8, version: u32, clock: u64, token: u64, uptime: u64 },
    Arrival { image: Vec<u8>, answer: Vec<u8>, t4: u64, alternate: u32, packet: &'a [u8] },
    GiveUp { image: Vec<u8>, uptime: u64 },
    Reply { settings: WideSettings, t2: u64, t3: u64, n: u8, request: &'a [u8] },
}

/// Octets of the slice that the rest of a line begins with, its length included.
fn slice_length(rest: &[u8]) -> Result<usize, Malformed> {
    match rest.first() {
        None => Err(Malformed::Length),
        Some(&length) if length > LONGEST_SLICE => Err(Malformed::SliceLength),
        Some(&length) => Ok(1 + usize::from(length)),
    }
}

/// Shortest and longest rest of a line after its operation.
pub fn lengths(operation: u8, rest: &[u8]) -> Result<(usize, usize), Malformed> {
    if operation == 0x1D {
        return Ok((41, 41 + LONGEST_PACKET));
    }
    let image = slice_length(rest)?;
    Ok(match operation {
        0x19 => (image, image),
        0x1A => (image + 29, image + 29),
        0x1B => {
            let both = image + slice_length(rest.get(image..).unwrap_or_default())?;
            (both + 12, both + 12 + LONGEST_PACKET)
        }
        0x1C => (image + 8, image + 8),
        _ => return Err(Malformed::Operation),
    })
}

fn read_slice(octets: &mut Reader) -> Result<Vec<u8>, Malformed> {
    let length = octets.u8()?;
    Ok(octets.slice(length.into())?.to_vec())
}

fn put_slice(slice: &[u8], line: &mut Vec<u8>) {
    line.push(slice.len() as u8);
    line.extend(slice);
}

fn read_settings(octets: &mut Reader) -> Result<WideSettings, Malformed> {
    Ok(WideSettings {
        synchronised: octets.u32()?,
        leap: octets.u32()?,
        precision: octets.i32()?,
        identifier: octets.octets()?,
        reference: octets.u64()?,
    })
}

fn put_settings(settings: &WideSettings, line: &mut Vec<u8>) {
    for number in [settings.synchronised, settings.leap, settings.precision as u32] {
        line.extend(number.to_be_bytes());
    }
    line.extend(settings.identifier);
    put_numbers([settings.reference], line);
}

fn wide(settings: &Settings) -> WideSettings {
    WideSettings {
        synchronised: settings.synchronised.into(),
        leap: settings.leap.into(),
        precision: settings.precision.into(),
        identifier: settings.identifier,
        reference: settings.reference,
    }
}

impl<'a> FirmwareCall<'a> {
    /// A call of a client or a server as firmware makes it; none of the others. The answer slice has
    /// octets that no answer has.
    pub fn of(call: &Call<'a>) -> Option<FirmwareCall<'a>> {
        Some(match *call {
            Call::Ask { ref client, arguments } => FirmwareCall::Ask {
                image: image_of(client).to_vec(),
                n: arguments.n,
                version: arguments.version.into(),
                clock: arguments.clock,
                token: arguments.token.0,
                uptime: arguments.uptime,
            },
            Call::Arrival { ref client, t4, alternate, packet } => FirmwareCall::Arrival {
                image: image_of(client).to_vec(),
                answer: vec![0x77; ANSWER],
                t4,
                alternate: alternate.into(),
                packet,
            },
            Call::GiveUp { ref client, uptime } => {
                FirmwareCall::GiveUp { image: image_of(client).to_vec(), uptime }
            }
            Call::Reply { ref settings, t2, t3, n, request } => {
                FirmwareCall::Reply { settings: wide(settings), t2, t3, n, request }
            }
            _ => return None,
        })
    }

    pub fn image_mut(&mut self) -> Option<&mut Vec<u8>> {
        match self {
            FirmwareCall::Fresh { image }
            | FirmwareCall::Ask { image, .. }
            | FirmwareCall::Arrival { image, .. }
            | FirmwareCall::GiveUp { image, .. } => Some(image),
            FirmwareCall::Reply { .. } => None,
        }
    }

    /// Reads what follows the operation.
    pub fn read(operation: u8, octets: &mut Reader<'a>) -> Result<FirmwareCall<'a>, Malformed> {
        Ok(match operation {
            0x19 => FirmwareCall::Fresh { image: read_slice(octets)? },
            0x1A => FirmwareCall::Ask {
                image: read_slice(octets)?,
                n: read_n(octets)?,
                version: octets.u32()?,
                clock: octets.u64()?,
                token: octets.u64()?,
                uptime: octets.u64()?,
            },
            0x1B => FirmwareCall::Arrival {
                image: read_slice(octets)?,
                answer: read_slice(octets)?,
                t4: octets.u64()?,
                alternate: octets.u32()?,
                packet: octets.rest(),
            },
            0x1C => FirmwareCall::GiveUp { image: read_slice(octets)?, uptime: octets.u64()? },
            0x1D => FirmwareCall::Reply {
                settings: read_settings(octets)?,
                t2: octets.u64()?,
                t3: octets.u64()?,
                n: read_n(octets)?,
                request: octets.rest(),
            },
            _ => return Err(Malformed::Operation),
        })
    }

    pub fn operation(&self) -> u8 {
        match self {
            FirmwareCall::Fresh { .. } => 0x19,
            FirmwareCall::Ask { .. } => 0x1A,
            FirmwareCall::Arrival { .. } => 0x1B,
            FirmwareCall::GiveUp { .. } => 0x1C,
            FirmwareCall::Reply { .. } => 0x1D,
        }
    }

    /// Appends what follows the operation.
    pub fn put(&self, line: &mut Vec<u8>) {
        match *self {
            FirmwareCall::Fresh { ref image } => put_slice(image, line),
            FirmwareCall::Ask { ref image, n, version, clock, token, uptime } => {
                put_slice(image, line);
                line.push(n);
                line.extend(version.to_be_bytes());
                put_numbers([clock, token, uptime], line);
            }
            FirmwareCall::Arrival { ref image, ref answer, t4, alternate, packet } => {
                put_slice(image, line);
                put_slice(answer, line);
                put_numbers([t4], line);
                line.extend(alternate.to_be_bytes());
                line.extend(packet);
            }
            FirmwareCall::GiveUp { ref image, uptime } => {
                put_slice(image, line);
                put_numbers([uptime], line);
            }
            FirmwareCall::Reply { ref settings, t2, t3, n, request } => {
                put_settings(settings, line);
                put_numbers([t2, t3], line);
                line.push(n);
                line.extend(request);
            }
        }
    }
}
