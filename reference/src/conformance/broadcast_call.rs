//! Calls of broadcast, as they stand in conformance lines.

use super::call::{Malformed, put_numbers, read_n};
use super::records::{put_settings, read_settings};
use crate::octets::Reader;
use crate::server::Settings;

/// The place in a line of octets of the length n of the writer's buffer.
pub const N_OF_BROADCAST_AT: usize = 26;

/// `n` is the length of the buffer that is lent to the writer.
#[derive(Clone, Copy, PartialEq, Eq, Debug)]
pub enum BroadcastCall<'a> {
    Write { settings: Settings, version: u8, poll: u8, t3: u64, n: u8 },
    Arrival { t4: u64, packet: &'a [u8] },
}

impl<'a> BroadcastCall<'a> {
    /// Reads what follows the operation.
    pub fn read(operation: u8, octets: &mut Reader<'a>) -> Result<BroadcastCall<'a>, Malformed> {
        Ok(match operation {
            0x11 => BroadcastCall::Write {
                settings: read_settings(octets)?,
                version: octets.u8()?,
                poll: octets.u8()?,
                t3: octets.u64()?,
                n: read_n(octets)?,
            },
            0x12 => BroadcastCall::Arrival { t4: octets.u64()?, packet: octets.rest() },
            _ => return Err(Malformed::Operation),
        })
    }

    pub fn operation(&self) -> u8 {
        match self {
            BroadcastCall::Write { .. } => 0x11,
            BroadcastCall::Arrival { .. } => 0x12,
        }
    }

    /// Appends what follows the operation.
    pub fn put(&self, line: &mut Vec<u8>) {
        match *self {
            BroadcastCall::Write { ref settings, version, poll, t3, n } => {
                put_settings(settings, line);
                line.extend([version, poll]);
                put_numbers([t3], line);
                line.push(n);
            }
            BroadcastCall::Arrival { t4, packet } => {
                put_numbers([t4], line);
                line.extend(packet);
            }
        }
    }
}
