//! Calls on Unix times and the Time Protocol, as they stand in conformance lines.

use super::call::{Malformed, put_numbers, read_n};
use crate::octets::Reader;
use crate::unix::UnixTime;

/// The place in a line of octets of the length n of the buffer for an answer.
pub const N_OF_TIME_AT: usize = 5;

/// `n` is the length of the buffer that is lent for an answer.
#[derive(Clone, Copy, PartialEq, Eq, Debug)]
pub enum TimeCall<'a> {
    UnixOfTimestamp { timestamp: u64 },
    TimestampOfUnix { time: UnixTime },
    Answer { count: u32, n: u8 },
    Read { octets: &'a [u8] },
}

impl<'a> TimeCall<'a> {
    /// Reads what follows the operation.
    pub fn read(operation: u8, octets: &mut Reader<'a>) -> Result<TimeCall<'a>, Malformed> {
        Ok(match operation {
            0x15 => TimeCall::UnixOfTimestamp { timestamp: octets.u64()? },
            0x16 => TimeCall::TimestampOfUnix {
                time: UnixTime { seconds: octets.i64()?, nanoseconds: octets.u32()? },
            },
            0x17 => TimeCall::Answer { count: octets.u32()?, n: read_n(octets)? },
            0x18 => TimeCall::Read { octets: octets.rest() },
            _ => return Err(Malformed::Operation),
        })
    }

    pub fn operation(&self) -> u8 {
        match self {
            TimeCall::UnixOfTimestamp { .. } => 0x15,
            TimeCall::TimestampOfUnix { .. } => 0x16,
            TimeCall::Answer { .. } => 0x17,
            TimeCall::Read { .. } => 0x18,
        }
    }

    /// Appends what follows the operation.
    pub fn put(&self, line: &mut Vec<u8>) {
        match *self {
            TimeCall::UnixOfTimestamp { timestamp } => put_numbers([timestamp], line),
            TimeCall::TimestampOfUnix { time } => {
                put_numbers([time.seconds as u64], line);
                line.extend(time.nanoseconds.to_be_bytes());
            }
            TimeCall::Answer { count, n } => {
                line.extend(count.to_be_bytes());
                line.push(n);
            }
            TimeCall::Read { octets } => line.extend(octets),
        }
    }
}
