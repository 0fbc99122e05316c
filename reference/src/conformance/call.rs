//! A conformance line as a call with its arguments: read from the line's octets, and written.

use super::broadcast_call::BroadcastCall;
use super::extension_call::{self, BEFORE_BODY, ExtensionCall, LONGEST_ADDITION};
use super::firmware_call::{self, FirmwareCall};
use super::list_call::{ListCall, list_length};
use super::records::*;
use super::time_call::TimeCall;
use crate::calendar::Date;
use crate::client::{Client, Token};
use crate::octets::{Reader, Short};
use crate::packet::Fields;
use crate::server::Settings;

/// Octets of the longest buffer, but that of an addition, and of what is read as an answer of TIME.
pub const LONGEST: u8 = 80;
/// Octets of the longest packet.
pub const LONGEST_PACKET: usize = 1040;
/// Octets of the longest line, an addition of the longest body to the longest buffer.
pub const LONGEST_LINE: usize = 1 + BEFORE_BODY + 2 * LONGEST_ADDITION as usize;

/// Places in a line of octets that not every value fits: of a client's record, of the alternate in
/// an arrival, of the buffer's length n, and of the server's settings.
pub const PHASE_AT: usize = 1;
pub const ASKED_AT: usize = PHASE_AT + ASKED_AFTER_PHASE;
pub const ALTERNATE_AT: usize = PHASE_AT + RECORD + 8;
pub const N_OF_WRITE_AT: usize = 1;
pub const N_OF_ASK_AT: usize = PHASE_AT + RECORD;
pub const N_OF_REPLY_AT: usize = 32;
pub const SYNCHRONISED_AT: usize = 1;

/// A call with its arguments. `n` is the length of the buffer that is lent to it.
#[derive(Clone, PartialEq, Eq, Debug)]
pub enum Call<'a> {
    Difference { x: u64, y: u64 },
    Measure { t1: u64, t2: u64, t3: u64, t4: u64 },
    ReadFields { packet: &'a [u8] },
    WriteFields { n: u8, fields: Fields },
    DateOfTimestamp { timestamp: u64 },
    TimestampOfDate { date: Date },
    Precision { tick: u64 },
    Ask { client: Client, arguments: AskArguments },
    Arrival { client: Client, t4: u64, alternate: bool, packet: &'a [u8] },
    GiveUp { client: Client, uptime: u64 },
    Reply { settings: Settings, t2: u64, t3: u64, n: u8, request: &'a [u8] },
    Entry { debt: i64, offset: i64, half: u8 },
    Tick { debt: i64, limit: u64 },
    OfList(ListCall<'a>),
    OfBroadcast(BroadcastCall<'a>),
    OfExtension(ExtensionCall<'a>),
    OfTime(TimeCall<'a>),
    OfFirmware(FirmwareCall<'a>),
    Fresh,
    Constants,
}

/// What an ask is given beside the record.
#[derive(Clone, Copy, PartialEq, Eq, Debug)]
pub struct AskArguments {
    pub n: u8,
    pub version: u8,
    pub clock: u64,
    pub token: Token,
    pub uptime: u64,
}

impl AskArguments {
    pub fn read(octets: &mut Reader) -> Result<AskArguments, Malformed> {
        Ok(AskArguments {
            n: read_n(octets)?,
            version: octets.u8()?,
            clock: octets.u64()?,
            token: Token(octets.u64()?),
            uptime: octets.u64()?,
        })
    }

    pub fn put(&self, line: &mut Vec<u8>) {
        line.extend([self.n, self.version]);
        put_numbers([self.clock, self.token.0, self.uptime], line);
    }
}

/// Why a line's octets are not a call.
#[derive(Clone, Copy, PartialEq, Eq, Debug)]
pub enum Malformed {
    Empty,
    Operation,
    Length,
    Phase,
    Flag,
    BufferLength,
    BodyLength,
    SliceLength,
    Count,
}

impl From<Short> for Malformed {
    fn from(_: Short) -> Malformed {
        Malformed::Length
    }
}

/// Shortest and longest rest of a line after its operation. That of a list goes by its count, that
/// of an addition, an image or an answer slice by the lengths it gives.
pub fn lengths(operation: u8, rest: &[u8]) -> Result<(usize, usize), Malformed> {
    let longest = LONGEST_PACKET;
    let after_list =
        |least: usize, most: usize| list_length(rest).map(|list| (list + least, list + most));
    Ok(match operation {
        0x01 => (16, 16),
        0x02 => (32, 32),
        0x03 => (0, longest),
        0x04 => (51, 51),
        0x05 => (8, 8),
        0x06 => (13, 13),
        0x07 => (8, 8),
        0x08 => (54, 54),
        0x09 => (37, 37 + longest),
        0x0A => (36, 36),
        0x0B => (32, 32 + longest),
        0x0C => (17, 17),
        0x0D => (16, 16),
        0x0E => after_list(26, 26)?,
        0x0F => after_list(8, 8 + longest)?,
        0x10 => after_list(8, 8)?,
        0x11 => (26, 26),
        0x12 => (8, 8 + longest),
        0x13 | 0x14 => extension_call::lengths(operation, rest)?,
        0x15 => (8, 8),
        0x16 => (12, 12),
        0x17 => (5, 5),
        0x18 => (0, LONGEST.into()),
        0x19..=0x1D => firmware_call::lengths(operation, rest)?,
        0xF0 | 0xF1 => (0, 0),
        _ => return Err(Malformed::Operation),
    })
}

pub fn read_n(octets: &mut Reader) -> Result<u8, Malformed> {
    match octets.u8()? {
        n @ 0..=LONGEST => Ok(n),
        _ => Err(Malformed::BufferLength),
    }
}

fn read_measure<'a>(octets: &mut Reader<'a>) -> Result<Call<'a>, Malformed> {
    Ok(Call::Measure { t1: octets.u64()?, t2: octets.u64()?, t3: octets.u64()?, t4: octets.u64()? })
}

fn read_arrival<'a>(octets: &mut Reader<'a>) -> Result<Call<'a>, Malformed> {
    Ok(Call::Arrival {
        client: read_client(octets)?,
        t4: octets.u64()?,
        alternate: read_flag(octets)?,
        packet: octets.rest(),
    })
}

fn read_reply<'a>(octets: &mut Reader<'a>) -> Result<Call<'a>, Malformed> {
    Ok(Call::Reply {
        settings: read_settings(octets)?,
        t2: octets.u64()?,
        t3: octets.u64()?,
        n: read_n(octets)?,
        request: octets.rest(),
    })
}

fn read_call<'a>(operation: u8, octets: &mut Reader<'a>) -> Result<Call<'a>, Malformed> {
    Ok(match operation {
        0x01 => Call::Difference { x: octets.u64()?, y: octets.u64()? },
        0x02 => read_measure(octets)?,
        0x03 => Call::ReadFields { packet: octets.rest() },
        0x04 => Call::WriteFields { n: read_n(octets)?, fields: read_fields(octets)? },
        0x05 => Call::DateOfTimestamp { timestamp: octets.u64()? },
        0x06 => Call::TimestampOfDate { date: read_date(octets)? },
        0x07 => Call::Precision { tick: octets.u64()? },
        0x08 => Call::Ask { client: read_client(octets)?, arguments: AskArguments::read(octets)? },
        0x09 => read_arrival(octets)?,
        0x0A => Call::GiveUp { client: read_client(octets)?, uptime: octets.u64()? },
        0x0B => read_reply(octets)?,
        0x0C => Call::Entry { debt: octets.i64()?, offset: octets.i64()?, half: octets.u8()? },
        0x0D => Call::Tick { debt: octets.i64()?, limit: octets.u64()? },
        0x0E..=0x10 => Call::OfList(ListCall::read(operation, octets)?),
        0x11 | 0x12 => Call::OfBroadcast(BroadcastCall::read(operation, octets)?),
        0x13 | 0x14 => Call::OfExtension(ExtensionCall::read(operation, octets)?),
        0x15..=0x18 => Call::OfTime(TimeCall::read(operation, octets)?),
        0x19..=0x1D => Call::OfFirmware(FirmwareCall::read(operation, octets)?),
        0xF0 => Call::Fresh,
        0xF1 => Call::Constants,
        _ => return Err(Malformed::Operation),
    })
}

impl<'a> Call<'a> {
    pub fn parse(line: &'a [u8]) -> Result<Call<'a>, Malformed> {
        let (&operation, rest) = line.split_first().ok_or(Malformed::Empty)?;
        let (shortest, longest) = lengths(operation, rest)?;
        if !(shortest..=longest).contains(&rest.len()) {
            return Err(Malformed::Length);
        }
        read_call(operation, &mut Reader::new(rest))
    }

    pub fn operation(&self) -> u8 {
        match self {
            Call::Difference { .. } => 0x01,
            Call::Measure { .. } => 0x02,
            Call::ReadFields { .. } => 0x03,
            Call::WriteFields { .. } => 0x04,
            Call::DateOfTimestamp { .. } => 0x05,
            Call::TimestampOfDate { .. } => 0x06,
            Call::Precision { .. } => 0x07,
            Call::Ask { .. } => 0x08,
            Call::Arrival { .. } => 0x09,
            Call::GiveUp { .. } => 0x0A,
            Call::Reply { .. } => 0x0B,
            Call::Entry { .. } => 0x0C,
            Call::Tick { .. } => 0x0D,
            Call::OfList(call) => call.operation(),
            Call::OfBroadcast(call) => call.operation(),
            Call::OfExtension(call) => call.operation(),
            Call::OfTime(call) => call.operation(),
            Call::OfFirmware(call) => call.operation(),
            Call::Fresh => 0xF0,
            Call::Constants => 0xF1,
        }
    }

    /// Appends the line's octets.
    pub fn put(&self, line: &mut Vec<u8>) {
        line.push(self.operation());
        match *self {
            Call::Difference { x, y } => put_numbers([x, y], line),
            Call::Measure { t1, t2, t3, t4 } => put_numbers([t1, t2, t3, t4], line),
            Call::ReadFields { packet } => line.extend(packet),
            Call::WriteFields { n, ref fields } => put_write_fields(n, fields, line),
            Call::DateOfTimestamp { timestamp } => put_numbers([timestamp], line),
            Call::TimestampOfDate { ref date } => put_date(date, line),
            Call::Precision { tick } => put_numbers([tick], line),
            Call::Ask { ref client, arguments } => {
                put_client(client, line);
                arguments.put(line);
            }
            Call::Arrival { ref client, t4, alternate, packet } => {
                put_arrival(client, t4, alternate, packet, line);
            }
            Call::GiveUp { ref client, uptime } => {
                put_client(client, line);
                put_numbers([uptime], line);
            }
            Call::Reply { ref settings, t2, t3, n, request } => {
                put_reply(settings, [t2, t3], n, request, line);
            }
            Call::Entry { debt, offset, half } => {
                put_numbers([debt as u64, offset as u64], line);
                line.push(half);
            }
            Call::Tick { debt, limit } => put_numbers([debt as u64, limit], line),
            Call::OfList(ref call) => call.put(line),
            Call::OfBroadcast(ref call) => call.put(line),
            Call::OfExtension(ref call) => call.put(line),
            Call::OfTime(ref call) => call.put(line),
            Call::OfFirmware(ref call) => call.put(line),
            Call::Fresh | Call::Constants => {}
        }
    }
}

fn put_write_fields(n: u8, fields: &Fields, line: &mut Vec<u8>) {
    line.push(n);
    put_fields(fields, line);
}

fn put_arrival(client: &Client, t4: u64, alternate: bool, packet: &[u8], line: &mut Vec<u8>) {
    put_client(client, line);
    put_numbers([t4], line);
    line.push(alternate.into());
    line.extend(packet);
}

fn put_reply(settings: &Settings, t2_t3: [u64; 2], n: u8, request: &[u8], line: &mut Vec<u8>) {
    put_settings(settings, line);
    put_numbers(t2_t3, line);
    line.push(n);
    line.extend(request);
}

/// Appends numbers of eight octets.
pub fn put_numbers<const N: usize>(numbers: [u64; N], line: &mut Vec<u8>) {
    for number in numbers {
        line.extend(number.to_be_bytes());
    }
}
