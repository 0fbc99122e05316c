//! Calls on extension fields, as they stand in conformance lines.

use super::call::{LONGEST_PACKET, Malformed};
use crate::extension::Field;
use crate::octets::Reader;

/// Octets of the longest buffer and of the longest body of an addition.
pub const LONGEST_ADDITION: u16 = 1100;
/// Octets of an addition before its body: buffer length, packet length, type and body length.
pub const BEFORE_BODY: usize = 8;
/// Places in a line of octets of an addition's buffer length and of its body length.
pub const BUFFER_LENGTH_AT: usize = 1;
pub const BODY_LENGTH_AT: usize = 7;

#[derive(Clone, Copy, PartialEq, Eq, Debug)]
pub enum ExtensionCall<'a> {
    Read { packet: &'a [u8] },
    Add(Addition<'a>),
}

#[derive(Clone, Copy, PartialEq, Eq, Debug)]
pub struct Addition<'a> {
    /// The length of the buffer that is lent to the writer.
    pub buffer_length: u16,
    pub packet_length: u16,
    pub field: Field<'a>,
    /// The first octets of the buffer; the others are those of every lent buffer.
    pub first: &'a [u8],
}

/// Shortest and longest rest of a line after its operation.
pub fn lengths(operation: u8, rest: &[u8]) -> Result<(usize, usize), Malformed> {
    match operation {
        0x13 => Ok((0, LONGEST_PACKET)),
        0x14 => addition_lengths(&mut Reader::new(rest)),
        _ => Err(Malformed::Operation),
    }
}

fn addition_lengths(octets: &mut Reader) -> Result<(usize, usize), Malformed> {
    let [buffer, _, _, body] =
        [octets.u16()?, octets.u16()?, octets.u16()?, octets.u16()?].map(usize::from);
    if buffer > LONGEST_ADDITION.into() {
        return Err(Malformed::BufferLength);
    }
    if body > LONGEST_ADDITION.into() {
        return Err(Malformed::BodyLength);
    }
    Ok((BEFORE_BODY + body, BEFORE_BODY + body + buffer))
}

impl<'a> Addition<'a> {
    /// The packet, where the buffer has it whole.
    pub fn packet(&self) -> Option<Vec<u8>> {
        let mut buffer = self.buffer();
        let length = usize::from(self.packet_length);
        (length <= buffer.len()).then(|| {
            buffer.truncate(length);
            buffer
        })
    }

    /// The buffer before the call.
    pub fn buffer(&self) -> Vec<u8> {
        let places = 0..usize::from(self.buffer_length);
        places.map(|i| self.first.get(i).copied().unwrap_or((0x5A + i) as u8)).collect()
    }

    fn read(octets: &mut Reader<'a>) -> Result<Addition<'a>, Malformed> {
        let (buffer_length, packet_length) = (octets.u16()?, octets.u16()?);
        let (kind, body_length) = (octets.u16()?, octets.u16()?);
        let body = octets.slice(body_length.into())?;
        let field = Field { kind, body };
        Ok(Addition { buffer_length, packet_length, field, first: octets.rest() })
    }

    fn put(&self, line: &mut Vec<u8>) {
        let Field { kind, body } = self.field;
        for number in [self.buffer_length, self.packet_length, kind, body.len() as u16] {
            line.extend(number.to_be_bytes());
        }
        line.extend(body);
        line.extend(self.first);
    }
}

impl<'a> ExtensionCall<'a> {
    /// Reads what follows the operation.
    pub fn read(operation: u8, octets: &mut Reader<'a>) -> Result<ExtensionCall<'a>, Malformed> {
        match operation {
            0x13 => Ok(ExtensionCall::Read { packet: octets.rest() }),
            0x14 => Addition::read(octets).map(ExtensionCall::Add),
            _ => Err(Malformed::Operation),
        }
    }

    pub fn operation(&self) -> u8 {
        match self {
            ExtensionCall::Read { .. } => 0x13,
            ExtensionCall::Add(_) => 0x14,
        }
    }

    /// Appends what follows the operation.
    pub fn put(&self, line: &mut Vec<u8>) {
        match self {
            ExtensionCall::Read { packet } => line.extend(*packet),
            ExtensionCall::Add(addition) => addition.put(line),
        }
    }
}
