//! Calls for a record of a list, as they stand in conformance lines.

use super::call::{AskArguments, Malformed, put_numbers};
use super::records::{RECORD, put_client, read_client};
use crate::associations::{Associations, MOST};
use crate::octets::Reader;

/// The largest count of a list in a line, one more than a call takes.
pub const LARGEST_COUNT: u8 = MOST as u8 + 1;
/// Octets of a list before its records: count, number in use and record number.
const HEAD: usize = 3;

/// Places in a line of octets: of the count, and of the list's record of a number.
pub const COUNT_AT: usize = 1;
pub const fn record_at(number: usize) -> usize {
    1 + HEAD + RECORD * number
}

#[derive(Clone, PartialEq, Eq, Debug)]
pub struct ListCall<'a> {
    pub list: Associations,
    /// The number of the record that the call is for.
    pub number: usize,
    pub call: RecordCall<'a>,
}

/// What is called for the record.
#[derive(Clone, Copy, PartialEq, Eq, Debug)]
pub enum RecordCall<'a> {
    Ask(AskArguments),
    Arrival { t4: u64, packet: &'a [u8] },
    GiveUp { uptime: u64 },
}

/// Octets of the list that the rest of a line begins with.
pub fn list_length(rest: &[u8]) -> Result<usize, Malformed> {
    match rest.first() {
        None => Err(Malformed::Length),
        Some(&count) if count > LARGEST_COUNT => Err(Malformed::Count),
        Some(&count) => Ok(HEAD + RECORD * usize::from(count)),
    }
}

fn read_record_call<'a>(
    operation: u8,
    octets: &mut Reader<'a>,
) -> Result<RecordCall<'a>, Malformed> {
    Ok(match operation {
        0x0E => RecordCall::Ask(AskArguments::read(octets)?),
        0x0F => RecordCall::Arrival { t4: octets.u64()?, packet: octets.rest() },
        0x10 => RecordCall::GiveUp { uptime: octets.u64()? },
        _ => return Err(Malformed::Operation),
    })
}

impl<'a> ListCall<'a> {
    /// Reads what follows the operation.
    pub fn read(operation: u8, octets: &mut Reader<'a>) -> Result<ListCall<'a>, Malformed> {
        let [count, in_use, number] = octets.octets()?;
        let records = (0..count).map(|_| read_client(octets)).collect::<Result<_, _>>()?;
        let list = Associations { records, in_use: in_use.into() };
        Ok(ListCall { list, number: number.into(), call: read_record_call(operation, octets)? })
    }

    pub fn operation(&self) -> u8 {
        match self.call {
            RecordCall::Ask(_) => 0x0E,
            RecordCall::Arrival { .. } => 0x0F,
            RecordCall::GiveUp { .. } => 0x10,
        }
    }

    /// Appends what follows the operation.
    pub fn put(&self, line: &mut Vec<u8>) {
        line.extend([self.list.records.len() as u8, self.list.in_use as u8, self.number as u8]);
        self.list.records.iter().for_each(|record| put_client(record, line));
        match self.call {
            RecordCall::Ask(arguments) => arguments.put(line),
            RecordCall::Arrival { t4, packet } => {
                put_numbers([t4], line);
                line.extend(packet);
            }
            RecordCall::GiveUp { uptime } => put_numbers([uptime], line),
        }
    }
}
