//! The answers to conformance lines.

use super::broadcast_call::BroadcastCall;
use super::call::{AskArguments, Call, LONGEST, put_numbers};
use super::extension_answer::put_extension_answer;
use super::firmware_answer::put_firmware_answer;
use super::list_call::{ListCall, RecordCall};
use super::records::{put_client, put_date, put_fields};
use super::time_answer::put_time_answer;
use crate::arrival::{Arrived, Told, arrival};
use crate::associations::Associations;
use crate::client::{Client, FRESH, ask, give_up};
use crate::refusal::{Refusal, number_of};
use crate::timestamp::{self, Measured};
use crate::{broadcast, calendar, ledger, packet, precision, server};

pub fn put_answer(call: &Call, out: &mut Vec<u8>) {
    match *call {
        Call::Difference { x, y } => put_difference(x, y, out),
        Call::Measure { t1, t2, t3, t4 } => put_measured([t1, t2, t3, t4], out),
        Call::ReadFields { packet } => {
            put_result(packet::read(packet), out, |fields, out| put_fields(&fields, out));
        }
        Call::WriteFields { n, ref fields } => {
            put_written(n, out, |buffer| packet::write(fields, buffer));
        }
        Call::DateOfTimestamp { timestamp } => {
            put_result(calendar::date_of(timestamp), out, |date, out| put_date(&date, out));
        }
        Call::TimestampOfDate { ref date } => {
            put_result(calendar::timestamp_of(date), out, |t, out| put_numbers([t], out));
        }
        Call::Precision { tick } => {
            put_result(precision::precision(tick), out, |p, out| out.push(p as u8));
        }
        Call::Ask { ref client, arguments } => put_ask(client, arguments, out),
        Call::Arrival { ref client, t4, alternate, packet } => {
            put_arrived(client, arrival(client, packet, t4, alternate), out);
        }
        Call::GiveUp { ref client, uptime } => put_next(client, give_up(client, uptime), out),
        Call::Reply { ref settings, t2, t3, n, request } => {
            put_written(n, out, |buffer| server::reply(settings, t2, t3, request, buffer));
        }
        Call::Entry { debt, offset, half } => put_entry(debt, offset, half, out),
        Call::Tick { debt, limit } => put_tick(debt, limit, out),
        Call::OfList(ref call) => put_list_answer(call, out),
        Call::OfBroadcast(ref call) => put_broadcast_answer(call, out),
        Call::OfExtension(ref call) => put_extension_answer(call, out),
        Call::OfTime(ref call) => put_time_answer(call, out),
        Call::OfFirmware(ref call) => put_firmware_answer(call, out),
        Call::Fresh => put_next(&FRESH, Ok(FRESH), out),
        Call::Constants => put_constants(out),
    }
}

/// The whole answer where two timestamps are half a circle apart.
pub const NO_ORDER: u8 = 1;

fn put_difference(x: u64, y: u64, out: &mut Vec<u8>) {
    match timestamp::difference(x, y) {
        Some(difference) => {
            out.push(0);
            put_numbers([difference as u64], out);
        }
        None => out.push(NO_ORDER),
    }
}

fn put_measured([t1, t2, t3, t4]: [u64; 4], out: &mut Vec<u8>) {
    put_result(timestamp::measure(t1, t2, t3, t4), out, |m, out| m.put(out));
}

fn put_constants(out: &mut Vec<u8>) {
    out.push(0);
    put_numbers([timestamp::ZERO, timestamp::SECOND, timestamp::LIMIT], out);
}

/// The number, and if it is 00 what `put` makes of the value.
pub fn put_result<T>(
    result: Result<T, Refusal>,
    out: &mut Vec<u8>,
    put: impl FnOnce(T, &mut Vec<u8>),
) {
    out.push(number_of(&result));
    if let Ok(value) = result {
        put(value, out);
    }
}

/// The longest buffer as it is before a call.
pub const FILLED: [u8; LONGEST as usize] = filled();

const fn filled() -> [u8; LONGEST as usize] {
    let mut octets = [0x5A; LONGEST as usize];
    let mut i = 0;
    while i < octets.len() {
        octets[i] += i as u8;
        i += 1;
    }
    octets
}

pub fn lent(space: &mut [u8], n: u8) -> &mut [u8] {
    space.get_mut(..n.into()).unwrap_or_default()
}

/// Lends a buffer of n octets to a call, and shows the number and the buffer.
pub fn put_written(n: u8, out: &mut Vec<u8>, call: impl FnOnce(&mut [u8]) -> Result<(), Refusal>) {
    let mut space = FILLED;
    let buffer = lent(&mut space, n);
    out.push(number_of(&call(buffer)));
    out.extend_from_slice(buffer);
}

/// What a call hands back to be kept, as it stands in an answer.
trait Kept {
    fn put(&self, out: &mut Vec<u8>);
}

impl Kept for Client {
    fn put(&self, out: &mut Vec<u8>) {
        put_client(self, out);
    }
}

impl Kept for Associations {
    fn put(&self, out: &mut Vec<u8>) {
        out.push(self.in_use as u8);
        self.records.iter().for_each(|record| put_client(record, out));
    }
}

/// The number, what comes next, and the buffer.
fn put_asked<T: Kept>(
    before: &T,
    n: u8,
    out: &mut Vec<u8>,
    call: impl FnOnce(&mut [u8]) -> Result<T, Refusal>,
) {
    let mut space = FILLED;
    let buffer = lent(&mut space, n);
    put_next(before, call(buffer), out);
    out.extend_from_slice(buffer);
}

fn put_ask(client: &Client, arguments: AskArguments, out: &mut Vec<u8>) {
    let AskArguments { n, version, clock, token, uptime } = arguments;
    put_asked(client, n, out, |buffer| ask(client, buffer, version, clock, token, uptime));
}

/// The number and what comes next, which is what was handed in where the call is refused.
fn put_next<T: Kept>(before: &T, result: Result<T, Refusal>, out: &mut Vec<u8>) {
    out.push(number_of(&result));
    result.as_ref().unwrap_or(before).put(out);
}

/// An arrival's kind and number, what it tells, and what comes next.
fn put_arrived<T: Kept>(before: &T, result: Result<Arrived<T>, Refusal>, out: &mut Vec<u8>) {
    let nothing = (Measured::default(), [0; 4], 0);
    let (kind, (measured, code, row)) = match result.as_ref().map(|arrived| arrived.told) {
        Err(_) => (0, nothing),
        Ok(Told::Accepted(measured)) => (1, (measured, [0; 4], 0)),
        Ok(Told::Kiss { code, row }) => (2, (Measured::default(), code, row)),
    };
    out.extend([kind, number_of(&result)]);
    measured.put(out);
    out.extend(code);
    out.push(row);
    result.as_ref().map_or(before, |arrived| &arrived.next).put(out);
}

fn put_list_answer(call: &ListCall, out: &mut Vec<u8>) {
    let (list, number) = (&call.list, call.number);
    match call.call {
        RecordCall::Ask(AskArguments { n, version, clock, token, uptime }) => {
            put_asked(list, n, out, |buffer| {
                list.ask(number, buffer, version, clock, token, uptime)
            });
        }
        RecordCall::Arrival { t4, packet } => {
            put_arrived(list, list.arrival(number, packet, t4), out);
        }
        RecordCall::GiveUp { uptime } => put_next(list, list.give_up(number, uptime), out),
    }
}

fn put_broadcast_answer(call: &BroadcastCall, out: &mut Vec<u8>) {
    match *call {
        BroadcastCall::Write { ref settings, version, poll, t3, n } => {
            put_written(n, out, |buffer| broadcast::write(settings, version, poll, t3, buffer));
        }
        BroadcastCall::Arrival { t4, packet } => {
            put_result(broadcast::arrival(packet, t4), out, |difference, out| {
                put_numbers([difference as u64], out);
            });
        }
    }
}

fn put_entry(debt: i64, offset: i64, half: u8, out: &mut Vec<u8>) {
    let result = ledger::entry(debt, offset, half);
    out.push(number_of(&result));
    put_numbers([result.unwrap_or(debt) as u64], out);
}

fn put_tick(debt: i64, limit: u64, out: &mut Vec<u8>) {
    let result = ledger::tick(debt, limit);
    out.push(number_of(&result));
    let payment = result.unwrap_or(ledger::Payment { paid: 0, debt });
    put_numbers([payment.paid as u64, payment.debt as u64], out);
}
