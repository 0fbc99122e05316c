//! Calls on timestamps, packet fields and ticks.

use super::faults::{Fault, add_fault};
use super::packets::{identifier, octets_of, put_any};
use super::replies::good_reply;
use super::tails::{make_illegal, put_tail};
use super::ticks::{Ticks, exchange};
use super::timestamps::{around, timestamp};
use crate::client::{Client, FRESH};
use crate::conformance::call::{Call, LONGEST, LONGEST_PACKET};
use crate::packet::{Fields, LENGTH};
use crate::random::Random;
use crate::refusal::Refusal::*;

pub fn difference(r: &mut Random, line: &mut Vec<u8>) {
    let x = timestamp(r);
    let y = match r.below(4) {
        0 => around(r, x),
        1 => around(r, x ^ (1 << 63)),
        _ => timestamp(r),
    };
    Call::Difference { x, y }.put(line);
}

/// Four timestamps that mostly pass, or of clocks that tick.
pub fn measure(r: &mut Random, line: &mut Vec<u8>) {
    let [t1, t2, t3, t4] = if r.one_in(4) {
        let ticks = Ticks::any(r);
        exchange(r, ticks).readings()
    } else {
        measured(r)
    };
    Call::Measure { t1, t2, t3, t4 }.put(line);
}

fn measured(r: &mut Random) -> [u64; 4] {
    let t1 = timestamp(r);
    // Only T1 matters to what is taken of the reply.
    let client = Client { t1, ..FRESH };
    let mut reply = good_reply(r, &client);
    for _ in 0..r.pick([0, 0, 1, 1, 1, 2]) {
        let refusal = r.pick([
            ArrivedBeforeSent,
            ArrivedTooLate,
            AnsweredBeforeReceived,
            DelayNegative,
            FirstBelowSecond,
            NoOrder,
            NoOrder,
        ]);
        add_fault(r, Fault::By(refusal), &client, &mut reply);
    }
    if r.one_in(16) {
        reply.t4 = timestamp(r);
    }
    if r.one_in(16) {
        reply.fields.receive = timestamp(r);
        reply.fields.transmit = timestamp(r);
    }
    [t1, reply.fields.receive, reply.fields.transmit, reply.t4]
}

/// Fields with any values that fit their bits.
pub fn any_fields(r: &mut Random) -> Fields {
    Fields {
        leap: r.octet_below(4),
        version: r.octet_below(8),
        mode: r.octet_below(8),
        stratum: r.octet(),
        poll: r.octet(),
        precision: r.octet() as i8,
        root_delay: if r.one_in(4) {
            r.pick([0, -1, i32::MIN, i32::MAX])
        } else {
            r.number() as i32
        },
        root_dispersion: if r.one_in(4) { r.pick([0, u32::MAX]) } else { r.number() as u32 },
        identifier: identifier(r),
        reference: timestamp(r),
        originate: timestamp(r),
        receive: timestamp(r),
        transmit: timestamp(r),
    }
}

pub fn read_fields(r: &mut Random, line: &mut Vec<u8>) {
    let mut packet = Vec::new();
    if r.one_in(8) {
        put_any(r, LENGTH, &mut packet);
    } else {
        packet = octets_of(&any_fields(r));
    }
    match r.below(4) {
        0 => put_tail(r, &mut packet),
        1 => make_illegal(r, LONGEST_PACKET, &mut packet),
        _ => {}
    }
    Call::ReadFields { packet: &packet }.put(line);
}

/// A value over the largest one, the next often.
fn over(r: &mut Random, largest: u8) -> u8 {
    if r.one_in(2) { largest + 1 } else { largest + 1 + r.octet_below(255 - largest) }
}

pub fn write_fields(r: &mut Random, line: &mut Vec<u8>) {
    let n = buffer_length(r);
    let mut fields = any_fields(r);
    if r.one_in(4) {
        let which = 1 + r.below(7);
        if which & 1 != 0 {
            fields.leap = over(r, 3);
        }
        if which & 2 != 0 {
            fields.version = over(r, 7);
        }
        if which & 4 != 0 {
            fields.mode = over(r, 7);
        }
    }
    Call::WriteFields { n, fields }.put(line);
}

/// The length of a lent buffer, those about 48 often.
pub fn buffer_length(r: &mut Random) -> u8 {
    match r.below(8) {
        0 => 47,
        1..=3 => 48,
        4 => 48 + r.octet_below(LONGEST - 47),
        5 => r.octet_below(48),
        _ => r.octet_below(LONGEST + 1),
    }
}

pub fn precision(r: &mut Random, line: &mut Vec<u8>) {
    let tick = match r.below(8) {
        0 => r.pick([0, 1, 2, 1 << 32, (1 << 32) + 1, u64::MAX, 4095, 4096, 4097, 4295]),
        1..=3 => {
            let power = 1 << r.below(34);
            around(r, power)
        }
        4 => 1 + r.below(1 << 32),
        5 => r.number(),
        _ => {
            let bits = 31 + r.below(33);
            r.number() >> bits
        }
    };
    Call::Precision { tick }.put(line);
}
