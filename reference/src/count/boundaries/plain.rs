//! The boundaries of calls on packet fields and ticks.

use super::Marks;
use super::tails::tails;
use crate::conformance::call::LONGEST_PACKET;
use crate::count::outcome::Outcome;
use crate::packet::Fields;
use crate::refusal::Refusal::*;

pub fn read_fields(m: &mut Marks, packet: &[u8], outcome: Outcome) {
    let length = packet.len();
    m.see_each("length-", 0..=LONGEST_PACKET, |n| length == n);
    let refused = outcome.by(PacketLengthWrong);
    m.see_each("refused-length-", [47, 49, 67, 69], |n| refused && length == n);
    tails(m, packet, LONGEST_PACKET, outcome);
}

pub fn write_fields(m: &mut Marks, n: u8, fields: &Fields, outcome: Outcome) {
    let written = outcome.passed();
    let large = outcome.by(FieldTooLarge);
    m.see_each("buffer-", 0..=80, |length| n == length);
    m.see("n=47-refused", outcome.by(BufferTooShort) && n == 47);
    m.see("n=48-written", written && n == 48);
    m.see("li=3-written", written && fields.leap == 3);
    m.see("li=4-refused", large && fields.leap == 4);
    m.see("vn=7-written", written && fields.version == 7);
    m.see("vn=8-refused", large && fields.version == 8);
    m.see("mode=7-written", written && fields.mode == 7);
    m.see("mode=8-refused", large && fields.mode == 8);
    m.see("1-before-27", outcome.by(BufferTooShort) && fields.leap > 3);
}

pub fn precision(m: &mut Marks, tick: u64, outcome: Outcome) {
    let refused = outcome.by(TickOutOfRange);
    m.see("zero", tick == 0 && refused);
    m.see("over", tick == (1 << 32) + 1 && refused);
    m.see_each("power-", 0..=32, |k| tick == 1 << k && outcome.passed());
    m.see_each("power-less-1-", 0..=32, |k| tick == (1 << k) - 1);
    m.see_each("power-and-1-", 0..=32, |k| tick == (1 << k) + 1);
}
