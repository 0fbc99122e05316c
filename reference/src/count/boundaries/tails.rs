//! The boundaries of a packet's length and of its tail.

use super::Marks;
use crate::count::outcome::Outcome;
use crate::extension::{AUTHENTICATORS, LEAST_LEFT, LEAST_LENGTH, LONGEST, boundaries, tail};
use crate::octets::Reader;
use crate::packet::LENGTH;
use crate::refusal::Refusal::*;

/// The rule that a tail breaks, alone.
#[derive(Clone, Copy, PartialEq, Eq)]
enum Fault {
    /// A length below 16, a multiple of 4.
    LowLength(usize),
    /// A length of 16 or more that is no multiple of 4 and does not reach past the end.
    NotInFours,
    /// A multiple of 4, so many octets past the end.
    PastTheEnd(usize),
    /// So many octets left, which may not be.
    Remainder(usize),
    Several,
}

/// A packet's tail, as it is whatever the packet's length.
struct Shape {
    /// The lengths of its fields.
    fields: Vec<usize>,
    /// What is left at the last boundary.
    left: usize,
    fault: Option<Fault>,
    /// Whether what is left looks like a field.
    like_field: bool,
}

fn fault_of_length(length: usize, left: usize) -> Fault {
    match length {
        _ if length < LEAST_LENGTH && length.is_multiple_of(4) => Fault::LowLength(length),
        LEAST_LENGTH.. if length <= left => Fault::NotInFours,
        LEAST_LENGTH.. if length.is_multiple_of(4) => Fault::PastTheEnd(length - left),
        _ => Fault::Several,
    }
}

fn fault_of(left: &[u8], length: usize) -> Option<Fault> {
    match left.len() {
        0 => None,
        count if AUTHENTICATORS.contains(&count) => None,
        count if count < LEAST_LEFT => Some(Fault::Remainder(count)),
        count => Some(fault_of_length(length, count)),
    }
}

fn shape(packet: &[u8]) -> Shape {
    let octets = packet.get(LENGTH..).unwrap_or_default();
    let counts: Vec<usize> = boundaries(octets).map(<[u8]>::len).collect();
    let left = boundaries(octets).last().unwrap_or_default();
    let length = Reader::new(left.get(2..).unwrap_or_default()).u16().map_or(0, usize::from);
    let like_field = length.is_multiple_of(4) && (LEAST_LENGTH..=left.len()).contains(&length);
    let fields = counts.windows(2).map(|pair| pair.iter().copied().reduce(|a, b| a - b));
    Shape {
        fields: fields.map(Option::unwrap_or_default).collect(),
        left: left.len(),
        fault: fault_of(left, length),
        like_field,
    }
}

/// Whether the tests came as far as the packet's length, and that passed.
fn was_read(outcome: Outcome) -> bool {
    let before = [PacketLengthWrong, BufferTooShort, RecordNotLegal, ImageNotLegal, NotInList];
    !before.into_iter().any(|refusal| outcome.by(refusal))
}

/// Both sides of each line that test 7 draws. Where `longest` says that there are no packets of more
/// than 1024 octets, in replays, each remainder by itself is not wanted.
pub fn tails(m: &mut Marks, packet: &[u8], longest: usize, outcome: Outcome) {
    let (refused, read) = (outcome.by(PacketLengthWrong), was_read(outcome));
    let length = packet.len();
    let shape = shape(packet);
    m.see("7-short", refused && length < LENGTH);
    m.see("7-47", refused && length == LENGTH - 1);
    m.see_each("read-", [48, 52, 68, 72, 76, 1020, 1024], |n| read && length == n);
    let within = refused && (LENGTH..=LONGEST).contains(&length);
    if longest > LONGEST {
        remainders(m, &shape, within);
        let whole = refused && shape.fault.is_none();
        m.see("7-long", refused && length > LONGEST);
        m.see("7-1028", whole && length == LONGEST + 4 && shape.left == 0);
        m.see("7-1028-with-authenticator", whole && length == LONGEST + 4 && shape.left > 0);
        m.see("7-1025", refused && length == LONGEST + 1);
    }
    faults(m, &shape, within, read);
    fields(m, &shape, read);
}

fn faults(m: &mut Marks, shape: &Shape, refused: bool, read: bool) {
    let by = |fault| refused && shape.fault == Some(fault);
    let after = !shape.fields.is_empty();
    m.see_each("7-length-", [0, 4, 8, 12], |length| by(Fault::LowLength(length)));
    m.see("7-length-12-after-a-field", after && by(Fault::LowLength(12)));
    m.see("7-not-in-fours", by(Fault::NotInFours));
    m.see("7-not-in-fours-after-a-field", after && by(Fault::NotInFours));
    m.see("7-past-the-end", by(Fault::PastTheEnd(4)));
    m.see("7-past-the-end-after-a-field", after && by(Fault::PastTheEnd(4)));
    let remainder = refused && matches!(shape.fault, Some(Fault::Remainder(_)));
    m.see("7-remainder", remainder);
    m.see("7-after-a-field-remainder", after && remainder);
    m.see("read-length-16", read && shape.fields.contains(&LEAST_LENGTH));
    let last = shape.fields.last().copied().unwrap_or(0);
    m.see_each("read-last-field-", [28, 32], |length| read && shape.left == 0 && last == length);
}

/// Each number of octets that may not be left, by itself and after a field.
fn remainders(m: &mut Marks, shape: &Shape, refused: bool) {
    let wrong = || (1..LEAST_LEFT).filter(|left| !AUTHENTICATORS.contains(left));
    let alone = refused && shape.fields.is_empty();
    let after = refused && !shape.fields.is_empty();
    m.see_each("7-remainder-", wrong(), |n| alone && shape.fault == Some(Fault::Remainder(n)));
    m.see_each("7-after-a-field-remainder-", wrong(), |n| {
        after && shape.fault == Some(Fault::Remainder(n))
    });
}

fn fields(m: &mut Marks, shape: &Shape, read: bool) {
    let count = shape.fields.len();
    let (alone, after) = (read && count == 0, read && count > 0);
    m.see_each("fields-", (0..=6).chain([60]), |n| read && count == n);
    m.see_each("authenticator-", AUTHENTICATORS, |n| alone && shape.left == n);
    m.see_each("fields-and-authenticator-", AUTHENTICATORS, |n| after && shape.left == n);
    m.see_each("authenticator-like-a-field-", [20, 24], |n| {
        read && shape.left == n && shape.like_field
    });
}

/// Whether a legal packet has an extension field.
pub fn has_field(packet: &[u8]) -> bool {
    tail(packet).is_ok_and(|tail| tail.fields().next().is_some())
}

/// Every outcome of these with an extension field there.
pub fn with_fields(
    m: &mut Marks,
    packet: &[u8],
    outcomes: impl IntoIterator<Item = Outcome>,
    outcome: Outcome,
) {
    let has_field = has_field(packet);
    let later = outcomes.into_iter().filter(|&outcome| was_read(outcome));
    m.see_each("with-fields-", later, |later| has_field && outcome == later);
}
