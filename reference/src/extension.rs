//! The tail of a packet, its extension fields, and the writer of one: docs/RULES.md,
//! "Extension fields".

use crate::octets::Reader;
use crate::packet::LENGTH;
use crate::refusal::Refusal::{self, *};
use std::iter::successors;

/// Octets of the longest packet.
pub const LONGEST: usize = 1024;
/// Octets of a field's head: its type and its length.
pub const HEAD: usize = 4;
/// The least length that a head may give.
pub const LEAST_LENGTH: usize = 16;
/// So many octets left, or more, begin a field.
pub const LEAST_LEFT: usize = 28;
/// Octets that an authenticator can have.
pub const AUTHENTICATORS: [usize; 3] = [4, 20, 24];

#[derive(Clone, Copy, PartialEq, Eq, Debug)]
pub struct Field<'a> {
    pub kind: u16,
    /// With its fill.
    pub body: &'a [u8],
}

/// The field that the octets left at a boundary begin with, and the octets after it; none where no
/// field begins, or one that breaks a rule.
fn split(left: &[u8]) -> Option<(Field<'_>, &[u8])> {
    let mut head = Reader::new(left);
    let (kind, length) = (head.u16().ok()?, usize::from(head.u16().ok()?));
    if left.len() < LEAST_LEFT || length < LEAST_LENGTH || !length.is_multiple_of(4) {
        return None;
    }
    let (field, after) = left.split_at_checked(length)?;
    Some((Field { kind, body: field.get(HEAD..)? }, after))
}

/// What is left at each boundary of a tail. The last begins with no field.
pub fn boundaries(tail: &[u8]) -> impl Iterator<Item = &[u8]> {
    successors(Some(tail), |left| split(left).map(|(_, after)| after))
}

/// What follows the first 48 octets of a legal packet.
#[derive(Clone, Copy, PartialEq, Eq, Debug)]
pub struct Tail<'a> {
    octets: &'a [u8],
    /// Empty where there is none.
    pub authenticator: &'a [u8],
}

impl<'a> Tail<'a> {
    pub fn fields(&self) -> impl Iterator<Item = Field<'a>> {
        boundaries(self.octets).filter_map(split).map(|(field, _)| field)
    }
}

/// The tail of a packet. What is left at the last boundary decides whether it is legal: a field that
/// breaks a rule ends the boundaries too, but with 28 octets or more.
pub fn tail(packet: &[u8]) -> Result<Tail<'_>, Refusal> {
    PacketLengthWrong.when(packet.len() > LONGEST)?;
    let octets = packet.get(LENGTH..).ok_or(PacketLengthWrong)?;
    let authenticator = boundaries(octets).last().unwrap_or_default();
    let count = authenticator.len();
    PacketLengthWrong.when(count != 0 && !AUTHENTICATORS.contains(&count))?;
    Ok(Tail { octets, authenticator })
}

/// Octets of the field that is written for a body of so many.
pub fn field_length(body: usize) -> usize {
    LEAST_LEFT.max(HEAD + body.next_multiple_of(4))
}

/// Adds a field at the end of the packet that a buffer begins with, and gives the new length.
pub fn add(buffer: &mut [u8], length: usize, field: Field) -> Result<usize, Refusal> {
    let packet = buffer.get(..length).ok_or(PacketLengthWrong)?;
    FieldNotAdded.when(!tail(packet)?.authenticator.is_empty())?;
    let octets = field_length(field.body.len());
    let end = length + octets;
    FieldNotAdded.when(end > LONGEST)?;
    let space = buffer.get_mut(length..end).ok_or(FieldNotAdded)?;
    let head = [field.kind, octets as u16].map(u16::to_be_bytes);
    let zeros = std::iter::repeat(&0);
    for (octet, &value) in
        space.iter_mut().zip(head.iter().flatten().chain(field.body).chain(zeros))
    {
        *octet = value;
    }
    Ok(end)
}

#[cfg(test)]
mod tests {
    use super::*;
    use crate::generate::tails::{put_broken_tail, put_tail};
    use crate::random::Random;

    /// A packet of 48 octets and a tail.
    fn packet(tail: &[u8]) -> Vec<u8> {
        [&[0x23; LENGTH], tail].concat()
    }

    /// So many octets that begin with a head which gives `length`.
    fn field(octets: usize, length: u16) -> Vec<u8> {
        let mut field = [[0xAA, 0xBB], length.to_be_bytes()].concat();
        field.resize(octets, 0x11);
        field
    }

    /// The types and lengths of bodies, and the octets of the authenticator.
    fn read(tail_octets: &[u8]) -> Option<(Vec<(u16, usize)>, usize)> {
        let packet = packet(tail_octets);
        let tail = tail(&packet).ok()?;
        let fields = tail.fields().map(|field| (field.kind, field.body.len()));
        Some((fields.collect(), tail.authenticator.len()))
    }

    #[test]
    fn remainders() {
        for octets in 0..28 {
            let legal = [0, 4, 20, 24].contains(&octets);
            assert_eq!(read(&vec![0; octets]), legal.then_some((vec![], octets)));
            // It looks like a field, and is none.
            let like = read(&field(28, octets as u16)[..octets]);
            assert_eq!(like.is_some(), legal, "{octets}");
            let after = read(&[field(28, 28), vec![0; octets]].concat());
            assert_eq!(after, legal.then_some((vec![(0xAABB, 24)], octets)));
        }
    }

    #[test]
    fn lengths_of_a_field() {
        for length in 0..=0xFFFF {
            let whole = length == 60;
            let then_authenticator = [36, 40, 56].contains(&length);
            let given = read(&field(60, length)).is_some();
            assert_eq!(given, whole || then_authenticator, "{length}");
        }
        let sixteen = [field(16, 16), field(28, 28)].concat();
        assert_eq!(read(&sixteen), Some((vec![(0xAABB, 12), (0xAABB, 24)], 0)));
        let then_authenticator = [field(16, 16), vec![0; 20]].concat();
        assert_eq!(read(&then_authenticator), Some((vec![(0xAABB, 12)], 20)));
        assert_eq!(read(&[field(16, 16), field(16, 16)].concat()), None);
    }

    /// Whether so many octets can be a legal tail of fields of 16 or more, and of how many at most.
    fn most_fields(octets: usize) -> Option<usize> {
        let most = (0..=octets).fold(Vec::new(), |mut most: Vec<Option<usize>>, left| {
            let lengths = (16..=left).step_by(4).filter(|_| left >= 28);
            let fields = lengths.filter_map(|length| most[left - length].map(|n| n + 1)).max();
            most.push(if [0, 4, 20, 24].contains(&left) { Some(0) } else { fields });
            most
        });
        most[octets]
    }

    #[test]
    fn lengths_of_a_packet() {
        assert!(tail(&[0; 47]).is_err() && tail(&[0; 48]).is_ok());
        assert_eq!(most_fields(976), Some(60));
        let many = packet(&[field(16, 16).repeat(59), field(32, 32)].concat());
        assert_eq!(many.len(), LONGEST);
        assert_eq!(tail(&many).unwrap().fields().count(), 60);
        let longer = packet(&[field(16, 16).repeat(59), field(36, 36)].concat());
        assert_eq!(tail(&longer), Err(PacketLengthWrong));
        for octets in 0..=200 {
            let any = octets % 4 == 0 && (octets >= 28 || [0, 4, 20, 24].contains(&octets));
            assert_eq!(most_fields(octets).is_some(), any, "{octets}");
        }
    }

    #[test]
    fn bodies_are_parts_of_the_packet() {
        let packet = packet(&[field(16, 16), field(32, 32), vec![9; 4]].concat());
        let tail = tail(&packet).unwrap();
        let bodies: Vec<&[u8]> = tail.fields().map(|field| field.body).collect();
        assert_eq!(bodies, [&packet[52..64], &packet[68..96]]);
        assert!(std::ptr::eq(bodies[0], &packet[52..64]));
        assert!(std::ptr::eq(tail.authenticator, &packet[96..]));
    }

    #[test]
    fn what_is_drawn_is_legal_or_not() {
        let mut r = Random::new(1);
        let mut refused = 0;
        for _ in 0..20_000 {
            let mut packet = packet(&[]);
            put_tail(&mut r, &mut packet);
            assert!(tail(&packet).is_ok(), "{packet:?}");
            put_broken_tail(&mut r, &mut packet);
            refused += u32::from(tail(&packet).is_err());
        }
        assert!(refused > 19_800, "{refused}");
    }

    #[test]
    fn fields_added_read_back() {
        for octets in 0..=60 {
            let body: Vec<u8> = (1..=octets).collect();
            let mut buffer = packet(&field(28, 28));
            buffer.resize(200, 0x77);
            let before = buffer.clone();
            let end = add(&mut buffer, 76, Field { kind: 7, body: &body }).unwrap();
            let fill = (4 - body.len() % 4) % 4;
            assert_eq!(end, 76 + 28.max(4 + body.len() + fill));
            assert_eq!((&buffer[..76], &buffer[end..]), (&before[..76], &before[end..]));
            let fields: Vec<Field> = tail(&buffer[..end]).unwrap().fields().collect();
            assert_eq!(fields.len(), 2);
            assert_eq!((fields[1].kind, fields[1].body.len()), (7, end - 80));
            assert_eq!(fields[1].body[..body.len()], body);
            assert!(fields[1].body[body.len()..].iter().all(|&octet| octet == 0));
        }
    }

    /// The number of an addition, which leaves the buffer where it is refused.
    fn number(buffer: usize, tail: &[u8], length: usize, body: usize) -> Option<Refusal> {
        let mut octets = packet(tail);
        octets.resize(buffer, 0x77);
        let before = octets.clone();
        let result = add(&mut octets, length, Field { kind: 1, body: &vec![1; body] });
        assert!(result.is_ok() || octets == before);
        result.err()
    }

    #[test]
    fn additions_are_refused_in_order() {
        assert_eq!(number(47, &[], 48, 0), Some(PacketLengthWrong));
        assert_eq!(number(100, &[], 101, 2000), Some(PacketLengthWrong));
        assert_eq!(number(100, &[], 47, 2000), Some(PacketLengthWrong));
        assert_eq!(number(100, &[0; 5], 53, 2000), Some(PacketLengthWrong));
        for octets in [4, 20, 24] {
            let tail = vec![0; octets];
            assert_eq!(number(1100, &tail, 48 + octets, 0), Some(FieldNotAdded));
            assert_eq!(number(1100, &tail, 48, 0), None);
        }
        assert_eq!(number(75, &[], 48, 24), Some(FieldNotAdded));
        assert_eq!(number(76, &[], 48, 24), None);
        assert_eq!(number(79, &[], 48, 25), Some(FieldNotAdded));
        assert_eq!(number(1100, &[], 48, 972), None);
        assert_eq!(number(1100, &[], 48, 973), Some(FieldNotAdded));
        assert_eq!(number(1023, &[], 48, 972), Some(FieldNotAdded));
        assert_eq!(number(1100, &field(948, 948), 996, 0), None);
        assert_eq!(number(1100, &field(952, 952), 1000, 0), Some(FieldNotAdded));
        assert_eq!(number(1100, &field(980, 980), 1028, 0), Some(PacketLengthWrong));
    }
}
