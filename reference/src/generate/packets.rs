//! The first 48 octets of packets.

use crate::kiss::CODES;
use crate::packet::{self, Fields, LENGTH};
use crate::random::Random;

/// Fields as 48 octets; larger values are cut to their bits.
pub fn octets_of(fields: &Fields) -> Vec<u8> {
    let cut = Fields {
        leap: fields.leap & 3,
        version: fields.version & 7,
        mode: fields.mode & 7,
        ..*fields
    };
    let mut octets = vec![0; LENGTH];
    // Fields that are cut to their bits are not refused.
    let _ = packet::write(&cut, &mut octets);
    octets
}

/// Appends so many octets of any value.
pub fn put_any(r: &mut Random, count: usize, out: &mut Vec<u8>) {
    let end = out.len() + count;
    while out.len() < end {
        out.extend(r.number().to_be_bytes());
    }
    out.truncate(end);
}

/// Changes a packet on its way: one bit, one octet, or all of it, each once in so many.
pub fn alter(r: &mut Random, times: u64, packet: &mut Vec<u8>) {
    match r.below(times) {
        0 => {
            let at = r.below(LENGTH as u64) as usize;
            let bit = 1 << r.below(8);
            if let Some(octet) = packet.get_mut(at) {
                *octet ^= bit;
            }
        }
        1 => {
            let at = r.below(LENGTH as u64) as usize;
            let other = r.octet();
            if let Some(octet) = packet.get_mut(at) {
                *octet = other;
            }
        }
        2 => {
            packet.clear();
            put_any(r, LENGTH, packet);
        }
        _ => {}
    }
}

/// A reference identifier, also one that is a kiss code.
pub fn identifier(r: &mut Random) -> [u8; 4] {
    match r.below(4) {
        0 => *b"GPS\0",
        1 => (r.number() as u32).to_be_bytes(),
        2 => [0; 4],
        _ => kiss_code(r),
    }
}

/// A kiss code: listed, nearly listed, or any four octets.
pub fn kiss_code(r: &mut Random) -> [u8; 4] {
    let mut code = r.pick(CODES);
    match r.below(16) {
        0 => code = (r.number() as u32).to_be_bytes(),
        1 => {
            let letter = b'A' + r.octet_below(26);
            code[r.below(4) as usize] = letter;
        }
        2 => code.make_ascii_lowercase(),
        3 => code[3] = 0,
        4 => code = r.pick([[0; 4], *b"XXXX", *b"STEQ", *b"ACSS", *b"    ", [255; 4]]),
        _ => {}
    }
    code
}
