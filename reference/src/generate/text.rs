//! Octets as lines of text: digits of either case, and texts that are malformed.

use crate::hex_lines::{digits_of, put_hex};
use crate::random::Random;

/// Appends octets as digits: upper case, lower case or both.
fn put_digits(r: &mut Random, octets: &[u8], text: &mut Vec<u8>) {
    match r.below(8) {
        0 | 1 => {
            text.extend(octets.iter().flat_map(|&o| digits_of(o).map(|d| d.to_ascii_lowercase())))
        }
        2 => put_mixed(r, octets, text),
        _ => put_hex(octets, text),
    }
}

fn put_mixed(r: &mut Random, octets: &[u8], text: &mut Vec<u8>) {
    for &octet in octets {
        let bits = r.number() >> 40;
        let [high, low] = digits_of(octet);
        text.push(if bits & 1 == 0 { high } else { high.to_ascii_lowercase() });
        text.push(if bits & 2 == 0 { low } else { low.to_ascii_lowercase() });
    }
}

/// Characters that are no digits, beside CR, space and NUL.
const OTHERS: [u8; 23] = *b"GgxXzZ/:@`-+.,;_\t\x0b\x7f\x80\xc3\xff\x01";

/// Makes a text malformed by its characters.
fn make_characters_malformed(r: &mut Random, text: &mut Vec<u8>) {
    match r.below(12) {
        0 | 1 => text.push(b'\r'),
        2 => insert(r, b'\r', text),
        3 => insert(r, b' ', text),
        4 => text.push(b' '),
        5 => text.insert(0, b' '),
        6 => insert(r, 0, text),
        7 => replace(r, text),
        8 => {
            let at = r.below(text.len() as u64 + 1) as usize;
            text.insert(at, r.pick(OTHERS));
        }
        // An odd number of digits.
        9 => text.truncate(text.len().saturating_sub(1)),
        10 => text.push(b'0'),
        _ => text.clear(),
    }
}

fn insert(r: &mut Random, character: u8, text: &mut Vec<u8>) {
    let at = r.below(text.len() as u64 + 1) as usize;
    text.insert(at, character);
}

/// One digit becomes something else; the length stays.
fn replace(r: &mut Random, text: &mut [u8]) {
    let at = r.below(text.len().max(1) as u64) as usize;
    let other = r.pick(*b"\r \0Gg/:@`\xff");
    if let Some(digit) = text.get_mut(at) {
        *digit = other;
    }
}

/// Appends the text of a drawn line: once in so many malformed by its characters, once in so many
/// with octets that `make_malformed` leaves, else as drawn. Afterwards `line` holds the octets
/// that the text has, none where it is malformed by its characters. Says whether it is as drawn.
pub fn put_drawn(
    r: &mut Random,
    times: u64,
    line: &mut Vec<u8>,
    make_malformed: impl FnOnce(&mut Random, &mut Vec<u8>),
    text: &mut Vec<u8>,
) -> bool {
    match r.below(times) {
        0 => {
            let mut digits = Vec::new();
            put_digits(r, line, &mut digits);
            make_characters_malformed(r, &mut digits);
            text.extend(digits);
            line.clear();
            false
        }
        1 => {
            make_malformed(r, line);
            put_digits(r, line, text);
            false
        }
        _ => {
            put_digits(r, line, text);
            true
        }
    }
}
