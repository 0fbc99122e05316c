//! Lines of hexadecimal digits, read and answered as a stream.

use std::io::{self, Read, Write};

const DIGITS: [u8; 16] = *b"0123456789ABCDEF";
/// The two digits of each octet.
const DIGITS_OF_OCTET: [[u8; 2]; 256] = digits_of_octets();
/// The value of each character as a digit.
const VALUES: [Option<u8>; 256] = values();
/// Octets read at once.
const CHUNK: usize = 1 << 16;

const fn digits_of_octets() -> [[u8; 2]; 256] {
    let mut table = [[0; 2]; 256];
    let mut octet = 0;
    while octet < 256 {
        table[octet] = [DIGITS[octet / 16], DIGITS[octet % 16]];
        octet += 1;
    }
    table
}

const fn values() -> [Option<u8>; 256] {
    let mut table = [None; 256];
    let mut value = 0;
    while value < 16 {
        let digit = DIGITS[value as usize];
        table[digit as usize] = Some(value);
        table[digit.to_ascii_lowercase() as usize] = Some(value);
        value += 1;
    }
    table
}

/// The value of a digit of either case.
pub fn value(character: u8) -> Option<u8> {
    VALUES[usize::from(character)]
}

/// The two digits of an octet, upper case.
pub fn digits_of(octet: u8) -> [u8; 2] {
    DIGITS_OF_OCTET[usize::from(octet)]
}

/// Appends upper case digits.
pub fn put_hex(octets: &[u8], text: &mut Vec<u8>) {
    text.reserve(2 * octets.len());
    for &octet in octets {
        text.extend_from_slice(&digits_of(octet));
    }
}

/// The octets of a text, if it is an even number of digits.
pub fn octets_of(text: &[u8]) -> Option<Vec<u8>> {
    let (pairs, []) = text.as_chunks::<2>() else {
        return None;
    };
    pairs.iter().map(|&[high, low]| Some(value(high)? * 16 + value(low)?)).collect()
}

/// A line being gathered: its octets, up to a limit.
struct Line {
    octets: Vec<u8>,
    limit: usize,
    /// The first digit of an octet whose second is still to come.
    high: Option<u8>,
    malformed: bool,
    empty: bool,
}

impl Line {
    fn new(limit: usize) -> Line {
        let octets = Vec::with_capacity(limit);
        Line { octets, limit, high: None, malformed: false, empty: true }
    }

    fn clear(&mut self) {
        self.octets.clear();
        self.high = None;
        self.malformed = false;
        self.empty = true;
    }

    fn take(&mut self, characters: &[u8]) {
        self.empty &= characters.is_empty();
        for &character in characters {
            if self.malformed {
                return;
            }
            self.take_character(character);
        }
    }

    fn take_character(&mut self, character: u8) {
        match (value(character), self.high.take()) {
            (None, _) => self.malformed = true,
            (Some(value), None) => self.high = Some(value),
            (Some(_), Some(_)) if self.octets.len() == self.limit => self.malformed = true,
            (Some(value), Some(high)) => self.octets.push(high * 16 + value),
        }
    }

    /// The octets, none where the line is malformed.
    fn value(&self) -> &[u8] {
        if self.malformed || self.high.is_some() {
            return &[];
        }
        &self.octets
    }
}

/// The answering of lines as their characters come in.
struct Answering<A> {
    answer: A,
    line: Line,
    octets: Vec<u8>,
    /// The answers to be written.
    text: Vec<u8>,
}

impl<A: FnMut(&[u8], &mut Vec<u8>)> Answering<A> {
    fn take(&mut self, characters: &[u8]) {
        let mut rest = characters;
        while let Some(end) = rest.iter().position(|&c| c == b'\n') {
            let (line, after) = rest.split_at(end);
            self.line.take(line);
            self.end_line();
            rest = after.get(1..).unwrap_or_default();
        }
        self.line.take(rest);
    }

    fn end_line(&mut self) {
        self.octets.clear();
        (self.answer)(self.line.value(), &mut self.octets);
        put_hex(&self.octets, &mut self.text);
        self.text.push(b'\n');
        self.line.clear();
    }

    fn write(&mut self, output: &mut impl Write) -> io::Result<()> {
        output.write_all(&self.text)?;
        self.text.clear();
        Ok(())
    }
}

/// The characters that come next, none at the end. A read error counts as the end of the input.
fn read<'a>(input: &mut impl Read, chunk: &'a mut [u8]) -> &'a [u8] {
    loop {
        match input.read(chunk) {
            Ok(count) => return chunk.get(..count).unwrap_or_default(),
            Err(error) if error.kind() == io::ErrorKind::Interrupted => {}
            Err(_) => return &[],
        }
    }
}

/// Answers every line. A line of more than `limit` octets, or that is not an even number of
/// digits, is handed over as an empty one.
pub fn answer_lines(
    mut input: impl Read,
    mut output: impl Write,
    limit: usize,
    answer: impl FnMut(&[u8], &mut Vec<u8>),
) -> io::Result<()> {
    let (octets, text) = (Vec::new(), Vec::with_capacity(2 * CHUNK));
    let mut answering = Answering { answer, line: Line::new(limit), octets, text };
    let mut chunk = vec![0; CHUNK];
    loop {
        let characters = read(&mut input, &mut chunk);
        if characters.is_empty() {
            break;
        }
        answering.take(characters);
        answering.write(&mut output)?;
    }
    if !answering.line.empty {
        answering.end_line();
    }
    answering.write(&mut output)?;
    output.flush()
}
