//! Counts how often each call had each outcome over lines and their answers, and names what never
//! occurred.

mod boundaries;
pub mod conformance;
mod outcome;
pub mod replay;

use crate::hex_lines::octets_of;
use boundaries::Boundaries;
use outcome::Outcome;
use std::collections::BTreeMap;
use std::fmt;
use std::io::{self, BufRead};

/// What is counted.
#[derive(Clone, Copy, PartialEq, Eq, PartialOrd, Ord)]
enum Row {
    Call {
        operation: u8,
        outcome: Outcome,
    },
    /// All malformed lines where the kind is empty, else those of one kind.
    Malformed {
        kind: &'static str,
    },
    /// Lines of an operation that are too short or too long.
    WrongLength {
        operation: u8,
        long: bool,
    },
}

impl fmt::Display for Row {
    fn fmt(&self, out: &mut fmt::Formatter<'_>) -> fmt::Result {
        match self {
            Row::Call { operation, outcome } => write!(out, "{operation:02X} {outcome}"),
            Row::Malformed { kind } => write!(out, "-- 64{kind}"),
            Row::WrongLength { operation, long } => {
                let side = if *long { "long" } else { "short" };
                write!(out, "-- 64-length-{operation:02X}-{side}")
            }
        }
    }
}

/// A line and its answer.
struct Pair {
    /// The line's characters.
    text: Vec<u8>,
    /// The line's octets, if it is an even number of digits.
    line: Option<Vec<u8>>,
    answer: Vec<u8>,
}

/// Counts a pair; none where the answer does not fit the line.
type Take = fn(&mut Counter, &Pair) -> Option<()>;

pub struct Counter {
    /// A row that is wanted is there from the start, with count 0.
    rows: BTreeMap<Row, u64>,
    boundaries: Boundaries,
    take: Take,
}

impl Counter {
    fn new(wanted: impl IntoIterator<Item = Row>, take: Take) -> Counter {
        let rows = wanted.into_iter().map(|row| (row, 0)).collect();
        Counter { rows, boundaries: Boundaries::default(), take }
    }

    fn add(&mut self, row: Row) {
        *self.rows.entry(row).or_default() += 1;
    }

    /// Counts all lines and their answers.
    pub fn count(&mut self, mut lines: impl BufRead, mut answers: impl BufRead) -> io::Result<()> {
        let mut place = 1;
        while let Some(pair) = next_pair(&mut lines, &mut answers, place)? {
            let fits = (self.take)(self, &pair);
            fits.ok_or_else(|| problem(place, "the answer does not fit the line"))?;
            place += 1;
        }
        Ok(())
    }

    fn counts(&self) -> impl Iterator<Item = (String, u64)> {
        let rows = self.rows.iter().map(|(row, &count)| (row.to_string(), count));
        rows.chain(self.boundaries.counts())
    }

    /// One line each: operation, name, count.
    pub fn text(&self) -> String {
        self.counts().map(|(row, count)| format!("{row} {count}\n")).collect()
    }

    /// The rows that never occurred.
    pub fn missing(&self) -> Vec<String> {
        self.counts().filter(|&(_, count)| count == 0).map(|(row, _)| row).collect()
    }
}

fn problem(place: u64, message: &str) -> io::Error {
    io::Error::new(io::ErrorKind::InvalidData, format!("line {place}: {message}"))
}

/// One line of a file without its line feed; none at the end.
fn next_line(file: &mut impl BufRead) -> io::Result<Option<Vec<u8>>> {
    let mut line = Vec::new();
    if file.read_until(b'\n', &mut line)? == 0 {
        return Ok(None);
    }
    line.pop_if(|last| *last == b'\n');
    Ok(Some(line))
}

fn next_pair(
    lines: &mut impl BufRead,
    answers: &mut impl BufRead,
    place: u64,
) -> io::Result<Option<Pair>> {
    match (next_line(lines)?, next_line(answers)?) {
        (None, None) => Ok(None),
        (Some(text), Some(answer)) => {
            let answer =
                octets_of(&answer).ok_or_else(|| problem(place, "the answer is not octets"))?;
            let line = octets_of(&text);
            Ok(Some(Pair { text, line, answer }))
        }
        _ => Err(problem(place, "lines and answers differ in count")),
    }
}
