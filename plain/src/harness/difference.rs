//! Where the results of two sides differ.

use std::fmt;

#[derive(Debug)]
pub struct Difference {
    cell: String,
    what: &'static str,
    /// None where the whole block has one result.
    place: Option<usize>,
}

impl fmt::Display for Difference {
    fn fmt(&self, out: &mut fmt::Formatter<'_>) -> fmt::Result {
        let Self { cell, what, place } = self;
        match place {
            Some(place) => write!(out, "{cell}: {what} of packet {place} (from 0) differs"),
            None => write!(out, "{cell}: {what} of the whole block differs"),
        }
    }
}

/// Compares two slices that have `width` entries for each packet.
pub fn compare<T: PartialEq>(
    cell: &str,
    what: &'static str,
    width: usize,
    one: &[T],
    other: &[T],
) -> Result<(), Difference> {
    let unequal = one.iter().zip(other).position(|(one, other)| one != other);
    let at = match unequal {
        Some(at) => at,
        None if one.len() == other.len() => return Ok(()),
        None => one.len().min(other.len()),
    };
    Err(Difference {
        cell: cell.to_string(),
        what,
        place: Some(at / width),
    })
}

pub fn compare_whole(
    cell: &str,
    what: &'static str,
    one: u64,
    other: u64,
) -> Result<(), Difference> {
    if one == other {
        return Ok(());
    }
    Err(Difference {
        cell: cell.to_string(),
        what,
        place: None,
    })
}
