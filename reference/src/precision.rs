//! The precision octet, by a loop over powers of two.

use crate::refusal::Refusal::{self, *};

/// The largest tick: one second, in units of 2^-32 s.
const LARGEST: u64 = 1 << 32;

/// The exponent in seconds of the smallest power of two not below the tick.
pub fn precision(tick: u64) -> Result<i8, Refusal> {
    TickOutOfRange.when(tick == 0 || tick > LARGEST)?;
    let mut exponent = -32;
    let mut power = 1;
    while power < tick {
        power *= 2;
        exponent += 1;
    }
    Ok(exponent)
}

#[cfg(test)]
mod tests {
    use super::*;

    #[test]
    fn figures() {
        assert_eq!(precision(4295), Ok(-19));
        assert_eq!(precision(4096), Ok(-20));
        assert_eq!(precision(4097), Ok(-19));
        assert_eq!(precision(1), Ok(-32));
        assert_eq!(precision(2), Ok(-31));
        assert_eq!(precision(3), Ok(-30));
        assert_eq!(precision(1 << 32), Ok(0));
        assert_eq!(precision((1 << 31) + 1), Ok(0));
        assert_eq!(precision(1 << 31), Ok(-1));
        assert_eq!(precision(0), Err(TickOutOfRange));
        assert_eq!(precision((1 << 32) + 1), Err(TickOutOfRange));
        assert_eq!(precision(u64::MAX), Err(TickOutOfRange));
    }
}
