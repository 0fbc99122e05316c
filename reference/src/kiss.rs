//! The codes of a kiss and their rows: docs/RULES.md, "The client".

/// The codes of rows 1 to 14, in order.
pub const CODES: [[u8; 4]; 14] = [
    *b"ACST", *b"AUTH", *b"AUTO", *b"BCST", *b"CRYP", *b"DENY", *b"DROP", *b"RSTR", *b"INIT",
    *b"MCST", *b"NKEY", *b"RATE", *b"RMOT", *b"STEP",
];

/// The row of a code, 0 where it is not listed.
pub fn row(code: [u8; 4]) -> u8 {
    (1..).zip(CODES).find(|&(_, listed)| listed == code).map_or(0, |(row, _)| row)
}

#[cfg(test)]
mod tests {
    use super::*;

    #[test]
    fn rows() {
        assert_eq!(row(*b"ACST"), 1);
        assert_eq!(row(*b"INIT"), 9);
        assert_eq!(row(*b"STEP"), 14);
        for other in [*b"XXXX", *b"rate", *b"STEQ", [0; 4]] {
            assert_eq!(row(other), 0);
        }
    }
}
