//! The kiss codes of RFC 4330, section 8.

const ACST: u32 = u32::from_be_bytes(*b"ACST");
const AUTH: u32 = u32::from_be_bytes(*b"AUTH");
const AUTO: u32 = u32::from_be_bytes(*b"AUTO");
const BCST: u32 = u32::from_be_bytes(*b"BCST");
const CRYP: u32 = u32::from_be_bytes(*b"CRYP");
const DENY: u32 = u32::from_be_bytes(*b"DENY");
const DROP: u32 = u32::from_be_bytes(*b"DROP");
const RSTR: u32 = u32::from_be_bytes(*b"RSTR");
const INIT: u32 = u32::from_be_bytes(*b"INIT");
const MCST: u32 = u32::from_be_bytes(*b"MCST");
const NKEY: u32 = u32::from_be_bytes(*b"NKEY");
const RATE: u32 = u32::from_be_bytes(*b"RATE");
const RMOT: u32 = u32::from_be_bytes(*b"RMOT");
const STEP: u32 = u32::from_be_bytes(*b"STEP");

/// The code's row in the table; 0 for a code that is not there.
#[inline(always)]
pub fn row(code: u32) -> u8 {
    match code {
        ACST => 1,
        AUTH => 2,
        AUTO => 3,
        BCST => 4,
        CRYP => 5,
        DENY => 6,
        DROP => 7,
        RSTR => 8,
        INIT => 9,
        MCST => 10,
        NKEY => 11,
        RATE => 12,
        RMOT => 13,
        STEP => 14,
        _ => 0,
    }
}

#[cfg(test)]
mod tests {
    use super::row;

    #[test]
    fn known_codes_have_their_row() {
        assert_eq!(row(u32::from_be_bytes(*b"ACST")), 1);
        assert_eq!(row(u32::from_be_bytes(*b"INIT")), 9);
        assert_eq!(row(u32::from_be_bytes(*b"STEP")), 14);
    }

    #[test]
    fn any_other_code_is_row_zero() {
        assert_eq!(row(u32::from_be_bytes(*b"init")), 0);
        assert_eq!(row(0), 0);
    }
}
