//! NTP timestamps: 32 bits of seconds and 32 bits of fraction.

#[derive(Clone, Copy, Debug, Default, PartialEq, Eq)]
pub struct Timestamp(pub u64);

impl Timestamp {
    /// All-zero means "not available".
    pub const ZERO: Self = Self(0);

    #[inline(always)]
    pub fn is_zero(self) -> bool {
        self == Self::ZERO
    }

    /// The signed difference modulo 2^64, right also across the wrap of 2036.
    #[inline(always)]
    pub fn since(self, other: Self) -> Difference {
        match self.0.wrapping_sub(other.0).cast_signed() {
            units @ 0.. => Difference::Ahead(units),
            i64::MIN => Difference::NoOrder,
            units => Difference::Behind(units),
        }
    }
}

/// How one timestamp lies to another, with the units from that to this.
#[derive(Clone, Copy, Debug, PartialEq, Eq)]
pub enum Difference {
    /// At the same time or later.
    Ahead(i64),
    Behind(i64),
    /// Half a circle apart neither is before the other.
    NoOrder,
}

impl Difference {
    #[inline(always)]
    pub fn units(self) -> Option<i64> {
        match self {
            Self::Ahead(units) | Self::Behind(units) => Some(units),
            Self::NoOrder => None,
        }
    }
}

#[cfg(test)]
mod tests {
    use super::Difference::{Ahead, Behind, NoOrder};
    use super::{Difference, Timestamp};

    fn since(x: u64, y: u64) -> Difference {
        Timestamp(x).since(Timestamp(y))
    }

    #[test]
    fn a_difference_across_the_wrap_is_small() {
        assert_eq!(since(4, u64::MAX), Ahead(5));
        assert_eq!(since(u64::MAX, 4), Behind(-5));
        assert_eq!(since(4, 4), Ahead(0));
    }

    #[test]
    fn half_a_circle_apart_there_is_no_order() {
        let half = 1 << 63;
        for (x, y) in [(half, 0), (half + 7, 7), (half - 1, u64::MAX)] {
            assert_eq!((since(x, y), since(y, x)), (NoOrder, NoOrder));
            assert_eq!(since(x - 1, y), Ahead(i64::MAX));
            assert_eq!(since(y, x - 1), Behind(-i64::MAX));
            assert_eq!(since(x + 1, y), Behind(-i64::MAX));
            assert_eq!(since(y, x + 1), Ahead(i64::MAX));
        }
    }

    #[test]
    fn only_an_order_has_units() {
        assert_eq!(Ahead(5).units(), Some(5));
        assert_eq!(Behind(-5).units(), Some(-5));
        assert_eq!(NoOrder.units(), None);
    }
}
