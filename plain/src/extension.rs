//! What may follow the first 48 octets of a packet: extension fields, then perhaps an authenticator.

/// A packet has at most 1024 octets.
const TAIL_MOST: usize = 1024 - 48;
const FIELD_LEAST: usize = 16;

/// Walks over the fields of a tail; neither their bodies nor an authenticator are read.
#[cold]
#[inline(never)]
pub fn is_legal_tail(tail: &[u8]) -> bool {
    if tail.len() > TAIL_MOST {
        return false;
    }
    let mut left = tail;
    loop {
        match left {
            [] => return true,
            [_, _, high, low, ..] if left.len() >= 28 => {
                let length = usize::from(u16::from_be_bytes([*high, *low]));
                if length < FIELD_LEAST || length % 4 != 0 || length > left.len() {
                    return false;
                }
                left = &left[length..];
            }
            _ => return matches!(left.len(), 4 | 20 | 24),
        }
    }
}

#[cfg(test)]
mod tests {
    use super::*;

    /// So many octets, the first four of them the head of a field with this length.
    fn field(octets: usize, length: u16) -> Vec<u8> {
        let mut field = vec![0xAB; octets];
        field[2..4].copy_from_slice(&length.to_be_bytes());
        field
    }

    #[test]
    fn under_28_octets_only_an_authenticator_is_legal() {
        for octets in 0..28 {
            let legal = [0, 4, 20, 24].contains(&octets);
            let tail = vec![0xAB; octets];
            assert_eq!(is_legal_tail(&tail), legal, "{octets}");
            let behind_field = [field(28, 28), tail].concat();
            assert_eq!(is_legal_tail(&behind_field), legal, "{octets}");
        }
        assert!(is_legal_tail(&field(20, 16)));
        assert!(!is_legal_tail(&field(16, 16)));
    }

    #[test]
    fn a_field_has_a_legal_length() {
        for length in 0..=0xFFFF {
            let legal = [36, 40, 56, 60].contains(&length);
            assert_eq!(is_legal_tail(&field(60, length)), legal, "{length}");
        }
    }

    #[test]
    fn a_field_of_16_needs_28_octets() {
        assert!(is_legal_tail(&[field(16, 16), field(28, 28)].concat()));
        assert!(is_legal_tail(&[field(16, 16), vec![0; 20]].concat()));
        assert!(!is_legal_tail(&field(16, 16).repeat(2)));
    }

    #[test]
    fn a_packet_has_at_most_1024_octets() {
        let sixties = |last: u16| [field(16, 16).repeat(59), field(last.into(), last)].concat();
        assert!(is_legal_tail(&sixties(32)));
        assert!(!is_legal_tail(&sixties(36)));
        assert!(is_legal_tail(&field(976, 976)));
        assert!(!is_legal_tail(&field(980, 980)));
    }
}
