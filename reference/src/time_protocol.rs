//! The Time Protocol of RFC 868: four octets of seconds.

use crate::octets::{Short, Writer};
use crate::refusal::Refusal::{self, *};

/// Writes the answer, a count of seconds.
pub fn answer(count: u32, buffer: &mut [u8]) -> Result<(), Refusal> {
    Writer::new(buffer).put(count.to_be_bytes()).map_err(|Short| TimeLengthWrong)
}

/// The count of seconds that an answer tells.
pub fn read(octets: &[u8]) -> Result<u32, Refusal> {
    octets.try_into().map(u32::from_be_bytes).map_err(|_| TimeLengthWrong)
}

#[cfg(test)]
mod tests {
    use super::*;

    #[test]
    fn answers_read_back() {
        for count in [0, 1, 0x0102_0304, (1 << 31) - 1, 1 << 31, u32::MAX] {
            let mut buffer = [0x77; 6];
            assert_eq!(answer(count, &mut buffer), Ok(()));
            assert_eq!(buffer[4..], [0x77; 2]);
            assert_eq!(read(&buffer[..4]), Ok(count));
        }
        let mut buffer = [0x77; 4];
        assert_eq!(answer(0x0102_0304, &mut buffer), Ok(()));
        assert_eq!(buffer, [1, 2, 3, 4]);
    }

    #[test]
    fn lengths() {
        for length in 0..=80 {
            let mut buffer = vec![0x77; length];
            assert_eq!(read(&buffer).is_ok(), length == 4);
            assert_eq!(answer(0, &mut buffer).is_ok(), length >= 4);
            assert!(length >= 4 || buffer == vec![0x77; length]);
        }
    }
}
