//! The client's record as an image of 32 octets, lent by C firmware. Each legal record has one
//! image:
//!
//! | Octets | Holds |
//! |---|---|
//! | 0 | the phase: 0 idle, 1 waiting, 2 stopped |
//! | 1 | the version |
//! | 2 | whether it ever asked: 0 or 1 |
//! | 3 | the exponent less 6 |
//! | 4 to 7 | zero |
//! | 8 to 15, 16 to 23, 24 to 31 | T1, the token and the uptime, big-endian |

use crate::client::{Client, LEAST_EXPONENT, Phase, Token, legal};
use crate::octets::{Reader, Short};
use crate::refusal::Refusal::{self, *};

/// Octets of an image.
pub const LENGTH: usize = 32;

/// The image of a record; one with an illegal exponent has one too, which is not legal.
pub fn image_of(client: &Client) -> [u8; LENGTH] {
    let phase = match client.phase {
        Phase::Idle => 0,
        Phase::Waiting => 1,
        Phase::Stopped => 2,
    };
    let exponent = client.exponent.wrapping_sub(LEAST_EXPONENT);
    let small = [phase, client.version, client.asked.into(), exponent, 0, 0, 0, 0];
    let times = [client.t1, client.token.0, client.uptime].map(u64::to_be_bytes);
    let mut octets = small.iter().chain(times.as_flattened());
    std::array::from_fn(|_| octets.next().copied().unwrap_or(0))
}

/// The record that an image is the nearest to: what no record can hold is left out.
pub fn nearest(image: &[u8]) -> Option<Client> {
    let parts = |octets: &mut Reader| -> Result<([u8; 8], [u64; 3]), Short> {
        Ok((octets.octets()?, [octets.u64()?, octets.u64()?, octets.u64()?]))
    };
    let ([phase, version, asked, exponent, ..], [t1, token, uptime]) =
        parts(&mut Reader::new(image)).ok()?;
    let phase = [Phase::Idle, Phase::Waiting, Phase::Stopped].get(usize::from(phase)).copied()?;
    let exponent = exponent.wrapping_add(LEAST_EXPONENT);
    Some(Client { phase, t1, token: Token(token), version, asked: asked != 0, uptime, exponent })
}

/// The record of an image, which must be legal, and have that image and no other.
pub fn read(image: &[u8]) -> Result<Client, Refusal> {
    let client = nearest(image).ok_or(ImageNotLegal)?;
    ImageNotLegal.when(image != image_of(&client) || !legal(&client))?;
    Ok(client)
}

#[cfg(test)]
mod tests {
    use super::*;
    use crate::client::FRESH;

    const WAITING: Client = Client {
        phase: Phase::Waiting,
        t1: 0x0102_0304_0506_0708,
        token: Token(0x1112_1314_1516_1718),
        version: 4,
        asked: true,
        uptime: 0x2122_2324_2526_2728,
        exponent: 14,
    };

    #[test]
    fn octets() {
        assert_eq!(image_of(&FRESH), [0; 32]);
        let mut wanted = vec![1, 4, 1, 8, 0, 0, 0, 0];
        wanted.extend([1, 2, 3, 4, 5, 6, 7, 8]);
        wanted.extend([0x11, 0x12, 0x13, 0x14, 0x15, 0x16, 0x17, 0x18]);
        wanted.extend([0x21, 0x22, 0x23, 0x24, 0x25, 0x26, 0x27, 0x28]);
        assert_eq!(image_of(&WAITING)[..], wanted);
        assert_eq!(read(&wanted), Ok(WAITING));
    }

    #[test]
    fn legal_records_read_back() {
        let asked = Client { asked: true, ..FRESH };
        let stopped = Client { phase: Phase::Stopped, uptime: u64::MAX, ..asked };
        let late = Client { uptime: 7, exponent: 9, ..asked };
        for client in [FRESH, asked, stopped, late, WAITING] {
            assert_eq!(read(&image_of(&client)), Ok(client));
        }
    }

    #[test]
    fn lengths() {
        for length in (0..=40).filter(|&length| length != 32) {
            assert_eq!(read(&vec![0; length]), Err(ImageNotLegal));
        }
    }

    /// Whether an image stays legal with this octet.
    fn stays(client: &Client, at: usize, value: u8) -> bool {
        let mut image = image_of(client);
        image[at] = value;
        read(&image).is_ok()
    }

    #[test]
    fn every_octet_is_looked_at() {
        let idle = Client { asked: true, uptime: 7, ..FRESH };
        let stopped = Client { phase: Phase::Stopped, ..idle };
        for value in 0..=255 {
            assert_eq!(stays(&WAITING, 0, value), value == 1);
            assert_eq!(stays(&idle, 0, value), value == 0 || value == 2);
            assert_eq!(stays(&WAITING, 1, value), (1..=4).contains(&value));
            assert_eq!(stays(&stopped, 1, value), value == 0);
            assert_eq!(stays(&WAITING, 2, value), value == 1);
            assert_eq!(stays(&FRESH, 2, value), value < 2);
            assert_eq!(stays(&idle, 3, value), value <= 8);
            assert_eq!(stays(&FRESH, 3, value), value == 0);
            for client in [FRESH, idle, stopped, WAITING] {
                assert!((4..8).all(|at| stays(&client, at, value) == (value == 0)));
            }
            for client in [FRESH, idle, stopped] {
                assert!((8..24).all(|at| stays(&client, at, value) == (value == 0)));
            }
            assert!((24..32).all(|at| stays(&FRESH, at, value) == (value == 0)));
            assert!((8..32).all(|at| stays(&WAITING, at, value)));
        }
    }
}
