//! The calls as C firmware makes them: on plain numbers and lent octets, with the client's record as
//! an image. Each gives back its number, and where that is not 0 has written nothing.

use crate::arrival::{self, Told};
use crate::client::{self, FRESH, Token};
use crate::image;
use crate::refusal::Refusal::{self, *};
use crate::refusal::number_of;
use crate::server::{self, Settings};

/// Octets of an answer slice.
pub const ANSWER: usize = 24;

type Image = [u8; image::LENGTH];
type Answer = [u8; ANSWER];

/// A number of 32 bits as one of 8; what does not fit becomes the largest, which is out of every
/// range here.
pub fn narrow(number: u32) -> u8 {
    number.min(u8::MAX.into()) as u8
}

/// The server's settings in numbers as wide as C hands them over.
#[derive(Clone, Copy, PartialEq, Eq, Debug)]
pub struct WideSettings {
    pub synchronised: u32,
    pub leap: u32,
    pub precision: i32,
    pub identifier: [u8; 4],
    pub reference: u64,
}

impl WideSettings {
    /// The same in the numbers of the server: what does not fit becomes an end of the range.
    pub fn narrow(&self) -> Settings {
        Settings {
            synchronised: self.synchronised != 0,
            leap: narrow(self.leap),
            precision: self.precision.clamp(i8::MIN.into(), i8::MAX.into()) as i8,
            identifier: self.identifier,
            reference: self.reference,
        }
    }
}

/// A lent slice that must have so many octets.
fn whole<const N: usize>(slice: &mut [u8]) -> Result<&mut [u8; N], Refusal> {
    slice.try_into().map_err(|_| ImageNotLegal)
}

/// Writes the image of a client that never asked, whatever stood there.
pub fn fresh(image: &mut [u8]) -> u8 {
    number_of(&whole(image).map(|image: &mut Image| *image = image::image_of(&FRESH)))
}

pub fn ask(
    image: &mut [u8],
    buffer: &mut [u8],
    version: u32,
    clock: u64,
    token: u64,
    uptime: u64,
) -> u8 {
    let mut call = || -> Result<(), Refusal> {
        let image: &mut Image = whole(image)?;
        let client = image::read(image)?;
        let next = client::ask(&client, buffer, narrow(version), clock, Token(token), uptime)?;
        *image = image::image_of(&next);
        Ok(())
    };
    number_of(&call())
}

/// What an arrival tells, as it stands in an answer slice.
pub fn answer_of(told: &Told) -> Answer {
    let mut answer = [0; ANSWER];
    let (small, times) = answer.split_at_mut(8);
    match told {
        Told::Accepted(measured) => {
            small.copy_from_slice(&[1, measured.half, 0, 0, 0, 0, 0, 0]);
            let [offset, delay] = [measured.offset, measured.delay].map(i64::to_be_bytes);
            times.copy_from_slice([offset, delay].as_flattened());
        }
        Told::Kiss { code: [a, b, c, d], row } => {
            small.copy_from_slice(&[2, 0, *row, 0, *a, *b, *c, *d]);
        }
    }
    answer
}

pub fn arrival(image: &mut [u8], answer: &mut [u8], packet: &[u8], t4: u64, alternate: u32) -> u8 {
    let mut call = || -> Result<(), Refusal> {
        let (image, answer): (&mut Image, &mut Answer) = (whole(image)?, whole(answer)?);
        let client = image::read(image)?;
        let arrived = arrival::arrival(&client, packet, t4, alternate != 0)?;
        *answer = answer_of(&arrived.told);
        *image = image::image_of(&arrived.next);
        Ok(())
    };
    number_of(&call())
}

pub fn give_up(image: &mut [u8], uptime: u64) -> u8 {
    let mut call = || -> Result<(), Refusal> {
        let image: &mut Image = whole(image)?;
        let next = client::give_up(&image::read(image)?, uptime)?;
        *image = image::image_of(&next);
        Ok(())
    };
    number_of(&call())
}

pub fn reply(settings: &WideSettings, t2: u64, t3: u64, request: &[u8], buffer: &mut [u8]) -> u8 {
    number_of(&server::reply(&settings.narrow(), t2, t3, request, buffer))
}
