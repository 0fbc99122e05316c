//! Blocks of packets, clock readings and tokens for the client's calls.

use plain_sntp::c_calls::{self, FIELDS};
use plain_sntp::client::{Client, EXPONENT_LEAST, Phase, Request};
use plain_sntp::packet::{Fields, LENGTH, MODE_SERVER};
use plain_sntp::timestamp::Timestamp;

use super::generator::{Generator, pattern};

/// The codes of the kiss table, and one that is not there.
const CODES: [&[u8; 4]; 15] = [
    b"ACST", b"AUTH", b"AUTO", b"BCST", b"CRYP", b"DENY", b"DROP", b"RSTR", b"INIT", b"MCST",
    b"NKEY", b"RATE", b"RMOT", b"STEP", b"XXXX",
];

/// The input of any client's call, and the packets that it reads or writes.
#[derive(Clone)]
pub struct ClientBlock {
    pub client: Client,
    pub alternate: bool,
    /// What is written but for the transmit timestamp.
    pub fields: [u64; FIELDS],
    /// Arrivals, transmit timestamps, or clock readings and tokens.
    pub times: Vec<u64>,
    pub packets: Vec<u8>,
}

impl ClientBlock {
    pub fn size(&self) -> usize {
        self.packets.len() / LENGTH
    }

    /// The block of the one packet at this place.
    pub fn only(&self, place: usize) -> Self {
        let each = self.times.len() / self.size();
        Self {
            times: self.times[each * place..each * (place + 1)].to_vec(),
            packets: self.packets[LENGTH * place..LENGTH * (place + 1)].to_vec(),
            ..*self
        }
    }

    fn empty(generator: &mut Generator) -> Self {
        Self {
            client: waiting(generator),
            alternate: false,
            fields: c_calls::numbers(&server_fields(generator)),
            times: Vec::new(),
            packets: Vec::new(),
        }
    }
}

/// Packets of any content.
pub fn to_read(size: usize) -> ClientBlock {
    let mut generator = Generator::new(size as u64);
    let mut block = ClientBlock::empty(&mut generator);
    for _ in 0..size * LENGTH / 8 {
        block.packets.extend(generator.number().to_be_bytes());
    }
    block
}

/// Room for packets, with this many numbers for each.
fn to_fill(size: usize, numbers_each: usize) -> ClientBlock {
    let mut generator = Generator::new(size as u64);
    let mut block = ClientBlock::empty(&mut generator);
    let numbers = 0..size * numbers_each;
    block.times = numbers.map(|_| generator.nonzero()).collect();
    block.packets = pattern(size * LENGTH);
    block
}

pub fn to_write(size: usize) -> ClientBlock {
    to_fill(size, 1)
}

pub fn to_ask(size: usize) -> ClientBlock {
    to_fill(size, 2)
}

/// Replies that answer the request and are accepted.
pub fn to_accept(size: usize) -> ClientBlock {
    arriving(size, |_, _, _| ())
}

/// Replies that answer another request.
pub fn to_refuse(size: usize) -> ClientBlock {
    arriving(size, |generator, _, fields| {
        fields.originate.0 ^= generator.nonzero();
    })
}

/// One of two replies is a kiss, with the codes by turns.
pub fn to_kiss(size: usize) -> ClientBlock {
    let kisses = Generator::new(0).one_in(2, size);
    let mut codes = CODES.iter().cycle();
    arriving(size, |_, place, fields| {
        if kisses[place] {
            let code = codes.next().map_or([0; 4], |code| **code);
            fields.stratum = 0;
            fields.identifier = u32::from_be_bytes(code);
        }
    })
}

/// Replies as they are accepted, each changed by the function for its place.
fn arriving(
    size: usize,
    mut change: impl FnMut(&mut Generator, usize, &mut Fields),
) -> ClientBlock {
    let mut generator = Generator::new(size as u64);
    let mut block = ClientBlock::empty(&mut generator);
    for place in 0..size {
        let (mut fields, arrived) = reply(&mut generator, &block.client.request);
        change(&mut generator, place, &mut fields);
        block.packets.extend(fields.to_octets());
        block.times.push(arrived);
    }
    block
}

fn waiting(generator: &mut Generator) -> Client {
    Client {
        phase: Phase::Waiting,
        request: Request {
            // Early enough that no arrival in the next 16 s reads zero.
            t1: Timestamp(generator.number() >> 1 | 1),
            token: Timestamp(generator.nonzero()),
            version: 4,
        },
        asked: true,
        uptime: generator.below(1 << 32),
        exponent: EXPONENT_LEAST + 1,
    }
}

/// A reply within 16 s of a server whose clock is at most some days off, and its arrival.
fn reply(generator: &mut Generator, request: &Request) -> (Fields, u64) {
    let round_trip = generator.below(1 << 36);
    let outward = generator.below(round_trip + 1);
    let hold = generator.below(round_trip - outward + 1);
    let ahead = generator.below(1 << 50);
    let receive = request.t1.0.wrapping_add(ahead + outward).max(1);
    let fields = Fields {
        version: request.version,
        mode: MODE_SERVER,
        originate: request.token,
        receive: Timestamp(receive),
        transmit: Timestamp(receive.wrapping_add(hold).max(1)),
        ..server_fields(generator)
    };
    (fields, request.t1.0 + round_trip)
}

/// Fields of a synchronised server with a source of its own.
fn server_fields(generator: &mut Generator) -> Fields {
    Fields {
        leap: generator.octet_of(&[0, 1, 2]),
        version: 4,
        mode: MODE_SERVER,
        stratum: 1 + generator.below(15) as u8,
        poll: 6 + generator.below(9) as u8,
        precision: -(generator.below(33) as i8),
        root_delay: generator.below(1 << 16) as i32,
        root_dispersion: generator.below(1 << 16) as u32,
        identifier: generator.number() as u32,
        reference: Timestamp(generator.number()),
        originate: Timestamp(generator.number()),
        receive: Timestamp(generator.number()),
        transmit: Timestamp(generator.number()),
    }
}
