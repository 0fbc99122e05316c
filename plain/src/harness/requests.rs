//! Blocks of requests for the server, some of them to be refused.

use plain_sntp::packet::{LENGTH, MODE_CLIENT};
use plain_sntp::server::Settings;
use plain_sntp::timestamp::Timestamp;

use super::generator::{Generator, pattern};

/// The refusals that are met by turns. An unsynchronised server does not look at T2 and T3.
const REFUSALS_SYNCHRONISED: [u8; 4] = [21, 22, 14, 17];
const REFUSALS_UNSYNCHRONISED: [u8; 2] = [21, 22];

#[derive(Clone)]
pub struct ReplyBlock {
    pub settings: Settings,
    pub requests: Vec<u8>,
    pub times: Vec<u64>,
    /// The numbers that the requests were made for.
    pub expected: Vec<u8>,
    pub replies: Vec<u8>,
    pub numbers: Vec<u8>,
}

impl ReplyBlock {
    /// One request is refused in each group of this size, or none at all.
    pub fn new(synchronised: bool, packets: usize, group: Option<usize>) -> Self {
        let mut generator = Generator::new(packets as u64);
        let expected = expected_numbers(&mut generator, synchronised, packets, group);
        let mut requests = Vec::with_capacity(packets * LENGTH);
        let mut times = Vec::with_capacity(packets * 2);
        for &number in &expected {
            requests.extend(request(&mut generator, number));
            times.extend(receive_and_transmit(&mut generator, number));
        }
        Self {
            settings: settings(&mut generator, synchronised),
            requests,
            times,
            expected,
            replies: pattern(packets * LENGTH),
            numbers: pattern(packets),
        }
    }
}

fn settings(generator: &mut Generator, synchronised: bool) -> Settings {
    Settings {
        synchronised,
        leap: 1,
        precision: -20,
        identifier: u32::from_be_bytes(*b"GPS\0"),
        reference: Timestamp(generator.number()),
    }
}

fn expected_numbers(
    generator: &mut Generator,
    synchronised: bool,
    packets: usize,
    group: Option<usize>,
) -> Vec<u8> {
    let refusals: &[u8] = if synchronised {
        &REFUSALS_SYNCHRONISED
    } else {
        &REFUSALS_UNSYNCHRONISED
    };
    let mut turns = refusals.iter().copied().cycle();
    let refused = match group {
        Some(group) => generator.one_in(group, packets),
        None => vec![false; packets],
    };
    let number = |refused| if refused { turns.next() } else { None };
    let numbers = refused.into_iter().map(number);
    numbers.map(Option::unwrap_or_default).collect()
}

fn request(generator: &mut Generator, number: u8) -> [u8; LENGTH] {
    let mut octets = [0; LENGTH];
    for part in octets.chunks_exact_mut(8) {
        part.copy_from_slice(&generator.number().to_be_bytes());
    }
    let leap = generator.octet_of(&[0, 1, 2, 3]);
    let version = match number {
        22 => generator.octet_of(&[0, 5, 6, 7]),
        _ => generator.octet_of(&[1, 2, 3, 4]),
    };
    let mode = match number {
        21 => generator.octet_of(&[0, 1, 2, 4, 5, 6, 7]),
        _ => MODE_CLIENT,
    };
    octets[0] = leap << 6 | version << 3 | mode;
    octets
}

fn receive_and_transmit(generator: &mut Generator, number: u8) -> [u64; 2] {
    // Far enough from zero that a hold of less than 16 s does not reach it.
    let received = generator.nonzero() | 1 << 40;
    let hold = 1 + generator.below(1 << 36);
    match number {
        14 if hold.is_multiple_of(2) => [0, received],
        14 => [received, 0],
        17 => [received, received - hold],
        _ => [received, received.wrapping_add(hold).max(1)],
    }
}
