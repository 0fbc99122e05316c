//! The calls as C firmware makes them against those of the client and the server.

use reference::arrival::{Told, arrival};
use reference::client::{Client, FRESH, Phase, Token, ask, give_up};
use reference::firmware::{self, ANSWER, WideSettings};
use reference::image::image_of;
use reference::refusal::number_of;

const T: u64 = 1 << 32;
const IDLE: Client = Client { asked: true, uptime: 100, exponent: 8, ..FRESH };
const STOPPED: Client = Client { phase: Phase::Stopped, ..IDLE };
const WAITING: Client =
    Client { phase: Phase::Waiting, t1: T, token: Token(77), version: 4, ..IDLE };
const CLIENTS: [Client; 4] = [FRESH, IDLE, STOPPED, WAITING];
const SET: WideSettings =
    WideSettings { synchronised: 1, leap: 0, precision: -20, identifier: *b"GPS\0", reference: 9 };

fn reply(stratum: u8) -> [u8; 48] {
    let mut packet = [0; 48];
    packet[..2].copy_from_slice(&[0x24, stratum]);
    packet[12..16].copy_from_slice(b"RATE");
    packet[24..32].copy_from_slice(&77u64.to_be_bytes());
    packet[32..40].copy_from_slice(&T.to_be_bytes());
    packet[40..].copy_from_slice(&T.to_be_bytes());
    packet
}

#[test]
fn fresh_looks_at_the_length_alone() {
    for length in 0..=40 {
        let mut image = vec![0x77; length];
        let number = firmware::fresh(&mut image);
        let wanted = if length == 32 { (0, vec![0; 32]) } else { (46, vec![0x77; length]) };
        assert_eq!((number, image), wanted);
    }
}

#[test]
fn asks_agree_with_the_client() {
    for client in CLIENTS {
        for (version, uptime) in [(4, 355), (4, 356), (1, 1000), (0, 1000), (5, 1000)] {
            let (mut image, mut buffer) = (image_of(&client), [0x77; 50]);
            let number = firmware::ask(&mut image, &mut buffer, version, 5, 6, uptime);
            let mut inner = [0x77; 50];
            let next = ask(&client, &mut inner, version as u8, 5, Token(6), uptime);
            assert_eq!(number, number_of(&next));
            assert_eq!((image, buffer), (image_of(&next.unwrap_or(client)), inner));
        }
    }
}

#[test]
fn wide_versions_are_not_cut() {
    for version in [256, 257, 260, 1 << 16 | 4, 1 << 31, u32::MAX] {
        let (mut image, mut buffer) = ([0; 32], [0x77; 48]);
        assert_eq!(firmware::ask(&mut image, &mut buffer[..47], version, 0, 0, 0), 1);
        assert_eq!(firmware::ask(&mut image, &mut buffer, version, 0, 0, 0), 2);
        assert_eq!((image, buffer), ([0; 32], [0x77; 48]));
    }
}

#[test]
fn arrivals_agree_with_the_client() {
    for (client, stratum) in CLIENTS.into_iter().flat_map(|c| [0, 1, 16].map(|s| (c, s))) {
        for alternate in [0, 1, 2, 256, u32::MAX] {
            let (mut image, mut answer) = (image_of(&client), [0x77; ANSWER]);
            let packet = reply(stratum);
            let number = firmware::arrival(&mut image, &mut answer, &packet, T + 3, alternate);
            let inner = arrival(&client, &packet, T + 3, alternate != 0);
            assert_eq!(number, number_of(&inner));
            let wanted = match inner.map(|arrived| arrived.told) {
                Err(_) => [0x77; ANSWER],
                Ok(Told::Accepted(_)) => {
                    let mut wanted = [0; ANSWER];
                    wanted[..2].copy_from_slice(&[1, 1]);
                    wanted[8..16].copy_from_slice(&(-2i64).to_be_bytes());
                    wanted[16..].copy_from_slice(&3i64.to_be_bytes());
                    wanted
                }
                Ok(Told::Kiss { .. }) => {
                    let mut wanted = [0; ANSWER];
                    wanted[..8].copy_from_slice(b"\x02\0\x0C\0RATE");
                    wanted
                }
            };
            assert_eq!(answer, wanted);
            let next = inner.map_or(client, |arrived| arrived.next);
            assert_eq!(image, image_of(&next));
        }
    }
}

#[test]
fn give_ups_agree_with_the_client() {
    for (client, uptime) in CLIENTS.into_iter().flat_map(|c| [99, 115, 116].map(|u| (c, u))) {
        let mut image = image_of(&client);
        let number = firmware::give_up(&mut image, uptime);
        let next = give_up(&client, uptime);
        assert_eq!(number, number_of(&next));
        assert_eq!(image, image_of(&next.unwrap_or(client)));
    }
}

#[test]
fn images_are_looked_at_first() {
    let mut illegal = image_of(&WAITING);
    illegal[4] = 1;
    for image in [&illegal[..], &illegal[..31], &[0; 33], &[]] {
        let (mut lent, mut buffer, mut answer) = (image.to_vec(), [0x77; 40], [0x77; ANSWER]);
        assert_eq!(firmware::ask(&mut lent, &mut buffer, 260, 0, 0, 0), 46);
        assert_eq!(firmware::arrival(&mut lent, &mut answer, &[], 0, 0), 46);
        assert_eq!(firmware::give_up(&mut lent, 0), 46);
        assert_eq!((&lent[..], buffer, answer), (image, [0x77; 40], [0x77; ANSWER]));
    }
}

#[test]
fn answer_slices_have_one_length() {
    for length in 0..=40 {
        let (mut image, mut answer) = (image_of(&WAITING), vec![0x77; length]);
        let number = firmware::arrival(&mut image, &mut answer, &reply(1), T, 0);
        assert_eq!(number, if length == ANSWER { 0 } else { 46 });
        assert_eq!(image == image_of(&WAITING), length != ANSWER);
        assert_eq!(answer == vec![0x77; length], length != ANSWER);
        // 46 comes before the packet's own test.
        let number = firmware::arrival(&mut image_of(&WAITING), &mut answer, &[], T, 0);
        assert_eq!(number, if length == ANSWER { 7 } else { 46 });
    }
}

/// The number of a reply to a request of our client.
fn replied(settings: &WideSettings) -> u8 {
    let mut request = [0; 48];
    request[0] = 0x23;
    firmware::reply(settings, 5, 6, &request, &mut [0; 48])
}

#[test]
fn settings_are_not_cut() {
    for (leap, number) in [(2, 0), (3, 23), (255, 23), (256, 23), (258, 23), (u32::MAX, 23)] {
        assert_eq!(replied(&WideSettings { leap, ..SET }), number, "{leap}");
    }
    for (precision, number) in [(0, 0), (-32, 0), (1, 23), (-33, 23), (224, 23), (-256, 23)] {
        assert_eq!(replied(&WideSettings { precision, ..SET }), number, "{precision}");
    }
    assert_eq!(replied(&WideSettings { precision: i32::MIN, ..SET }), 23);
    assert_eq!(replied(&WideSettings { precision: i32::MAX, ..SET }), 23);
}

#[test]
fn any_number_but_zero_is_yes() {
    for (synchronised, stratum) in [(0, 0), (1, 1), (2, 1), (256, 1), (u32::MAX, 1)] {
        let (mut request, mut buffer) = ([0; 48], [0; 48]);
        request[0] = 0x23;
        let settings = WideSettings { synchronised, ..SET };
        assert_eq!(firmware::reply(&settings, 5, 6, &request, &mut buffer), 0);
        assert_eq!(buffer[1], stratum);
    }
}
