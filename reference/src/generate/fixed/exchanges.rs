//! Fixed lines of packets: read, written, arriving at the client and at the server.

use super::clients::{self, ASK, IDLE, STOPPED, TOKEN, ask, waiting};
use super::tails::field;
use super::{Lines, T, pairs};
use crate::client::{Client, FRESH, Token};
use crate::conformance::call::{AskArguments, Call, LONGEST};
use crate::generate::packets::octets_of;
use crate::kiss::CODES;
use crate::packet::Fields;
use crate::server::Settings;

/// A plain reply.
pub fn reply(t2: u64, t3: u64) -> Fields {
    Fields {
        version: 4,
        mode: 4,
        stratum: 1,
        precision: -20,
        identifier: *b"GPS\0",
        originate: TOKEN.0,
        receive: t2,
        transmit: t3,
        ..Fields::default()
    }
}

/// The fields' octets, cut or lengthened.
fn packet(fields: &Fields, length: u8, fill: u8) -> Vec<u8> {
    let mut octets = octets_of(fields);
    octets.resize(length.into(), fill);
    octets
}

/// The arrival of a packet with these fields, cut or lengthened.
pub fn arrival(lines: &mut Lines, client: &Client, t4: u64, fields: &Fields, length: u8) {
    clients::arrival(lines, client, t4, &packet(fields, length, 0xAB));
}

pub const SET: Settings = Settings {
    synchronised: true,
    leap: 0,
    precision: -20,
    identifier: *b"GPS\0",
    reference: 3 * T,
};

/// A request of our client.
pub fn request() -> Fields {
    Fields { version: 4, mode: 3, transmit: T, ..Fields::default() }
}

fn reply_to(lines: &mut Lines, n: u8, request: &[u8]) {
    lines.call(Call::Reply { settings: SET, t2: 5 * T, t3: 6 * T, n, request });
}

/// The reply to a request with a tail.
pub fn server_reply(lines: &mut Lines, n: u8, tail: &[u8]) {
    reply_to(lines, n, &[&octets_of(&request()), tail].concat());
}

/// Holds of a server, synchronised and not, with settings that pass and that do not, of requests with
/// a field and without.
fn put_holds(lines: &mut Lines) {
    let half = 1 << 63;
    let times: Vec<(u64, u64)> = pairs(
        &[0, 1, 5 * T, half, half + 5 * T, u64::MAX],
        &[u64::MAX, 0, 1, half - 1, half, half + 1],
    )
    .collect();
    let requests = [Vec::new(), field(28, 28)].map(|tail| [octets_of(&request()), tail].concat());
    let set = pairs(&[true, false], &[0, 3]);
    let settings: Vec<Settings> =
        set.map(|(synchronised, leap)| Settings { synchronised, leap, ..SET }).collect();
    for ((t2, hold), settings) in pairs(&times, &settings) {
        let t3 = t2.wrapping_add(hold);
        for request in &requests {
            lines.call(Call::Reply { settings, t2, t3, n: 48, request });
        }
    }
}

/// A server's settings on both sides of their limits, synchronised and not.
fn put_settings(lines: &mut Lines) {
    let request = octets_of(&request());
    let numbers: Vec<(u8, i8)> =
        pairs(&[0, 1, 2, 3, 4, 255], &[-128, -33, -32, -1, 0, 1, 127]).collect();
    for (synchronised, (leap, precision)) in pairs(&[true, false], &numbers) {
        let settings = Settings { synchronised, leap, precision, ..SET };
        lines.call(Call::Reply { settings, t2: T, t3: T, n: 48, request: &request });
    }
    for (synchronised, reference) in pairs(&[true, false], &[0, 1, u64::MAX]) {
        let settings = Settings { synchronised, reference, ..SET };
        lines.call(Call::Reply { settings, t2: T, t3: T, n: 48, request: &request });
    }
}

/// Requests of each version and mode, with settings that pass and that do not, and with a field.
fn put_requests(lines: &mut Lines) {
    for first in 0..64 {
        let fields = Fields { version: first / 8, mode: first % 8, ..request() };
        for (leap, tail) in [(0, Vec::new()), (3, Vec::new()), (0, field(28, 28))] {
            let settings = Settings { leap, ..SET };
            let request = [octets_of(&fields), tail].concat();
            lines.call(Call::Reply { settings, t2: T, t3: T, n: 48, request: &request });
        }
    }
    for transmit in [0, 1, u64::MAX] {
        reply_to(lines, 48, &octets_of(&Fields { transmit, ..request() }));
    }
    for (n, length) in pairs(&[47, 48], &[47, 48]) {
        reply_to(lines, n, &packet(&request(), length, 0));
    }
}

/// Every buffer length and every packet length.
fn put_lengths(lines: &mut Lines) {
    let good = reply(T, T);
    for n in 0..=LONGEST {
        lines.call(Call::ReadFields { packet: &packet(&good, n, 0xCD) });
        lines.call(Call::WriteFields { n, fields: good });
        ask(lines, &FRESH, AskArguments { n, uptime: 7, ..ASK });
        arrival(lines, &waiting(T), T, &good, n);
        server_reply(lines, n, &[]);
        reply_to(lines, LONGEST, &packet(&request(), n, 0xEF));
    }
}

fn put_kisses(lines: &mut Lines) {
    for identifier in [*b"XXXX", *b"deny"].into_iter().chain(CODES) {
        let kiss = Fields { stratum: 0, leap: 3, identifier, ..reply(0, 0) };
        arrival(lines, &waiting(T), T, &kiss, 48);
    }
}

/// A kiss at each exponent.
fn put_exponents(lines: &mut Lines) {
    let kiss = Fields { stratum: 0, identifier: *b"RATE", ..reply(T, T) };
    for exponent in 6..=14 {
        arrival(lines, &Client { uptime: 1000, exponent, ..waiting(T) }, T, &kiss, 48);
    }
}

/// Each test of a packet's own fields and of T4, alone and in pairs, of a reply and of a kiss.
fn put_faults(lines: &mut Lines) {
    for (fields, t4) in pairs(&faulty_replies(), &[0, T - 1, T]) {
        arrival(lines, &waiting(T), t4, &fields, 48);
        arrival(lines, &waiting(T), t4, &Fields { stratum: 0, ..fields }, 68);
    }
}

/// A reply that passes, and with each fault of its own fields.
pub fn faulty_replies() -> [Fields; 12] {
    let good = reply(T, T);
    [
        good,
        Fields { originate: TOKEN.0 + 1, ..good },
        Fields { originate: T, ..good },
        Fields { originate: 0, ..good },
        Fields { mode: 3, ..good },
        Fields { version: 3, ..good },
        Fields { leap: 3, ..good },
        Fields { leap: 3, stratum: 16, ..good },
        Fields { stratum: 16, ..good },
        Fields { stratum: 16, receive: 0, ..good },
        Fields { receive: 0, ..good },
        Fields { transmit: 0, ..good },
    ]
}

/// Each version and mode, and some strata.
fn put_first_octets(lines: &mut Lines) {
    for first in 0..64 {
        let fields = Fields { version: first / 8, mode: first % 8, ..reply(T, T) };
        arrival(lines, &waiting(T), T, &fields, 48);
    }
    for version in 1..=3 {
        let client = Client { version, ..waiting(T) };
        arrival(lines, &client, T, &Fields { version, ..reply(T, T) }, 48);
        arrival(lines, &client, T, &reply(T, T), 48);
    }
    for stratum in (0..=17).chain([128, 255]) {
        arrival(lines, &waiting(T), T, &Fields { stratum, ..reply(T, T) }, 48);
    }
}

/// The token, T1 and others as originate, of a reply and of a kiss; one of the tokens is T1.
fn put_tokens(lines: &mut Lines) {
    for (token, originate) in pairs(&[1, T, T + 1, u64::MAX], &[0, 1, T, T + 1, u64::MAX]) {
        let client = Client { token: Token(token), ..waiting(T) };
        let fields = Fields { originate, ..reply(T, T) };
        arrival(lines, &client, T, &fields, 48);
        arrival(lines, &client, T, &Fields { stratum: 0, ..fields }, 68);
    }
}

/// Packets for a client that does not wait.
fn put_unwanted(lines: &mut Lines) {
    for (client, length) in pairs(&[FRESH, IDLE, STOPPED], &[47, 48]) {
        arrival(lines, &client, T, &reply(T, T), length);
    }
}

/// Root delay and root dispersion on both sides of their limits.
fn put_roots(lines: &mut Lines) {
    let good = reply(T, T);
    let delays = [-1, 0, 1, 65535, 65536, i32::MIN, i32::MAX]
        .map(|root_delay| Fields { root_delay, ..good });
    let dispersions = [0, 1, 65535, 65536, (1 << 31) - 1, 1 << 31, u32::MAX]
        .map(|root_dispersion| Fields { root_dispersion, ..good });
    for fields in delays.into_iter().chain(dispersions) {
        arrival(lines, &waiting(T), T, &fields, 48);
    }
}

/// A root field out of range with another fault besides, and a kiss all the same.
fn put_roots_with_other_faults(lines: &mut Lines) {
    let half_circle = T + (1 << 63);
    let bad_delay = Fields { root_delay: -1, ..reply(T, T) };
    let bad_dispersion = Fields { root_dispersion: u32::MAX, ..reply(T, T) };
    let mut put = |t4, fields| arrival(lines, &waiting(T), t4, &fields, 48);
    for fields in [bad_delay, bad_dispersion] {
        put(T, Fields { stratum: 0, identifier: *b"RATE", ..fields });
        put(T, Fields { stratum: 16, ..fields });
        put(T, Fields { receive: 0, ..fields });
        put(T, Fields { transmit: 0, ..fields });
        put(T - 1, fields);
        put(T + 1, Fields { receive: half_circle, transmit: half_circle, ..fields });
        put(T + 2, Fields { receive: half_circle + 1, transmit: half_circle + 1, ..fields });
    }
    put(T, Fields { root_dispersion: u32::MAX, ..bad_delay });
}

/// T4 half a circle from T1, with a zero that is refused before that.
fn put_no_order_with_zeros(lines: &mut Lines) {
    let half = 1 << 63;
    arrival(lines, &waiting(half), 0, &reply(T, T), 48);
    arrival(lines, &waiting(T), T + half, &reply(0, T), 48);
    arrival(lines, &waiting(T), T + half, &reply(T, 0), 48);
}

pub fn put_lines(lines: &mut Lines) {
    put_lengths(lines);
    put_kisses(lines);
    put_exponents(lines);
    put_faults(lines);
    put_first_octets(lines);
    put_tokens(lines);
    put_unwanted(lines);
    lines.calls([Call::Fresh, Call::Constants]);
    put_roots(lines);
    put_roots_with_other_faults(lines);
    put_no_order_with_zeros(lines);
    put_holds(lines);
    put_settings(lines);
    put_requests(lines);
}
