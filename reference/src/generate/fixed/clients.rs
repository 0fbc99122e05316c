//! Fixed lines of the client's asks and give-ups and of illegal records. Each call of a client
//! stands here by itself and for a record of a list.

use super::{Lines, T, pairs};
use crate::associations::Associations;
use crate::client::{Client, FRESH, Phase, Token};
use crate::conformance::call::{AskArguments, Call};
use crate::conformance::list_call::RecordCall;

pub const IDLE: Client = Client { asked: true, uptime: 1000, ..FRESH };
pub const STOPPED: Client = Client { phase: Phase::Stopped, ..IDLE };
const WAITING: Client = Client { phase: Phase::Waiting, t1: T, token: TOKEN, version: 4, ..IDLE };
/// The token of most requests here, which is no T1.
pub const TOKEN: Token = Token(0x0123_4567_89AB_CDEF);
/// An ask that an idle client takes.
pub const ASK: AskArguments =
    AskArguments { n: 48, version: 4, clock: T, token: TOKEN, uptime: 5000 };

/// Every way a record can be illegal, alone.
pub const ILLEGAL: [Client; 16] = [
    Client { exponent: 5, ..IDLE },
    Client { exponent: 15, ..IDLE },
    Client { t1: 0, ..WAITING },
    Client { token: Token::ZERO, ..WAITING },
    Client { version: 0, ..WAITING },
    Client { version: 5, ..WAITING },
    Client { t1: T, ..IDLE },
    Client { token: TOKEN, ..IDLE },
    Client { version: 4, ..IDLE },
    Client { t1: T, ..STOPPED },
    Client { token: TOKEN, ..STOPPED },
    Client { version: 4, ..STOPPED },
    Client { asked: false, uptime: 0, ..WAITING },
    Client { asked: false, uptime: 0, ..STOPPED },
    Client { exponent: 7, ..FRESH },
    Client { uptime: 1, ..FRESH },
];

/// A waiting client that sent at the clock.
pub fn waiting(clock: u64) -> Client {
    Client { t1: clock, uptime: 0, ..WAITING }
}

/// A call for a record that is in use, without an alternate and with one.
fn put_in_lists(lines: &mut Lines, client: &Client, call: RecordCall) {
    lines.list_call(Associations { records: vec![STOPPED, *client], in_use: 1 }, 1, call);
    lines.list_call(Associations { records: vec![*client, IDLE], in_use: 0 }, 0, call);
}

pub fn ask(lines: &mut Lines, client: &Client, arguments: AskArguments) {
    lines.call(Call::Ask { client: *client, arguments });
    put_in_lists(lines, client, RecordCall::Ask(arguments));
}

pub fn arrival(lines: &mut Lines, client: &Client, t4: u64, packet: &[u8]) {
    let call = |alternate| Call::Arrival { client: *client, t4, alternate, packet };
    lines.calls([false, true].map(call));
    put_in_lists(lines, client, RecordCall::Arrival { t4, packet });
}

fn give_up(lines: &mut Lines, client: &Client, uptime: u64) {
    lines.call(Call::GiveUp { client: *client, uptime });
    put_in_lists(lines, client, RecordCall::GiveUp { uptime });
}

/// Asks and give-ups about the time that they are due, with each exponent.
fn put_uptimes(lines: &mut Lines) {
    for exponent in 6..=14 {
        let due = 1000 + (1 << exponent);
        let idle = Client { exponent, ..IDLE };
        let waiting = Client { exponent, ..WAITING };
        let asks = [999, due - 1, due, due + 1].map(|uptime| AskArguments { uptime, ..ASK });
        asks.into_iter().for_each(|arguments| ask(lines, &idle, arguments));
        [999, 1015, 1016, 1017].into_iter().for_each(|uptime| give_up(lines, &waiting, uptime));
    }
}

/// Uptimes near 2^64, past which nothing becomes due.
fn put_late_uptimes(lines: &mut Lines) {
    for (uptime, now) in pairs(&[u64::MAX - 15, u64::MAX - 16], &[u64::MAX, 0, 31]) {
        ask(lines, &Client { uptime, ..IDLE }, AskArguments { uptime: now, ..ASK });
        give_up(lines, &Client { uptime, ..WAITING }, now);
    }
}

/// Asks with each combination of what refuses one and what does not.
fn put_asks(lines: &mut Lines) {
    let clients = [FRESH, IDLE, WAITING, STOPPED];
    let buffers_and_versions: Vec<(u8, u8)> = pairs(&[47, 48], &[0, 1, 2, 3, 4, 5, 255]).collect();
    // T is the T1 of the client that waits.
    let clocks_and_tokens = [(0, 0), (0, 1), (1, 0), (1, 1), (1, u64::MAX), (u64::MAX, 1), (1, T)];
    let times: Vec<_> = pairs(&clocks_and_tokens, &[0, 1064]).collect();
    let given: Vec<_> = pairs(&buffers_and_versions, &times).collect();
    for (client, ((n, version), ((clock, token), uptime))) in pairs(&clients, &given) {
        ask(lines, &client, AskArguments { n, version, clock, token: Token(token), uptime });
    }
}

fn put_give_ups(lines: &mut Lines) {
    for (client, uptime) in pairs(&[FRESH, IDLE, STOPPED], &[0, 1015, 1016]) {
        give_up(lines, &client, uptime);
    }
}

/// Illegal records, also with a call that is refused for another reason.
fn put_illegal_records(lines: &mut Lines) {
    for (client, n) in pairs(&ILLEGAL, &[47, 48]) {
        ask(lines, &client, AskArguments { n, ..ASK });
        arrival(lines, &client, T, &vec![0; n.into()]);
        give_up(lines, &client, 1000 + u64::from(n));
    }
}

pub fn put_lines(lines: &mut Lines) {
    put_uptimes(lines);
    put_late_uptimes(lines);
    put_asks(lines);
    put_give_ups(lines);
    put_illegal_records(lines);
}
