//! The replay: one client, one frame a line: docs/RULES.md, "Replay lines".

use crate::arrival::{Told, arrival};
use crate::client::{Client, FRESH, Token, ask, give_up};
use crate::extension;
use crate::hex_lines::answer_lines;
use crate::octets::{Reader, Short};
use crate::packet::LENGTH;
use crate::refusal::Refusal::{self, *};
use std::io::{self, Read, Write};

pub const ASK: u8 = 0xA1;
pub const ARRIVAL: u8 = 0xA2;
pub const GIVE_UP: u8 = 0xA3;
/// Stands in place of the 00 where an arrival is a kiss.
pub const KISS: u8 = 0xE0;
/// The version that a replayed client asks by.
pub const VERSION: u8 = 4;
/// In a replay there is no other server to go to.
const ALTERNATE: bool = false;
/// Octets before a packet: operation, uptime, clock.
pub const BEFORE_PACKET: usize = 1 + 8 + 8;
pub const LONGEST_PACKET: usize = extension::LONGEST;

enum Frame<'a> {
    Ask { uptime: u64, clock: u64, token: Token },
    Arrival { clock: u64, packet: &'a [u8] },
    GiveUp { uptime: u64 },
}

fn frame(line: &[u8]) -> Result<Frame<'_>, Refusal> {
    let mut octets = Reader::new(line);
    let mut head =
        || -> Result<(u8, u64, u64), Short> { Ok((octets.u8()?, octets.u64()?, octets.u64()?)) };
    let (operation, uptime, clock) = head().map_err(|Short| LineMalformed)?;
    let rest = octets.rest();
    match operation {
        ASK => {
            let token = rest.try_into().map_err(|_| LineMalformed)?;
            Ok(Frame::Ask { uptime, clock, token: Token(u64::from_be_bytes(token)) })
        }
        ARRIVAL if rest.len() <= LONGEST_PACKET => Ok(Frame::Arrival { clock, packet: rest }),
        GIVE_UP if rest.is_empty() => Ok(Frame::GiveUp { uptime }),
        _ => Err(LineMalformed),
    }
}

fn put_told(told: &Told, out: &mut Vec<u8>) {
    match told {
        Told::Accepted(measured) => {
            out.push(0);
            measured.put(out);
        }
        Told::Kiss { code, .. } => {
            out.push(KISS);
            out.extend(code);
        }
    }
}

fn call(client: &mut Client, line: &[u8], out: &mut Vec<u8>) -> Result<(), Refusal> {
    match frame(line)? {
        Frame::Ask { uptime, clock, token } => {
            let mut packet = [0; LENGTH];
            *client = ask(client, &mut packet, VERSION, clock, token, uptime)?;
            out.push(0);
            out.extend(packet);
        }
        Frame::Arrival { clock, packet } => {
            let arrived = arrival(client, packet, clock, ALTERNATE)?;
            *client = arrived.next;
            put_told(&arrived.told, out);
        }
        Frame::GiveUp { uptime } => {
            *client = give_up(client, uptime)?;
            out.push(0);
        }
    }
    Ok(())
}

/// Answers one line's octets and changes the client.
pub fn answer(client: &mut Client, line: &[u8], out: &mut Vec<u8>) {
    if let Err(refusal) = call(client, line, out) {
        out.push(refusal.number());
    }
}

/// Answers a whole input.
pub fn run(input: impl Read, output: impl Write) -> io::Result<()> {
    let mut client = FRESH;
    let longest = BEFORE_PACKET + LONGEST_PACKET;
    answer_lines(input, output, longest, |line, out| answer(&mut client, line, out))
}
