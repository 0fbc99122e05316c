//! A replay stream: one client with a long life.

use super::faults::{Fault, add_fault};
use super::packets::{octets_of, put_any};
use super::replies::good_reply;
use super::tails::{make_illegal, put_tail};
use super::text::put_drawn;
use super::timestamps::{nonzero_timestamp, today};
use super::write_lines;
use crate::client::{Client, FRESH, Phase, Token};
use crate::random::Random;
use crate::refusal::Refusal::*;
use crate::replay::{self, ARRIVAL, ASK, BEFORE_PACKET, GIVE_UP, LONGEST_PACKET, VERSION};
use std::io::{self, Write};

/// Each kind of malformed line occurs once in so many.
const RARE: u64 = 60;
/// About what a frame adds to the uptime.
const SECONDS_A_FRAME: u64 = 190;

/// How a request is settled.
#[derive(Clone, Copy)]
enum Settlement {
    Reply,
    Kiss,
    GiveUp,
}

struct Gateway {
    client: Client,
    /// The gateway's uptime so far.
    uptime: u64,
    /// What its clock shows at uptime zero.
    base: u64,
    /// T1 of its last request.
    last_t1: u64,
    /// Frames to be refused before the request is settled.
    refused_frames: u64,
    /// Requests in a row that are still to get no reply.
    without_reply: u64,
    /// What ends the wait of the request at hand.
    settlement: Settlement,
}

fn put_frame(operation: u8, uptime: u64, clock: u64, line: &mut Vec<u8>) {
    line.push(operation);
    line.extend(uptime.to_be_bytes());
    line.extend(clock.to_be_bytes());
}

fn put_ask(uptime: u64, clock: u64, token: Token, line: &mut Vec<u8>) {
    put_frame(ASK, uptime, clock, line);
    line.extend(token.0.to_be_bytes());
}

fn put_give_up(r: &mut Random, uptime: u64, line: &mut Vec<u8>) {
    let clock = if r.one_in(2) { 0 } else { r.number() };
    put_frame(GIVE_UP, uptime, clock, line);
}

const FAULTS: [Fault; 18] = [
    Fault::By(OwnClockZero),
    Fault::By(PacketLengthWrong),
    Fault::By(OriginateMismatch),
    Fault::By(OriginateMismatch),
    Fault::By(ReplyModeWrong),
    Fault::By(VersionMismatch),
    Fault::By(ServerUnsynchronised),
    Fault::By(StratumTooHigh),
    Fault::By(ServerTimestampZero),
    Fault::By(RootDelayOutOfRange),
    Fault::By(RootDispersionTooLarge),
    Fault::By(ArrivedBeforeSent),
    Fault::By(ArrivedTooLate),
    Fault::By(AnsweredBeforeReceived),
    Fault::By(DelayNegative),
    Fault::By(DelayNegative),
    Fault::By(FirstBelowSecond),
    Fault::By(NoOrder),
];

impl Gateway {
    fn clock(&self, r: &mut Random) -> u64 {
        let fraction = r.below(1 << 32);
        self.base.wrapping_add(self.uptime << 32).wrapping_add(fraction).max(1)
    }

    fn ask(&self, r: &mut Random, uptime: u64, line: &mut Vec<u8>) {
        let clock = match r.below(20) {
            0 => 0,
            1 => nonzero_timestamp(r),
            _ => self.clock(r),
        };
        let token = match r.below(16) {
            0 => 0,
            1 | 2 => clock,
            3 => self.last_t1,
            _ => r.number(),
        };
        put_ask(uptime, clock, Token(token), line);
    }

    /// An arrival of a reply that has each fault of the list.
    fn arrival(&self, r: &mut Random, faults: &[Fault], line: &mut Vec<u8>) {
        let client = Client { version: VERSION, ..self.client };
        let mut reply = good_reply(r, &client);
        for &fault in faults {
            add_fault(r, fault, &client, &mut reply);
        }
        let uptime = if r.one_in(8) { r.number() } else { self.uptime };
        put_frame(ARRIVAL, uptime, reply.t4, line);
        let mut packet = octets_of(&reply.fields);
        if r.one_in(4) {
            put_tail(r, &mut packet);
        }
        if faults.contains(&Fault::By(PacketLengthWrong)) {
            make_illegal(r, LONGEST_PACKET, &mut packet);
        }
        line.extend(packet);
    }

    /// An arrival that is refused, a kiss by one of the tests before it.
    fn refused_arrival(&self, r: &mut Random, line: &mut Vec<u8>) {
        let first = r.pick(FAULTS);
        if r.one_in(10) {
            let refusal = r.pick([OriginateMismatch, ReplyModeWrong, VersionMismatch]);
            self.arrival(r, &[Fault::Kiss, Fault::By(refusal)], line);
        } else if r.one_in(4) {
            let second = r.pick(FAULTS);
            self.arrival(r, &[first, second], line);
        } else {
            self.arrival(r, &[first], line);
        }
    }

    /// Draws how the request just sent will go.
    fn plan(&mut self, r: &mut Random) {
        self.refused_frames = match r.below(4) {
            0 => 0,
            1 => r.below(3),
            2 => r.below(8),
            _ => r.below(20),
        };
        if self.without_reply == 0 && r.one_in(40) {
            self.without_reply = 1 + r.below(14);
        }
        self.settlement = match r.below(20) {
            _ if self.without_reply > 0 => r.pick([Settlement::Kiss, Settlement::GiveUp]),
            0 => Settlement::Kiss,
            1 | 2 => Settlement::GiveUp,
            _ => Settlement::Reply,
        };
        self.without_reply = self.without_reply.saturating_sub(1);
    }

    fn idle(&mut self, r: &mut Random, line: &mut Vec<u8>) {
        let last = self.client.uptime;
        let interval = 1 << self.client.exponent;
        let due = last.saturating_add(if self.client.asked { interval } else { 0 });
        match r.below(20) {
            0 => {
                let early = if r.one_in(2) { 1 } else { 1 + r.below(interval) };
                self.ask(r, due.saturating_sub(early), line);
            }
            1 => {
                let back = if r.one_in(2) { 1 } else { r.below(1 << 20) };
                self.ask(r, last.saturating_sub(back), line);
            }
            2 => {
                let (clock, token) = r.pick([(0, 0), (0, 1), (1, 0)]);
                put_ask(due, clock, Token(token), line);
            }
            3 => self.refused_arrival(r, line),
            4 => {
                let uptime = r.number();
                put_give_up(r, uptime, line);
            }
            _ => self.ask_in_time(r, due, line),
        }
    }

    fn ask_in_time(&mut self, r: &mut Random, due: u64, line: &mut Vec<u8>) {
        let more = match r.below(4) {
            0 | 1 => 0,
            2 => r.below(4),
            _ => r.below(200),
        };
        let late = due.max(self.uptime).saturating_add(more);
        self.uptime = if r.one_in(3) { due } else { late };
        self.ask(r, self.uptime, line);
    }

    fn waiting(&mut self, r: &mut Random, line: &mut Vec<u8>) {
        if self.refused_frames > 0 {
            self.refused_frames -= 1;
            self.refused_while_waiting(r, line);
            return;
        }
        match self.settlement {
            Settlement::Reply => self.arrival(r, &[], line),
            Settlement::Kiss => self.arrival(r, &[Fault::Kiss], line),
            Settlement::GiveUp => {
                let more = if r.one_in(2) { 16 } else { 16 + r.below(40) };
                let uptime = self.client.uptime.saturating_add(more);
                self.uptime = self.uptime.max(uptime);
                put_give_up(r, uptime, line);
            }
        }
    }

    fn refused_while_waiting(&self, r: &mut Random, line: &mut Vec<u8>) {
        let sent = self.client.uptime;
        match r.below(10) {
            0 => {
                let uptime = sent.saturating_add(r.below(1 << 16));
                self.ask(r, uptime, line);
            }
            1 => put_give_up(r, sent.saturating_add(15), line),
            2 => {
                let uptime = match r.below(2) {
                    0 => sent.saturating_add(r.below(16)),
                    _ => sent.saturating_sub(1 + r.below(100)),
                };
                put_give_up(r, uptime, line);
            }
            _ => self.refused_arrival(r, line),
        }
    }

    /// Octets that are no frame.
    fn no_frame(&self, r: &mut Random, line: &mut Vec<u8>) {
        line.clear();
        match r.below(7) {
            0 => self.frame_of(r, [0xA0, 0xA4, 0x00, 0xFF, 0x1A, 0xE0, 0xB1], line),
            1 => {
                self.frame_of(r, [ASK, ARRIVAL, GIVE_UP], line);
                let keep = if r.one_in(2) { 16 } else { 1 + r.below(16) };
                line.truncate(keep as usize);
            }
            2 => {
                self.frame_of(r, [ASK, GIVE_UP], line);
                let more = r.pick([1, 2, 7, 9, 48, 68]);
                put_any(r, more, line);
            }
            // An ask without a token, and a give-up with one.
            3 if r.one_in(2) => self.frame_of(r, [ASK], line),
            3 => {
                self.frame_of(r, [GIVE_UP], line);
                put_any(r, 8, line);
            }
            4 | 5 => {
                // A packet that is too long, though a true reply.
                self.arrival(r, &[], line);
                let length = r.pick([1025, 1026, 1028, 1040, 1100]);
                put_any(r, BEFORE_PACKET + length - line.len(), line);
            }
            _ => {
                let length = 1 + r.below(40) as usize;
                line.push(0x00);
                put_any(r, length, line);
            }
        }
    }

    fn frame_of<const N: usize>(&self, r: &mut Random, operations: [u8; N], line: &mut Vec<u8>) {
        let operation = r.pick(operations);
        put_frame(operation, self.uptime, self.clock(r), line);
    }

    /// The frame that suits the client, which a replay never stops.
    fn next_frame(&mut self, r: &mut Random, line: &mut Vec<u8>) {
        line.clear();
        match self.client.phase {
            Phase::Waiting => self.waiting(r, line),
            Phase::Idle | Phase::Stopped => self.idle(r, line),
        }
    }

    /// Follows the client, so that the next frame suits it.
    fn follow(&mut self, r: &mut Random, line: &[u8]) {
        let before = self.client.phase;
        replay::answer(&mut self.client, line, &mut Vec::new());
        if before != Phase::Waiting && self.client.phase == Phase::Waiting {
            self.last_t1 = self.client.t1;
            self.plan(r);
        }
    }
}

/// What the clock shows at uptime zero: with an even seed, so that the wrap of 2036 comes in the
/// middle of the stream.
fn base(r: &mut Random, seed: u64, count: u64) -> u64 {
    if seed.is_multiple_of(2) {
        0u64.wrapping_sub((count * SECONDS_A_FRAME / 2) << 32)
    } else {
        today(r)
    }
}

/// Writes so many frames; `open` leaves the last line feed off.
pub fn run(count: u64, seed: u64, open: bool, output: impl Write) -> io::Result<()> {
    let mut r = Random::new(seed ^ 0x5EED_0F4E_B1A7);
    let base = base(&mut r, seed, count);
    let settlement = Settlement::Reply;
    let (client, uptime, last_t1, refused_frames, without_reply) = (FRESH, 0, 0, 0, 0);
    let mut gateway =
        Gateway { client, uptime, base, last_t1, refused_frames, without_reply, settlement };
    // With an odd seed the last frames have the latest uptimes there are.
    let late = (count / 50).clamp(1, 400);
    let mut line = Vec::new();
    write_lines(count, open, output, |place, text| {
        if count - place == late && !seed.is_multiple_of(2) {
            gateway.uptime = u64::MAX - r.below(200);
        }
        gateway.next_frame(&mut r, &mut line);
        let no_frame = |r: &mut Random, line: &mut Vec<u8>| gateway.no_frame(r, line);
        put_drawn(&mut r, RARE, &mut line, no_frame, text);
        gateway.follow(&mut r, &line);
    })
}
