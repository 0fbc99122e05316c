//! Client records, legal and illegal.

use super::timestamps::{nonzero_timestamp, nonzero_token, uptime};
use crate::client::{Client, FRESH, Phase, Token};
use crate::random::Random;

const PHASES: [Phase; 3] = [Phase::Idle, Phase::Waiting, Phase::Stopped];

pub fn legal_record(r: &mut Random, phase: Phase) -> Client {
    let exponent = if r.one_in(4) { r.pick([6, 13, 14]) } else { 6 + r.octet_below(9) };
    let asked = Client { asked: true, uptime: uptime(r), exponent, ..FRESH };
    match phase {
        Phase::Idle if r.one_in(5) => FRESH,
        Phase::Idle => asked,
        Phase::Waiting => {
            let t1 = nonzero_timestamp(r);
            let token = nonzero_token(r, t1);
            Client { phase, t1, token, version: 1 + r.octet_below(4), ..asked }
        }
        Phase::Stopped => Client { phase, ..asked },
    }
}

fn illegal_exponent(r: &mut Random) -> u8 {
    match r.below(4) {
        0 => 5,
        1 => 15,
        2 => r.octet_below(6),
        _ => 15 + r.octet_below(241),
    }
}

/// A record that never asked and is not idle.
fn never_asked(r: &mut Random, phase: Phase) -> Client {
    let asked = legal_record(r, phase);
    match (phase, r.one_in(2)) {
        (Phase::Stopped, true) => Client { phase, ..FRESH },
        (_, true) => Client { asked: false, uptime: 0, ..asked },
        (_, false) => Client { asked: false, ..asked },
    }
}

/// A record that is illegal in one of the ways there are.
pub fn illegal_record(r: &mut Random) -> Client {
    let not_waiting = r.pick([Phase::Idle, Phase::Stopped]);
    match r.below(12) {
        0 | 1 => {
            let phase = r.pick(PHASES);
            let exponent = illegal_exponent(r);
            Client { exponent, ..legal_record(r, phase) }
        }
        2 => Client { t1: 0, ..legal_record(r, Phase::Waiting) },
        3 => Client { token: Token::ZERO, ..legal_record(r, Phase::Waiting) },
        4 => {
            let version = r.pick([0, 5, 6, 7, 8, 128, 255]);
            Client { version, ..legal_record(r, Phase::Waiting) }
        }
        5 => Client { t1: nonzero_timestamp(r), ..legal_record(r, not_waiting) },
        6 => Client { token: Token(nonzero_timestamp(r)), ..legal_record(r, not_waiting) },
        7 => {
            let version = r.pick([1, 2, 3, 4, 5, 255]);
            Client { version, ..legal_record(r, not_waiting) }
        }
        8 => never_asked(r, Phase::Waiting),
        9 => never_asked(r, Phase::Stopped),
        10 => Client { exponent: 7 + r.octet_below(8), ..FRESH },
        _ => Client { uptime: 1 + r.below(u64::MAX), ..FRESH },
    }
}

/// Any record: mostly of the wanted phase, at times of another, at times illegal.
pub fn record(r: &mut Random, wanted: Phase) -> Client {
    match r.below(20) {
        0 | 1 => illegal_record(r),
        2 | 3 => {
            let phase = r.pick(PHASES);
            legal_record(r, phase)
        }
        _ => legal_record(r, wanted),
    }
}
