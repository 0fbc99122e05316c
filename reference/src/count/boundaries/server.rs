//! The boundaries of the server's replies.

use super::Marks;
use super::tails::{tails, with_fields};
use crate::conformance::call::LONGEST_PACKET;
use crate::count::conformance::reply_outcomes;
use crate::count::outcome::Outcome;
use crate::octets::Reader;
use crate::refusal::Refusal::*;
use crate::server::Settings;
use crate::timestamp::difference;

pub fn reply(
    m: &mut Marks,
    settings: &Settings,
    readings: [u64; 2],
    n: u8,
    request: &[u8],
    outcome: Outcome,
) {
    lengths(m, n, request, outcome);
    tails(m, request, LONGEST_PACKET, outcome);
    with_fields(m, request, reply_outcomes(), outcome);
    requests(m, request, outcome);
    settings_by_name(m, "", settings, outcome, settings.synchronised);
    settings_by_name(m, "off-", settings, outcome, !settings.synchronised);
    timestamps(m, settings, readings, outcome);
    order(m, settings, readings, request, outcome);
}

fn lengths(m: &mut Marks, n: u8, request: &[u8], outcome: Outcome) {
    let sent = outcome.passed();
    let wrong = outcome.by(PacketLengthWrong);
    m.see_each("buffer-", 0..=80, |length| n == length);
    m.see_each("length-", 0..=80, |length| request.len() == length);
    m.see("n=47", outcome.by(BufferTooShort) && n == 47);
    m.see("n=48", sent && n == 48);
    m.see("n=80", sent && n == 80);
    m.see_each("refused-length-", [0, 47, 49, 67, 69, 80], |length| {
        wrong && request.len() == length
    });
    m.see("request-68", sent && request.len() == 68);
}

/// Version and mode of a request, zero where it is empty.
fn version_and_mode(request: &[u8]) -> (u8, u8) {
    let first = request.first().copied().unwrap_or(0);
    (first / 8 % 8, first % 8)
}

fn transmit_of(request: &[u8]) -> Option<u64> {
    Reader::new(request.get(40..)?).u64().ok()
}

fn requests(m: &mut Marks, request: &[u8], outcome: Outcome) {
    let (version, mode) = version_and_mode(request);
    let sent = outcome.passed();
    let wrong_mode = outcome.by(RequestModeWrong);
    let wrong_version = outcome.by(RequestVersionUnsupported);
    m.see_each("refused-mode-", [0, 1, 2, 4, 5, 6, 7], |wrong| wrong_mode && mode == wrong);
    m.see_each("refused-version-", [0, 5, 6, 7], |v| wrong_version && version == v);
    m.see_each("version-", 1..=4, |v| sent && version == v);
    m.see("transmit-zero", sent && transmit_of(request) == Some(0));
}

/// Both sides of test 23; the names begin with the given word.
pub fn settings_by_name(
    m: &mut Marks,
    word: &str,
    settings: &Settings,
    outcome: Outcome,
    on: bool,
) {
    let (leap, precision) = (settings.leap, settings.precision);
    let sent = on && outcome.passed();
    let refused = on && outcome.by(SettingsOutOfRange);
    m.see_each(&format!("{word}li-"), 0..=2, |li| sent && leap == li);
    m.see_each(&format!("{word}refused-li-"), [3, 4, 255], |li| refused && leap == li);
    m.see_each(&format!("{word}precision-"), [-32, 0], |p| sent && precision == p);
    m.see_each(&format!("{word}refused-precision-"), [-33, 1, 127, -128], |p| {
        refused && precision == p
    });
}

fn timestamps(m: &mut Marks, settings: &Settings, [t2, t3]: [u64; 2], outcome: Outcome) {
    let hold = difference(t3, t2);
    let on = settings.synchronised;
    let sent = on && outcome.passed();
    let sent_off = !on && outcome.passed();
    let zero = on && outcome.by(ServerTimestampZero);
    let back = outcome.by(AnsweredBeforeReceived);
    m.see("T2-zero", zero && t2 == 0 && t3 != 0);
    m.see("T3-zero", zero && t2 != 0 && t3 == 0);
    m.see("off-zero", sent_off && t2 == 0);
    m.see("hold=0", sent && hold == Some(0));
    m.see("hold=-1", back && hold == Some(-1));
    m.see("hold=2^63-1", sent && hold == Some((1 << 63) - 1));
    m.see("hold=-2^63+1", back && hold == Some(1 - (1 << 63)));
    m.see("43-T3-above-T2", outcome.by(NoOrder) && t3 > t2);
    m.see("43-T3-below-T2", outcome.by(NoOrder) && t3 < t2);
    m.see("hold-over-wrap", sent && t3 < t2);
    m.see("off-hold=-1", sent_off && hold == Some(-1));
    m.see("off-no-order", sent_off && hold.is_none());
    m.see("reference-zero", sent && settings.reference == 0);
}

fn order(m: &mut Marks, settings: &Settings, [t2, t3]: [u64; 2], request: &[u8], outcome: Outcome) {
    let (version, _) = version_and_mode(request);
    let no_order = difference(t3, t2).is_none();
    let refused_on = outcome.by(SettingsOutOfRange) && settings.synchronised;
    m.see("1-before-7", outcome.by(BufferTooShort) && request.len() == 47);
    m.see("21-before-22", outcome.by(RequestModeWrong) && version == 0);
    m.see("22-before-23", outcome.by(RequestVersionUnsupported) && settings.leap == 3);
    m.see("23-before-14", refused_on && t2 == 0);
    m.see("23-before-43", refused_on && no_order);
    m.see("14-before-43", outcome.by(ServerTimestampZero) && no_order);
}
