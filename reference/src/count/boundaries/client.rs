//! The boundaries of client records, asks and give-ups.

use super::Marks;
use crate::client::{Client, Phase, Token};
use crate::conformance::call::AskArguments;
use crate::conformance::records::{RECORD, read_client};
use crate::count::outcome::Outcome;
use crate::octets::Reader;
use crate::refusal::Refusal::*;

/// The record at the end of an answer.
pub fn handed_back(answer: &[u8]) -> Option<Client> {
    let octets = answer.last_chunk::<RECORD>()?;
    read_client(&mut Reader::new(octets)).ok()
}

/// Every way a record can be illegal, alone; the names begin with the given word.
pub fn records(m: &mut Marks, word: &str, client: &Client, outcome: Outcome) {
    records_that_asked(m, word, client, outcome);
    records_that_never_asked(m, word, client, outcome);
}

/// Which of T1, token and version are not zero.
fn kept_of_request(client: &Client) -> [bool; 3] {
    [client.t1 != 0, client.token != Token::ZERO, client.version != 0]
}

fn records_that_asked(m: &mut Marks, word: &str, client: &Client, outcome: Outcome) {
    let refused = outcome.by_record() && client.asked;
    let known = refused && (6..=14).contains(&client.exponent);
    let waits = known && client.phase == Phase::Waiting;
    let kept = kept_of_request(client);
    let idle = known && client.phase == Phase::Idle;
    let stopped = known && client.phase == Phase::Stopped;
    m.see_with(word, "record-exponent-5", refused && client.exponent == 5);
    m.see_with(word, "record-exponent-15", refused && client.exponent == 15);
    m.see_with(word, "record-waits-T1-zero", waits && kept == [false, true, true]);
    m.see_with(word, "record-waits-token-zero", waits && kept == [true, false, true]);
    m.see_with(word, "record-waits-version-0", waits && kept == [true, true, false]);
    m.see_with(word, "record-waits-version-5", waits && kept == [true; 3] && client.version == 5);
    m.see_with(word, "record-idle-T1", idle && kept == [true, false, false]);
    m.see_with(word, "record-idle-token", idle && kept == [false, true, false]);
    m.see_with(word, "record-idle-version", idle && kept == [false, false, true]);
    m.see_with(word, "record-stopped-T1", stopped && kept == [true, false, false]);
    m.see_with(word, "record-stopped-token", stopped && kept == [false, true, false]);
    m.see_with(word, "record-stopped-version", stopped && kept == [false, false, true]);
}

fn records_that_never_asked(m: &mut Marks, word: &str, client: &Client, outcome: Outcome) {
    let never = outcome.by_record() && !client.asked;
    let kept = kept_of_request(client);
    let waits = never && client.phase == Phase::Waiting && kept == [true; 3];
    let stopped = never && client.phase == Phase::Stopped;
    let idle = never && client.phase == Phase::Idle && kept == [false; 3];
    m.see_with(word, "record-never-waiting", waits && client.exponent == 6);
    m.see_with(word, "record-never-stopped", stopped && client.uptime == 0);
    m.see_with(word, "record-never-exponent-7", idle && client.exponent == 7 && client.uptime == 0);
    m.see_with(word, "record-never-uptime", idle && client.exponent == 6 && client.uptime != 0);
}

pub fn ask(m: &mut Marks, client: &Client, arguments: &AskArguments, outcome: Outcome) {
    let AskArguments { n, version, clock, uptime, .. } = *arguments;
    let done = outcome.passed();
    records(m, "", client, outcome);
    m.see_each("buffer-", 0..=80, |length| n == length);
    m.see("n=47", outcome.by(BufferTooShort) && n == 47);
    m.see("n=48", done && n == 48);
    m.see("n=80", done && n == 80);
    let unsupported = outcome.by(VersionUnsupported);
    m.see_each("refused-version-", [0, 5, 255], |v| unsupported && version == v);
    m.see_each("version-", 1..=4, |v| done && version == v);
    m.see("clock=1", done && clock == 1);
    m.see("clock-of-ones", done && clock == u64::MAX);
    tokens(m, client, arguments, outcome);
    poll_intervals(m, client, uptime, outcome);
    m.see("fresh-at-0", done && !client.asked && uptime == 0);
    m.see("3-before-4", outcome.by(OwnClockZero) && client.phase == Phase::Stopped);
    m.see("2-before-3", unsupported && clock == 0);
    m.see("1-before-2", outcome.by(BufferTooShort) && version == 0);
    m.see("record-before-1", outcome.by_record() && n < 48);
}

/// Both sides of test 42, and its place in the order.
fn tokens(m: &mut Marks, client: &Client, arguments: &AskArguments, outcome: Outcome) {
    let AskArguments { clock, token, uptime, .. } = *arguments;
    let done = outcome.passed();
    let zero = outcome.by(TokenZero);
    // Less than 64 s past the last ask is too soon with every exponent.
    let early = client.asked && i128::from(uptime) < i128::from(client.uptime) + 64;
    m.see("token=1", done && token == Token(1));
    m.see("token-of-ones", done && token == Token(u64::MAX));
    m.see("token=clock", done && token == Token(clock));
    m.see("token-not-clock", done && token != Token(clock));
    m.see("3-before-42", outcome.by(OwnClockZero) && token == Token::ZERO);
    m.see("42-before-4", zero && client.phase == Phase::Stopped);
    m.see("42-before-5", zero && client.phase == Phase::Waiting);
    m.see("42-before-6", zero && client.phase == Phase::Idle && early);
}

fn poll_intervals(m: &mut Marks, client: &Client, uptime: u64, outcome: Outcome) {
    let past = i128::from(uptime) - i128::from(client.uptime);
    let early = outcome.by(AskedTooSoon);
    let due = client.asked && outcome.passed();
    let with = |exponent| client.exponent == exponent;
    m.see_each("early-", 6..=14, |x| early && with(x) && past == (1 << x) - 1);
    m.see_each("due-", 6..=14, |x| due && with(x) && past == 1 << x);
    m.see("uptime-below", early && past == -1);
    m.see("due-past-2^64", early && uptime < 1 << 20 && client.uptime > u64::MAX - 64);
}

pub fn give_up(
    m: &mut Marks,
    client: &Client,
    uptime: u64,
    next: Option<Client>,
    outcome: Outcome,
) {
    let done = outcome.passed();
    let early = outcome.by(GaveUpTooSoon);
    let past = i128::from(uptime) - i128::from(client.uptime);
    records(m, "", client, outcome);
    m.see("15-past", early && past == 15);
    m.see("16-past", done && past == 16);
    m.see("below", early && past == -1);
    m.see("late-uptime", early && client.uptime == u64::MAX - 15 && uptime == u64::MAX);
    m.see("wrapped", early && client.uptime > u64::MAX - 16 && uptime < 32);
    m.see("8-idle", outcome.by(NotWaiting) && client.phase == Phase::Idle);
    m.see("8-stopped", outcome.by(NotWaiting) && client.phase == Phase::Stopped);
    m.see_each("exponent-", 6..=14, |exponent: u8| {
        let raised = 14.min(exponent + 1);
        done && client.exponent == exponent && next.is_some_and(|next| next.exponent == raised)
    });
}
