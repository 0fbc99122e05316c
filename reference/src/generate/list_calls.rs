//! Calls for a record of a list.

use super::client_calls::{arrived, asked, uptime_of_give_up};
use super::records::{illegal_record, legal_record, record};
use crate::associations::{Associations, MOST};
use crate::client::{Client, Phase, Token};
use crate::conformance::call::Call;
use crate::conformance::list_call::{ListCall, RecordCall};
use crate::random::Random;

/// A number that is not in a list of so many records, the first often.
fn outside(r: &mut Random, count: usize) -> usize {
    match r.below(3) {
        0 | 1 => count,
        _ => count + r.below(256 - count as u64) as usize,
    }
}

/// A record that no call is for, seldom illegal. `stopped` says of four how many are stopped.
fn other_record(r: &mut Random, stopped: u64) -> Client {
    if r.one_in(64) {
        return illegal_record(r);
    }
    let phase =
        if r.below(4) < stopped { Phase::Stopped } else { r.pick([Phase::Idle, Phase::Waiting]) };
    legal_record(r, phase)
}

fn count(r: &mut Random) -> usize {
    match r.below(24) {
        0 => 0,
        1 => MOST + 1,
        _ => 1 + r.below(MOST as u64) as usize,
    }
}

/// Puts a record into a place, if the list has it.
pub fn put_at(records: &mut [Client], place: usize, record: Client) {
    if let Some(old) = records.get_mut(place) {
        *old = record;
    }
}

/// Records that no call is for: some stopped, all, or all but one.
fn other_records(r: &mut Random, count: usize) -> Vec<Client> {
    let stopped = r.pick([1, 3, 4, 4]);
    let mut records: Vec<Client> = (0..count).map(|_| other_record(r, stopped)).collect();
    if r.one_in(2) {
        put_at(&mut records, r.below(MOST as u64) as usize, other_record(r, 0));
    }
    records
}

/// A list that has the client in it, if it is not empty, and the client's number. Either number
/// is at times not in the list.
fn list_with(r: &mut Random, client: Client) -> (Associations, usize) {
    let count = count(r);
    let mut records = other_records(r, count);
    let any = |r: &mut Random| r.below(count.max(1) as u64) as usize;
    let mut number = any(r);
    put_at(&mut records, number, client);
    let mut in_use = if r.one_in(2) { number } else { any(r) };
    if r.one_in(24) {
        number = outside(r, count);
    }
    if r.one_in(24) {
        in_use = outside(r, count);
    }
    (Associations { records, in_use }, number)
}

fn put(r: &mut Random, client: Client, call: RecordCall, line: &mut Vec<u8>) {
    let (list, number) = list_with(r, client);
    Call::OfList(ListCall { list, number, call }).put(line);
}

/// The T1 of the first record that waits, as a token.
fn t1_of_waiting(list: &Associations) -> Option<Token> {
    let waiting = list.records.iter().find(|record| record.phase == Phase::Waiting);
    waiting.map(|record| Token(record.t1))
}

pub fn ask(r: &mut Random, line: &mut Vec<u8>) {
    let client = record(r, Phase::Idle);
    let mut arguments = asked(r, &client);
    let (list, number) = list_with(r, client);
    if r.one_in(8) {
        arguments.token = t1_of_waiting(&list).unwrap_or(arguments.token);
    }
    Call::OfList(ListCall { list, number, call: RecordCall::Ask(arguments) }).put(line);
}

pub fn arrival(r: &mut Random, line: &mut Vec<u8>) {
    let (client, t4, packet) = arrived(r);
    put(r, client, RecordCall::Arrival { t4, packet: &packet }, line);
}

pub fn give_up(r: &mut Random, line: &mut Vec<u8>) {
    let client = record(r, Phase::Waiting);
    let uptime = uptime_of_give_up(r, &client);
    put(r, client, RecordCall::GiveUp { uptime }, line);
}
