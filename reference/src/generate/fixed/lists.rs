//! Fixed lines of calls for a record of a list.

use super::clients::{self, ASK, ILLEGAL, STOPPED, TOKEN};
use super::exchanges::reply;
use super::{Lines, T, pairs};
use crate::associations::{Associations, MOST};
use crate::client::{Client, Token};
use crate::conformance::call::AskArguments;
use crate::conformance::list_call::RecordCall;
use crate::generate::list_calls::put_at;
use crate::generate::packets::octets_of;
use crate::packet::Fields;

/// The idle record of a number; each is another.
fn idle(number: usize) -> Client {
    Client { uptime: 1000 + number as u64, ..clients::IDLE }
}

/// The waiting record of a number; each sent at another clock and with another token.
fn waiting(number: usize) -> Client {
    let n = number as u64;
    Client { uptime: 1000 + n, token: Token(TOKEN.0 + n), ..clients::waiting(T + n) }
}

fn reply_to(number: usize) -> Fields {
    let n = number as u64;
    Fields { originate: TOKEN.0 + n, ..reply(T + n, T + n) }
}

fn kiss_of(number: usize) -> Vec<u8> {
    octets_of(&Fields { stratum: 0, identifier: *b"RATE", ..reply_to(number) })
}

/// How many records there are, the number in use, and the number of the record that is called for.
#[derive(Clone, Copy)]
struct Shape {
    count: usize,
    in_use: usize,
    number: usize,
}

/// An ask of idle records, and a reply, a kiss and a give-up for waiting ones. They are taken where
/// nothing refuses the list, unless each is to have a fault of its own: a short buffer, a short
/// packet, an early uptime.
fn put_calls(lines: &mut Lines, shape: Shape, fault: bool, change: impl Fn(&mut [Client])) {
    let Shape { count, in_use, number } = shape;
    let mut put = |record: fn(usize) -> Client, call| {
        let mut records: Vec<Client> = (0..count).map(record).collect();
        change(&mut records);
        lines.list_call(Associations { records, in_use }, number, call);
    };
    let (n, uptime) = if fault { (47, 1000) } else { (48, 5000) };
    let t4 = T + number as u64;
    let [mut good, mut kiss] = [octets_of(&reply_to(number)), kiss_of(number)];
    good.truncate(n.into());
    kiss.truncate(n.into());
    put(idle, RecordCall::Ask(AskArguments { n, uptime, ..ASK }));
    put(waiting, RecordCall::Arrival { t4, packet: &good });
    put(waiting, RecordCall::Arrival { t4, packet: &kiss });
    put(waiting, RecordCall::GiveUp { uptime });
}

/// Each pair of numbers in each list, and past its end.
fn put_numbers(lines: &mut Lines) {
    for count in 0..=MOST + 1 {
        let numbers: Vec<usize> = (0..=count).chain([255]).collect();
        pairs(&numbers, &numbers).for_each(|(in_use, number)| {
            put_calls(lines, Shape { count, in_use, number }, false, |_| {});
        });
    }
}

/// An illegal record at each place, with a call for each number.
fn put_illegal_places(lines: &mut Lines) {
    for count in 1..=MOST {
        let numbers: Vec<usize> = (0..count).collect();
        pairs(&numbers, &numbers).for_each(|(place, number)| {
            put_calls(lines, Shape { count, in_use: 0, number }, false, |records| {
                put_at(records, place, ILLEGAL[0]);
            });
        });
    }
}

/// Each illegal record as the one that the call is for, before it and after it.
fn put_illegal_records(lines: &mut Lines) {
    let shape = Shape { count: 3, in_use: 1, number: 1 };
    for (illegal, place) in pairs(&ILLEGAL, &[0, 1, 2]) {
        put_calls(lines, shape, false, |records| put_at(records, place, illegal));
    }
}

/// Several illegal records, and a stopped record in use.
fn put_others(lines: &mut Lines) {
    let shape = Shape { count: 3, in_use: 2, number: 0 };
    put_calls(lines, shape, false, |records| records.fill(ILLEGAL[0]));
    put_calls(lines, shape, false, |records| put_at(records, 2, STOPPED));
}

/// What refuses the list, with an illegal record and without, with the call's own fault and
/// without.
fn put_orders(lines: &mut Lines) {
    let shapes = [(0, 0, 0), (9, 0, 0), (3, 0, 3), (3, 3, 0), (3, 3, 3), (3, 0, 0)]
        .map(|(count, in_use, number)| Shape { count, in_use, number });
    let faults: Vec<(usize, bool)> = pairs(&[0, 2, 255], &[false, true]).collect();
    for (shape, (place, fault)) in pairs(&shapes, &faults) {
        put_calls(lines, shape, fault, |records| put_at(records, place, ILLEGAL[0]));
    }
}

/// A kiss for a waiting record among others that are stopped where `stopped` has a bit set.
fn put_kiss(lines: &mut Lines, shape: Shape, stopped: usize, exponent: u8) {
    let Shape { count, in_use, number } = shape;
    let record = |n: usize| match n {
        _ if n == number => Client { exponent, ..waiting(n) },
        _ if stopped >> n & 1 == 1 => Client { uptime: n as u64, ..STOPPED },
        _ if n.is_multiple_of(2) => idle(n),
        _ => waiting(n),
    };
    let list = Associations { records: (0..count).map(record).collect(), in_use };
    lines.list_call(list, number, RecordCall::Arrival { t4: T, packet: &kiss_of(number) });
}

/// A kiss for a record, in use or with the next in use, among each choice of stopped ones.
fn put_kisses_of(lines: &mut Lines, count: usize, number: usize) {
    let others: Vec<usize> = (0..1 << count).filter(|bits| bits >> number & 1 == 0).collect();
    for (stopped, in_use) in pairs(&others, &[number, (number + 1) % count]) {
        put_kiss(lines, Shape { count, in_use, number }, stopped, 6);
    }
}

/// These for each record of each list.
fn put_kisses(lines: &mut Lines) {
    for count in 1..=MOST {
        (0..count).for_each(|number| put_kisses_of(lines, count, number));
    }
}

/// A kiss at each exponent, in use and not, with an alternate and without one.
fn put_exponents(lines: &mut Lines) {
    let cases: Vec<(usize, usize)> = pairs(&[0, 1], &[0b000, 0b101]).collect();
    for (exponent, (in_use, stopped)) in pairs(&[6, 7, 8, 9, 10, 11, 12, 13, 14], &cases) {
        put_kiss(lines, Shape { count: 3, in_use, number: 1 }, stopped, exponent);
    }
}

pub fn put_lines(lines: &mut Lines) {
    put_numbers(lines);
    put_illegal_places(lines);
    put_illegal_records(lines);
    put_others(lines);
    put_orders(lines);
    put_kisses(lines);
    put_exponents(lines);
}
