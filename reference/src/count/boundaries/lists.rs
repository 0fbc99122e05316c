//! The boundaries of calls for a record of a list.

use super::{Marks, arrival, client};
use crate::associations::{Associations, MOST};
use crate::client::{Client, FRESH, Phase, legal};
use crate::conformance::list_call::{ListCall, RecordCall};
use crate::conformance::records::read_client;
use crate::count::conformance::ARRIVAL;
use crate::count::outcome::Outcome;
use crate::octets::Reader;
use crate::refusal::Refusal::*;

pub fn list_call(m: &mut Marks, list_call: &ListCall, answer: &[u8], outcome: Outcome) {
    let ListCall { list, number, call } = list_call;
    // A fresh record stands for one that is not in the list; 35 then refuses the call.
    let client = list.records.get(*number).unwrap_or(&FRESH);
    let after = handed_back(list_call, answer);
    let next = after.as_ref().and_then(|after| after.records.get(*number).copied());
    numbers(m, list, *number, outcome);
    taken(m, list, *number, outcome);
    illegal_records(m, list, *number, outcome);
    order(m, list, has_fault(client, call), outcome);
    match *call {
        RecordCall::Ask(ref arguments) => client::ask(m, client, arguments, outcome),
        RecordCall::Arrival { t4, packet } => {
            let alternate = list.alternate(*number).is_some();
            let kiss = outcome.is_kiss().then_some(alternate);
            let in_use = *number == list.in_use;
            arrival::alternates(m, ARRIVAL, alternate, outcome);
            arrival::kisses(m, "in-use-", client, next, kiss.filter(|_| in_use));
            arrival::kisses(m, "not-in-use-", client, next, kiss.filter(|_| !in_use));
            arrival::arrival(m, client, t4, packet, arrival::gives_half(answer), outcome);
            uses(m, list, *number, after.map(|after| after.in_use), outcome);
        }
        RecordCall::GiveUp { uptime } => client::give_up(m, client, uptime, next, outcome),
    }
}

/// The number in use and the records that an answer shows.
fn handed_back(call: &ListCall, answer: &[u8]) -> Option<Associations> {
    let at = match call.call {
        // After kind, number, offset, half, delay, code and row.
        RecordCall::Arrival { .. } => 2 + 8 + 1 + 8 + 4 + 1,
        RecordCall::Ask(_) | RecordCall::GiveUp { .. } => 1,
    };
    let mut octets = Reader::new(answer.get(at..)?);
    let in_use = octets.u8().ok()?.into();
    let records = call.list.records.iter().map(|_| read_client(&mut octets));
    Some(Associations { records: records.collect::<Result<_, _>>().ok()?, in_use })
}

/// Each way 35 is given, alone.
fn numbers(m: &mut Marks, list: &Associations, number: usize, outcome: Outcome) {
    let count = list.records.len();
    let refused = outcome.by(NotInList);
    let number_alone = refused && count <= MOST && list.in_use < count;
    let in_use_alone = refused && count <= MOST && number < count;
    let nine = refused && count == MOST + 1;
    m.see("35-empty", refused && count == 0);
    m.see("35-nine", nine && number < count && list.in_use < count);
    m.see_each("35-number-", 1..=MOST, |n| number_alone && count == n && number == n);
    m.see_each("35-in-use-", 1..=MOST, |n| in_use_alone && count == n && list.in_use == n);
    m.see("35-number-255", number_alone && number == 255);
    m.see("35-in-use-255", in_use_alone && list.in_use == 255);
    let both = refused && number >= count && list.in_use >= count;
    m.see("35-number-and-in-use", both && (1..=MOST).contains(&count));
}

/// Calls that are not refused, in every list and for every number.
fn taken(m: &mut Marks, list: &Associations, number: usize, outcome: Outcome) {
    let count = list.records.len();
    let taken = outcome.passed() || outcome.is_kiss();
    let used = list.records.get(list.in_use).map(|record| record.phase);
    m.see_each("taken-number-", 0..MOST, |n| taken && number == n);
    m.see_each("taken-in-use-", 0..MOST, |n| taken && list.in_use == n);
    m.see_each("taken-last-of-", 1..=MOST, |n| taken && count == n && number + 1 == n);
    m.see_each("taken-last-in-use-of-", 1..=MOST, |n| taken && count == n && list.in_use + 1 == n);
    m.see("taken-of-one-in-use", taken && count > 1 && number == list.in_use);
    m.see("taken-of-one-not-in-use", taken && number != list.in_use);
    m.see("taken-with-stopped-in-use", taken && used == Some(Phase::Stopped));
}

/// An illegal record at each place: the one that the call is for, or another.
fn illegal_records(m: &mut Marks, list: &Associations, number: usize, outcome: Outcome) {
    let mut illegal = (0..).zip(&list.records).filter(|(_, record)| !legal(record));
    let first = illegal.next().filter(|_| outcome.by(RecordNotLegal));
    let alone = first.filter(|_| illegal.next().is_none());
    let place = alone.map(|(place, _)| place);
    let other = alone.filter(|&(place, _)| place != number);
    m.see_each("29-for-it-at-", 0..MOST, |n| place == Some(n) && number == n);
    m.see_each("29-for-other-at-", 0..MOST, |n| place == Some(n) && number != n);
    m.see("29-for-other-before", place.is_some_and(|place| place < number));
    m.see("29-for-other-after", place.is_some_and(|place| place > number));
    m.see("29-for-other-in-use", other.is_some_and(|(place, _)| place == list.in_use));
    m.see("29-for-several", first.is_some() && alone.is_none());
    client::records(m, "other-", other.map_or(&FRESH, |(_, record)| record), outcome);
}

/// Whether the client itself refuses the call: a short buffer, a packet one octet short, or
/// whatever refuses a give-up.
fn has_fault(client: &Client, call: &RecordCall) -> bool {
    match *call {
        RecordCall::Ask(arguments) => arguments.n < 48,
        RecordCall::Arrival { packet, .. } => packet.len() == 47,
        RecordCall::GiveUp { uptime } => crate::client::give_up(client, uptime).is_err(),
    }
}

fn order(m: &mut Marks, list: &Associations, fault: bool, outcome: Outcome) {
    let illegal = !list.records.iter().all(legal);
    let not_in_list = outcome.by(NotInList);
    m.see("35-before-29", not_in_list && illegal && list.records.len() <= MOST);
    m.see("35-of-nine-before-29", not_in_list && illegal && list.records.len() > MOST);
    m.see("35-before-own", not_in_list && fault);
    m.see("29-before-own", outcome.by(RecordNotLegal) && fault);
}

/// Where use goes after a kiss. `after` is the number in use that the answer shows.
fn uses(m: &mut Marks, list: &Associations, number: usize, after: Option<usize>, outcome: Outcome) {
    let alternate = list.alternate(number);
    let in_use = number == list.in_use;
    let kiss = outcome.is_kiss();
    let moved = kiss && in_use && alternate.is_some() && after == alternate;
    let stayed = kiss && after == Some(list.in_use);
    m.see("use-moved", moved);
    m.see("use-stayed-without-alternate", stayed && in_use && alternate.is_none());
    m.see("use-stayed-not-in-use", stayed && !in_use && alternate.is_some());
    m.see("use-stayed-at-alternate", stayed && !in_use && alternate == Some(list.in_use));
    m.see("use-stayed-at-stopped", stayed && !in_use && alternate.is_none());
    m.see("use-stayed-accepted", outcome.passed() && in_use && after == Some(list.in_use));
    moves(m, list, number, alternate.filter(|_| moved));
    alternates(m, list.records.len(), number, alternate, kiss);
}

/// How far use moved, within the list and past its end, and to what.
fn moves(m: &mut Marks, list: &Associations, number: usize, to: Option<usize>) {
    let count = list.records.len();
    let phase = to.and_then(|to| list.records.get(to)).map(|record| record.phase);
    m.see_each("use-moved-by-", 1..MOST, |d| to == Some(number + d));
    m.see_each("use-moved-past-end-by-", 1..MOST, |d| {
        to.is_some_and(|to| to < number && to + count == number + d)
    });
    m.see("use-moved-to-idle", phase == Some(Phase::Idle));
    m.see("use-moved-to-waiting", phase == Some(Phase::Waiting));
}

/// Whether the alternate of a kissed record was the first that could be, the last that could be, or
/// none was left.
fn alternates(m: &mut Marks, count: usize, number: usize, alternate: Option<usize>, kiss: bool) {
    let next = kiss && alternate == Some((number + 1) % count);
    let last = kiss && alternate.is_some_and(|alternate| (alternate + 1) % count == number);
    m.see_each("alternate-next-of-", 2..=MOST, |n| next && count == n);
    m.see_each("alternate-last-of-", 2..=MOST, |n| last && count == n);
    m.see_each("alternate-none-of-", 1..=MOST, |n| kiss && count == n && alternate.is_none());
}
