//! Calls for a record of a list: what refuses them, the alternate, the number in use, and that no
//! other record changes.

use reference::arrival::Told;
use reference::associations::Associations;
use reference::client::{Client, FRESH, Phase, Token, ask, give_up};
use reference::packet::{self, Fields};
use reference::refusal::Refusal::{self, *};

const T: u64 = 1 << 32;

const IDLE: Client = Client { asked: true, uptime: 1000, ..FRESH };
const STOPPED: Client = Client { phase: Phase::Stopped, ..IDLE };
const ILLEGAL: Client = Client { exponent: 15, ..IDLE };

/// The token of the request of a record's number, which is the T1 of the next one's.
fn token(number: usize) -> Token {
    Token(T + number as u64 + 1)
}

/// The waiting record of a number, which sent at a clock of its own.
fn waiting(number: usize) -> Client {
    let (t1, token) = (T + number as u64, token(number));
    Client { phase: Phase::Waiting, t1, token, version: 4, ..IDLE }
}

fn reply_to(number: usize, stratum: u8) -> [u8; 48] {
    let clock = T + number as u64;
    let fields = Fields {
        version: 4,
        mode: 4,
        stratum,
        identifier: *b"RATE",
        originate: token(number).0,
        receive: clock,
        transmit: clock,
        ..Fields::default()
    };
    let mut octets = [0; 48];
    packet::write(&fields, &mut octets).unwrap();
    octets
}

fn list(records: &[Client], in_use: usize) -> Associations {
    Associations { records: records.to_vec(), in_use }
}

/// The list after a kiss of the record of a number.
fn kissed(list: &Associations, number: usize) -> Associations {
    let arrived = list.arrival(number, &reply_to(number, 0), 0).unwrap();
    assert_eq!(arrived.told, Told::Kiss { code: *b"RATE", row: 12 });
    arrived.next
}

#[test]
fn use_wraps_past_a_stopped_record_and_the_last_record_left_backs_off() {
    let before = list(&[waiting(0), waiting(1), STOPPED], 1);
    let wrapped = kissed(&before, 1);
    assert_eq!(wrapped, list(&[waiting(0), STOPPED, STOPPED], 0));
    let raised = Client { exponent: 7, ..IDLE };
    let backed_off = kissed(&wrapped, 0);
    assert_eq!(backed_off, list(&[raised, STOPPED, STOPPED], 0));
    let mut request = [0; 48];
    assert_eq!(backed_off.ask(0, &mut request, 4, T, token(0), 1127), Err(AskedTooSoon));
    assert_eq!(backed_off.ask(1, &mut request, 4, T, token(0), 5000), Err(ClientStopped));
    assert_eq!(backed_off.ask(1, &mut request, 4, T, Token::ZERO, 5000), Err(TokenZero));
    assert_eq!(request, [0; 48]);
    let asked = backed_off.ask(0, &mut request, 4, T, token(0), 1128).unwrap();
    let waiting = Client { uptime: 1128, exponent: 7, ..waiting(0) };
    assert_eq!(asked, list(&[waiting, STOPPED, STOPPED], 0));
    assert_eq!(request[40..], token(0).0.to_be_bytes());
    let given_up = asked.give_up(0, 1144).unwrap();
    let idle = Client { uptime: 1128, exponent: 8, ..IDLE };
    assert_eq!(given_up, list(&[idle, STOPPED, STOPPED], 0));
}

#[test]
fn a_kiss_of_a_record_that_is_not_in_use() {
    let before = list(&[waiting(0), IDLE, STOPPED], 2);
    assert_eq!(kissed(&before, 0), list(&[STOPPED, IDLE, STOPPED], 2));
    let before = list(&[STOPPED, waiting(1)], 0);
    let raised = Client { exponent: 7, ..IDLE };
    assert_eq!(kissed(&before, 1), list(&[STOPPED, raised], 0));
}

/// The alternate of each record of a list that is stopped where `stopped` has a bit set.
fn check_alternates(count: usize, stopped: u32) {
    let is_stopped = |number: &usize| stopped >> number & 1 == 1;
    let records = (0..count).map(|n| if is_stopped(&n) { STOPPED } else { IDLE });
    let list = Associations { records: records.collect(), in_use: 0 };
    for number in 0..count {
        let mut others = (1..count).map(|distance| (number + distance) % count);
        assert_eq!(list.alternate(number), others.find(|other| !is_stopped(other)));
    }
}

#[test]
fn the_alternate_among_each_choice_of_stopped_records() {
    for count in 1..=8 {
        (0..1 << count).for_each(|stopped| check_alternates(count, stopped));
    }
}

/// The numbers that the three calls give, with a request or a reply that the record would take; the
/// buffer stays where the ask is refused.
fn numbers(records: &[Client], in_use: usize, number: usize) -> [Option<Refusal>; 3] {
    let list = list(records, in_use);
    let mut buffer = [7; 48];
    let asked = list.ask(number, &mut buffer, 4, T, token(number), 5000);
    assert!(asked.is_ok() || buffer == [7; 48]);
    let arrived = list.arrival(number, &reply_to(number, 0), T);
    [asked.err(), arrived.err(), list.give_up(number, 5000).err()]
}

#[test]
fn numbers_that_are_not_in_the_list() {
    let outside = |count| [(count, 0), (0, count), (count, count), (255, 0), (0, 255)];
    let counts = (0..=9).flat_map(|count| outside(count).map(|numbers| (count, numbers)));
    for (count, (in_use, number)) in counts {
        assert_eq!(numbers(&vec![IDLE; count], in_use, number), [Some(NotInList); 3]);
        assert_eq!(numbers(&vec![ILLEGAL; count], in_use, number), [Some(NotInList); 3]);
    }
}

#[test]
fn eight_records_and_nine() {
    let taken = [None, Some(NotWaiting), Some(NotWaiting)];
    for (in_use, number) in [(0, 0), (7, 0), (0, 7), (7, 7)] {
        assert_eq!(numbers(&[IDLE; 8], in_use, number), taken);
        assert_eq!(numbers(&[IDLE; 9], in_use, number), [Some(NotInList); 3]);
        assert_eq!(numbers(&[ILLEGAL; 9], in_use, number), [Some(NotInList); 3]);
    }
}

#[test]
fn an_illegal_record_anywhere() {
    for (place, number) in (0..8).flat_map(|place| (0..8).map(move |number| (place, number))) {
        let mut records: Vec<Client> = (0..8).map(waiting).collect();
        assert_eq!(numbers(&records, 3, number), [Some(AlreadyWaiting), None, None]);
        records[place] = ILLEGAL;
        assert_eq!(numbers(&records, 3, number), [Some(RecordNotLegal); 3]);
        let list = list(&records, 3);
        assert_eq!(list.ask(number, &mut [], 0, 0, Token::ZERO, 0), Err(RecordNotLegal));
        assert_eq!(list.arrival(number, &[], 0).err(), Some(RecordNotLegal));
        assert_eq!(list.give_up(number, 0), Err(RecordNotLegal));
    }
}

/// A list in which 2 is in use, with another record in the place of one.
fn mixed(number: usize, record: Client) -> Associations {
    let raised = Client { exponent: 9, ..IDLE };
    let mut records = [waiting(0), IDLE, STOPPED, waiting(3), raised, FRESH];
    records[number] = record;
    list(&records, 2)
}

#[test]
fn an_ask_changes_the_record_that_it_is_for() {
    let before = mixed(2, STOPPED);
    for number in [1, 4, 5] {
        let (mut alone, mut of_list) = ([7; 50], [7; 50]);
        let next = ask(&before.records[number], &mut alone, 3, T, token(number), 9000).unwrap();
        let asked = before.ask(number, &mut of_list, 3, T, token(number), 9000);
        assert_eq!(asked, Ok(mixed(number, next)));
        assert_eq!(alone, of_list);
    }
}

#[test]
fn other_calls_change_the_record_that_they_are_for() {
    let before = mixed(2, STOPPED);
    for number in [0, 3] {
        let next = give_up(&before.records[number], 9000).unwrap();
        assert_eq!(before.give_up(number, 9000), Ok(mixed(number, next)));
        let accepted = before.arrival(number, &reply_to(number, 1), T + number as u64).unwrap();
        assert!(matches!(accepted.told, Told::Accepted(_)));
        assert_eq!(accepted.next, mixed(number, IDLE));
        let of_other = before.arrival(number, &reply_to(3 - number, 0), T);
        assert_eq!(of_other, Err(OriginateMismatch));
    }
}
