//! Fixed malformed lines.

use super::clients::ASK;
use super::{Lines, pairs};
use crate::associations::Associations;
use crate::client::FRESH;
use crate::conformance::broadcast_call::{BroadcastCall, N_OF_BROADCAST_AT};
use crate::conformance::call::*;
use crate::conformance::extension_call::{
    Addition, BEFORE_BODY, BODY_LENGTH_AT, BUFFER_LENGTH_AT, ExtensionCall,
};
use crate::conformance::firmware_call::{FirmwareCall, LONGEST_SLICE};
use crate::conformance::list_call::{COUNT_AT, LARGEST_COUNT, ListCall, RecordCall, record_at};
use crate::conformance::records::{ASKED_AFTER_PHASE, RECORD};
use crate::conformance::time_call::{N_OF_TIME_AT, TimeCall};
use crate::extension::Field;
use crate::generate::malformed::{leave_out_token_of_ask, leave_out_tokens};
use crate::server::Settings;

/// Texts that are no line of digits, or no operation.
const TEXTS: [&str; 14] =
    ["", "F", "F00", "F000", "F3", "00", "0E", "1E", "F0\r", "F0 ", " F0", "F0\0", "G0", "0x"];

/// Wrong lengths of one operation's line.
fn put_lengths(lines: &mut Lines, operation: u8, right: usize) {
    for length in [0, 1, 8, right - 1, right + 1, 2 * right, LONGEST.into()] {
        let mut line = vec![operation];
        line.resize(1 + length, 0);
        lines.octets(&line);
    }
}

/// Wrong lengths of a line that ends with a packet, given the octets before that.
fn put_lengths_with_packet(lines: &mut Lines, operation: u8, before: usize) {
    let longest = before + LONGEST_PACKET;
    for length in [0, 1, before - 1, longest + 1, 2 * longest] {
        lines.octets(&resized(&[operation], 1 + length));
    }
}

fn line_of(call: &Call) -> Vec<u8> {
    let mut line = Vec::new();
    call.put(&mut line);
    line
}

/// A call's line with one octet set.
fn with_octet(call: &Call, at: usize, value: u8) -> Vec<u8> {
    let mut line = line_of(call);
    if let Some(octet) = line.get_mut(at) {
        *octet = value;
    }
    line
}

/// An arrival has the longest packet here, so that each of the three is as long as can be.
const LIST_CALLS: [RecordCall; 3] = [
    RecordCall::Ask(ASK),
    RecordCall::Arrival { t4: 1, packet: &[0; LONGEST_PACKET] },
    RecordCall::GiveUp { uptime: 0 },
];

/// A call for the first record of a list.
fn list_call(call: RecordCall, count: u8) -> Call {
    let list = Associations { records: vec![FRESH; count.into()], in_use: 0 };
    Call::OfList(ListCall { list, number: 0, call })
}

fn resized(line: &[u8], length: usize) -> Vec<u8> {
    let mut line = line.to_vec();
    line.resize(length, 0);
    line
}

/// Lists one octet or one record too long or too short, and that end within their first octets.
fn put_list_lengths(lines: &mut Lines) {
    for (call, count) in pairs(&LIST_CALLS, &[0, 1, 2, 3, 4, 5, 6, 7, 8, 9]) {
        let line = line_of(&list_call(call, count));
        let end = record_at(count.into());
        let shortest = if matches!(call, RecordCall::Ask(_)) { end + 26 } else { end + 8 };
        let longer = [line.len() + 1, line.len() + RECORD];
        let shorter = [shortest - 1, shortest.saturating_sub(RECORD).max(1), end, 4, 3, 2, 1];
        longer.into_iter().chain(shorter).for_each(|length| lines.octets(&resized(&line, length)));
    }
}

/// Every call with a record, of a client and for a record of a list. An arrival has no packet here.
fn calls_with_records() -> impl Iterator<Item = Call<'static>> {
    const CALLS: [RecordCall; 3] = [
        RecordCall::Ask(ASK),
        RecordCall::Arrival { t4: 1, packet: &[] },
        RecordCall::GiveUp { uptime: 0 },
    ];
    let alone = [
        Call::Ask { client: FRESH, arguments: ASK },
        Call::Arrival { client: FRESH, t4: 1, alternate: false, packet: &[] },
        Call::GiveUp { client: FRESH, uptime: 0 },
    ];
    let of_lists = pairs(&CALLS, &[1, 2, 3, 4, 5, 6, 7, 8, 9]);
    alone.into_iter().chain(of_lists.map(|(call, count)| list_call(call, count)))
}

/// Records without a token, an ask without its own, and both.
fn put_without_tokens(lines: &mut Lines) {
    for call in calls_with_records() {
        let mut line = line_of(&call);
        leave_out_tokens(&mut line);
        lines.octets(&line);
        if matches!(call.operation(), 0x08 | 0x0E) {
            leave_out_token_of_ask(&mut line);
            lines.octets(&line);
            let mut line = line_of(&call);
            leave_out_token_of_ask(&mut line);
            lines.octets(&line);
        }
    }
}

/// A wrong phase and a wrong flag in each record of the longest list.
fn put_list_records(lines: &mut Lines) {
    for (call, number) in pairs(&LIST_CALLS, &[0, 1, 2, 3, 4, 5, 6, 7, 8]) {
        let call = list_call(call, LARGEST_COUNT);
        lines.octets(&with_octet(&call, record_at(number), 3));
        lines.octets(&with_octet(&call, record_at(number) + ASKED_AFTER_PHASE, 2));
    }
}

/// Counts that are too large, with so many records or not.
fn put_list_counts(lines: &mut Lines) {
    for call in LIST_CALLS {
        lines.octets(&line_of(&list_call(call, LARGEST_COUNT + 1)));
        pairs(&[0, 1, LARGEST_COUNT], &[LARGEST_COUNT + 1, 255]).for_each(|(records, count)| {
            lines.octets(&with_octet(&list_call(call, records), COUNT_AT, count));
        });
    }
}

fn put_lists(lines: &mut Lines) {
    put_list_lengths(lines);
    put_list_records(lines);
    put_list_counts(lines);
    let [ask, _, _] = LIST_CALLS;
    for count in 0..=LARGEST_COUNT {
        let n_at = record_at(count.into());
        lines.octets(&with_octet(&list_call(ask, count), n_at, LONGEST + 1));
    }
}

/// Broadcast lines with a wrong length, a wrong flag, or a buffer that is too long.
fn put_broadcasts(lines: &mut Lines) {
    put_lengths(lines, 0x11, 26);
    put_lengths_with_packet(lines, 0x12, 8);
    let settings =
        Settings { synchronised: true, leap: 0, precision: 0, identifier: [0; 4], reference: 0 };
    let write = BroadcastCall::Write { settings, version: 4, poll: 6, t3: 1, n: 48 };
    for (at, value) in [(SYNCHRONISED_AT, 2), (SYNCHRONISED_AT, 255)] {
        lines.octets(&with_octet(&Call::OfBroadcast(write), at, value));
    }
    for n in [LONGEST + 1, 255] {
        lines.octets(&with_octet(&Call::OfBroadcast(write), N_OF_BROADCAST_AT, n));
    }
}

/// An addition of five octets to a packet of 48 in a buffer of 80.
const ADDITION: Addition = Addition {
    buffer_length: 80,
    packet_length: 48,
    field: Field { kind: 1, body: &[1, 2, 3, 4, 5] },
    first: &[0; 48],
};

fn addition_line(addition: Addition) -> Vec<u8> {
    line_of(&Call::OfExtension(ExtensionCall::Add(addition)))
}

/// Additions that end within their lengths or within their body, or have more octets than the buffer.
fn put_addition_lengths(lines: &mut Lines) {
    let line = addition_line(ADDITION);
    let right = 1 + BEFORE_BODY + ADDITION.field.body.len();
    (0..right).for_each(|length| lines.octets(&resized(&line, length)));
    for buffer_length in [0, 47, 80, 1100] {
        let line = addition_line(Addition { buffer_length, first: &[], ..ADDITION });
        let longest = line.len() + usize::from(buffer_length);
        [longest, longest + 1, longest + 200]
            .into_iter()
            .for_each(|length| lines.octets(&resized(&line, length)));
    }
}

/// Additions to a buffer, or of a body, of 1100 octets and of more, which may be there or not.
fn put_long_additions(lines: &mut Lines) {
    let body = [7; 1100];
    for length in [1100u16, 1101, 1102, 1104, 0x8000, 0xFFFF] {
        let [high, low] = length.to_be_bytes();
        for at in [BUFFER_LENGTH_AT, BODY_LENGTH_AT] {
            let field = Field { body: &body, ..ADDITION.field };
            for (addition, extra) in pairs(&[ADDITION, Addition { field, ..ADDITION }], &[0, 1, 4])
            {
                let mut line = addition_line(addition);
                line.splice(at..at + 2, [high, low]);
                line.resize(line.len() + extra, 0);
                lines.octets(&line);
            }
        }
    }
}

/// Lines of packets, and additions, with a wrong length.
fn put_packets(lines: &mut Lines) {
    for (operation, length) in pairs(&[0x03, 0x13], &[LONGEST_PACKET, LONGEST_PACKET + 1, 2000]) {
        lines.octets(&resized(&[operation], 1 + length));
    }
    put_lengths_with_packet(lines, 0x09, 37);
    put_lengths_with_packet(lines, 0x0B, 32);
    put_addition_lengths(lines);
    put_long_additions(lines);
}

/// Lines of Unix times and the Time Protocol with a wrong length, or a buffer that is too long.
fn put_times(lines: &mut Lines) {
    put_lengths(lines, 0x15, 8);
    put_lengths(lines, 0x16, 12);
    put_lengths(lines, 0x17, 5);
    for length in [LONGEST + 1, LONGEST + 2, 255] {
        lines.octets(&resized(&[0x18], 1 + usize::from(length)));
        let answer = Call::OfTime(TimeCall::Answer { count: 1, n: 4 });
        lines.octets(&with_octet(&answer, N_OF_TIME_AT, length));
    }
}

/// A call of firmware with the longest slices, cut or lengthened.
fn put_firmware_lengths(lines: &mut Lines) {
    let image = vec![0; LONGEST_SLICE.into()];
    let calls = [
        FirmwareCall::Fresh { image: image.clone() },
        FirmwareCall::Ask { image: image.clone(), n: 1, version: 4, clock: 1, token: 1, uptime: 1 },
        FirmwareCall::Arrival {
            image: image.clone(),
            answer: image.clone(),
            t4: 1,
            alternate: 1,
            packet: &[],
        },
        FirmwareCall::GiveUp { image, uptime: 1 },
    ];
    for line in calls.map(|call| line_of(&Call::OfFirmware(call))) {
        let shorter = [1, 2, 3, 20, 41, 42, 43, line.len() - 1];
        let longer = [line.len(), line.len() + 1, line.len() + 1040, line.len() + 1041];
        shorter.into_iter().chain(longer).for_each(|length| lines.octets(&resized(&line, length)));
    }
}

/// Images and answer slices that are too long, whether the octets are there or not.
fn put_long_slices(lines: &mut Lines) {
    for (operation, length) in
        pairs(&[0x19, 0x1A, 0x1B, 0x1C], &[LONGEST_SLICE, LONGEST_SLICE + 1, 255])
    {
        for after in [0, 8, 12, 29, 37] {
            lines.octets(&resized(&[operation, length], 2 + usize::from(length) + after));
        }
    }
    for length in [LONGEST_SLICE, LONGEST_SLICE + 1, 255] {
        let line = resized(&[&[0x1B, 32], &[0; 32][..], &[length]].concat(), 35 + 255 + 12);
        lines.octets(&line);
    }
}

/// Lines of firmware with a wrong length, or a buffer that is too long.
fn put_firmware(lines: &mut Lines) {
    put_firmware_lengths(lines);
    put_long_slices(lines);
    put_lengths_with_packet(lines, 0x1D, 41);
    for n in [LONGEST, LONGEST + 1, 255] {
        let line = resized(&[&[0x1A, 32], &[0; 32][..], &[n]].concat(), 2 + 32 + 29);
        lines.octets(&line);
        let line = [&[0x1D][..], &[0; 40], &[n], &[0x23; 48]].concat();
        lines.octets(&line);
    }
}

pub fn put_lines(lines: &mut Lines) {
    put_lengths(lines, 0x08, 54);
    put_packets(lines);
    put_lengths(lines, 0x0A, 36);
    put_lengths(lines, 0x0C, 17);
    put_lengths(lines, 0x0D, 16);
    put_without_tokens(lines);
    put_lists(lines);
    put_broadcasts(lines);
    put_times(lines);
    put_firmware(lines);
    let clock = u64::from_be_bytes([1; 8]);
    let ask = Call::Ask { client: FRESH, arguments: ASK };
    let arrival = Call::Arrival { client: FRESH, t4: clock, alternate: false, packet: &[0; 48] };
    lines.octets(&with_octet(&ask, N_OF_ASK_AT, LONGEST + 1));
    lines.octets(&with_octet(&ask, PHASE_AT, 3));
    lines.octets(&with_octet(&ask, ASKED_AT, 2));
    lines.octets(&with_octet(&arrival, ALTERNATE_AT, 2));
    lines.octets(&[&[0x0B, 2], &[0; 31][..]].concat());
    let mut long = with_octet(&ask, N_OF_ASK_AT, LONGEST + 1);
    long.push(0);
    lines.octets(&long);
    for (character, length) in [(b'0', 5000), (b'0', 5001), (b'f', 70_000), (b'0', 140_001)] {
        lines.text(&vec![character; length]);
    }
    TEXTS.iter().for_each(|text| lines.text(text.as_bytes()));
}
