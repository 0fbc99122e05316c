//! The fixed lines that every conformance stream begins with: the figures of the rules, each
//! length, each kiss row, both sides of each limit, and each kind of malformed line.

mod additions;
mod broadcasts;
mod calendar;
mod clients;
mod exchanges;
mod firmware;
mod ledger;
mod lists;
mod malformed;
mod tails;
mod ticks;
mod times;
mod timestamps;

use crate::associations::Associations;
use crate::conformance::call::Call;
use crate::conformance::firmware_call::FirmwareCall;
use crate::conformance::list_call::{ListCall, RecordCall};
use crate::hex_lines::put_hex;

/// One second, which the figures of the rules take as T1.
const T: u64 = 1 << 32;

/// Lines as text, without line feeds.
struct Lines(Vec<Vec<u8>>);

impl Lines {
    /// A call; one of a client or a server also as C firmware makes it.
    fn call(&mut self, call: Call) {
        let mut line = Vec::new();
        call.put(&mut line);
        self.octets(&line);
        if let Some(firmware) = FirmwareCall::of(&call) {
            self.call(Call::OfFirmware(firmware));
        }
    }

    fn calls<'a>(&mut self, calls: impl IntoIterator<Item = Call<'a>>) {
        calls.into_iter().for_each(|call| self.call(call));
    }

    fn list_call(&mut self, list: Associations, number: usize, call: RecordCall) {
        self.call(Call::OfList(ListCall { list, number, call }));
    }

    fn octets(&mut self, octets: &[u8]) {
        let mut text = Vec::new();
        put_hex(octets, &mut text);
        self.text(&text);
    }

    fn text(&mut self, text: &[u8]) {
        self.0.push(text.to_vec());
    }
}

/// Every pair of a value of the first list and one of the second.
fn pairs<A: Copy, B: Copy>(first: &[A], second: &[B]) -> impl Iterator<Item = (A, B)> {
    first.iter().flat_map(move |&a| second.iter().map(move |&b| (a, b)))
}

pub fn lines() -> Vec<Vec<u8>> {
    let mut lines = Lines(Vec::new());
    timestamps::put_lines(&mut lines);
    calendar::put_lines(&mut lines);
    times::put_lines(&mut lines);
    ticks::put_lines(&mut lines);
    exchanges::put_lines(&mut lines);
    clients::put_lines(&mut lines);
    lists::put_lines(&mut lines);
    broadcasts::put_lines(&mut lines);
    tails::put_lines(&mut lines);
    additions::put_lines(&mut lines);
    ledger::put_lines(&mut lines);
    firmware::put_lines(&mut lines);
    malformed::put_lines(&mut lines);
    lines.0
}

/// The lines of firmware's operations.
pub fn firmware_lines() -> Vec<Vec<u8>> {
    let operations: [&[u8]; 5] = [b"19", b"1A", b"1B", b"1C", b"1D"];
    let of_firmware = |line: &Vec<u8>| operations.iter().any(|digits| line.starts_with(digits));
    lines().into_iter().filter(of_firmware).collect()
}

#[cfg(test)]
mod tests {
    #[test]
    fn there_are_enough() {
        let count = super::lines().len();
        assert!((34_400..35_400).contains(&count), "{count}");
    }
}
