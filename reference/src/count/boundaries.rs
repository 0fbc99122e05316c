//! Whether lines stood on both sides of each boundary that the rules draw.

mod arrival;
mod broadcast;
mod calendar;
mod client;
mod extensions;
mod firmware;
mod ledger;
mod lists;
mod plain;
mod server;
mod tails;
mod ticks;
mod times;
mod timestamps;

use super::conformance::ARRIVAL;
use super::outcome::Outcome;
use crate::conformance::call::Call;
use crate::extension::LONGEST;
use std::collections::BTreeMap;
use std::fmt::Display;

/// Names and counts of one operation, in the order in which they are marked.
#[derive(Default)]
struct Marks {
    rows: Vec<(String, u64)>,
    /// The row to be marked next.
    at: usize,
}

impl Marks {
    fn mark(&mut self, name: impl FnOnce() -> String, held: bool) {
        if self.at == self.rows.len() {
            self.rows.push((name(), 0));
        }
        if let Some((_, count)) = self.rows.get_mut(self.at) {
            *count += u64::from(held);
        }
        self.at += 1;
    }

    /// Every line of an operation sees the same names in the same order.
    fn see(&mut self, name: &str, held: bool) {
        self.mark(|| name.to_string(), held);
    }

    /// The same with a word before the name.
    fn see_with(&mut self, word: &str, name: &str, held: bool) {
        self.mark(|| format!("{word}{name}"), held);
    }

    /// The same for each value, which stands at the end of the name.
    fn see_each<T: Copy + Display>(
        &mut self,
        name: &str,
        values: impl IntoIterator<Item = T>,
        held: impl Fn(T) -> bool,
    ) {
        for value in values {
            self.mark(|| format!("{name}{value}"), held(value));
        }
    }
}

#[derive(Default)]
pub struct Boundaries {
    marks: BTreeMap<u8, Marks>,
    /// The debt handed back by the ledger's call before, in calls that began without debt.
    owed: Option<i64>,
}

impl Boundaries {
    pub fn counts(&self) -> impl Iterator<Item = (String, u64)> {
        self.marks.iter().flat_map(|(operation, marks)| {
            let rows = marks.rows.iter();
            rows.map(move |(name, count)| (format!("{operation:02X} {name}"), *count))
        })
    }

    /// Looks at a call, its answer and what came of it.
    pub fn take(&mut self, call: &Call, answer: &[u8], outcome: Outcome) {
        let run = self.run(call, answer);
        let m = self.marks.entry(call.operation()).or_default();
        m.at = 0;
        match *call {
            Call::Difference { x, y } => timestamps::differences(m, x, y, outcome),
            Call::Measure { t1, t2, t3, t4 } => timestamps::measure(m, [t1, t2, t3, t4], outcome),
            Call::ReadFields { packet } => plain::read_fields(m, packet, outcome),
            Call::WriteFields { n, ref fields } => plain::write_fields(m, n, fields, outcome),
            Call::DateOfTimestamp { timestamp } => calendar::timestamp(m, timestamp, answer),
            Call::TimestampOfDate { ref date } => calendar::date(m, date, outcome),
            Call::Precision { tick } => plain::precision(m, tick, outcome),
            Call::Ask { ref client, ref arguments } => client::ask(m, client, arguments, outcome),
            Call::Arrival { ref client, t4, alternate, packet } => {
                let next = client::handed_back(answer);
                arrival::alternates(m, ARRIVAL, alternate, outcome);
                arrival::kisses(m, "", client, next, outcome.is_kiss().then_some(alternate));
                let half = arrival::gives_half(answer);
                arrival::arrival(m, client, t4, packet, half, outcome);
            }
            Call::GiveUp { ref client, uptime } => {
                client::give_up(m, client, uptime, client::handed_back(answer), outcome);
            }
            Call::Reply { ref settings, t2, t3, n, request } => {
                server::reply(m, settings, [t2, t3], n, request, outcome);
            }
            Call::Entry { debt, offset, half } => {
                ledger::entry(m, debt, (offset, half), outcome, run);
            }
            Call::Tick { debt, limit } => ledger::tick(m, debt, limit, answer, outcome, run),
            Call::OfList(ref call) => lists::list_call(m, call, answer, outcome),
            Call::OfBroadcast(ref call) => broadcast::broadcast_call(m, call, outcome),
            Call::OfExtension(ref call) => extensions::extension_call(m, call, answer, outcome),
            Call::OfTime(ref call) => times::time_call(m, call, answer, outcome),
            Call::OfFirmware(ref call) => firmware::firmware_call(m, call, answer, outcome),
            Call::Fresh | Call::Constants => {}
        }
    }

    /// Looks at the packet of a replayed arrival and what came of it.
    pub fn replayed(
        &mut self,
        operation: u8,
        packet: &[u8],
        outcomes: impl IntoIterator<Item = Outcome>,
        outcome: Outcome,
    ) {
        let m = self.marks.entry(operation).or_default();
        m.at = 0;
        tails::tails(m, packet, LONGEST, outcome);
        tails::with_fields(m, packet, outcomes, outcome);
        m.see("with-fields-kiss", outcome.is_kiss() && tails::has_field(packet));
    }

    /// Whether a call of the ledger gets the debt of the call before, from debt zero on.
    fn run(&mut self, call: &Call, answer: &[u8]) -> bool {
        let (Call::Entry { debt, .. } | Call::Tick { debt, .. }) = *call else {
            return false;
        };
        let run = self.owed == Some(debt);
        self.owed = ledger::handed_back(answer).filter(|_| run || debt == 0);
        run
    }
}
