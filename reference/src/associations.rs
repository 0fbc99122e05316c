//! The associations of a gateway: docs/RULES.md, "Associations".

use crate::arrival::{self, Arrived, Told};
use crate::client::{self, Client, Phase, Token};
use crate::refusal::Refusal::{self, *};

/// As many records as a list may have.
pub const MOST: usize = 8;

/// Client records in order of preference, and the number of the one in use. Numbers count from 0.
#[derive(Clone, PartialEq, Eq, Debug)]
pub struct Associations {
    pub records: Vec<Client>,
    pub in_use: usize,
}

impl Associations {
    fn record(&self, number: usize) -> Result<&Client, Refusal> {
        self.records.get(number).ok_or(NotInList)
    }

    /// The record that a call is for, after the tests that every call begins with. An empty list is
    /// refused with its number in use, which is not in it.
    fn addressed(&self, number: usize) -> Result<&Client, Refusal> {
        NotInList.when(self.records.len() > MOST)?;
        self.record(self.in_use)?;
        let addressed = self.record(number)?;
        RecordNotLegal.when(!self.records.iter().all(client::legal))?;
        Ok(addressed)
    }

    /// The number of a record's alternate: the first that is not stopped of the records after it,
    /// then of those before it.
    pub fn alternate(&self, number: usize) -> Option<usize> {
        let mut others = (number + 1..self.records.len()).chain(0..number);
        others.find(|&n| self.record(n).is_ok_and(|record| record.phase != Phase::Stopped))
    }

    /// The same but for one record.
    fn with_record(&self, number: usize, record: Client) -> Associations {
        let numbered = self.records.iter().enumerate();
        let records = numbered.map(|(n, &old)| if n == number { record } else { old }).collect();
        Associations { records, in_use: self.in_use }
    }

    /// Writes a request for a record.
    pub fn ask(
        &self,
        number: usize,
        buffer: &mut [u8],
        version: u8,
        clock: u64,
        token: Token,
        uptime: u64,
    ) -> Result<Associations, Refusal> {
        let next = client::ask(self.addressed(number)?, buffer, version, clock, token, uptime)?;
        Ok(self.with_record(number, next))
    }

    /// The arrival of a packet for a record. After a kiss of the record in use its alternate is
    /// used, if it has one.
    pub fn arrival(
        &self,
        number: usize,
        packet: &[u8],
        t4: u64,
    ) -> Result<Arrived<Associations>, Refusal> {
        let client = self.addressed(number)?;
        let alternate = self.alternate(number);
        let Arrived { told, next } = arrival::arrival(client, packet, t4, alternate.is_some())?;
        let in_use = match (told, alternate) {
            (Told::Kiss { .. }, Some(alternate)) if number == self.in_use => alternate,
            _ => self.in_use,
        };
        let next = Associations { in_use, ..self.with_record(number, next) };
        Ok(Arrived { told, next })
    }

    /// Ends a record's wait for a reply.
    pub fn give_up(&self, number: usize, uptime: u64) -> Result<Associations, Refusal> {
        let next = client::give_up(self.addressed(number)?, uptime)?;
        Ok(self.with_record(number, next))
    }
}
