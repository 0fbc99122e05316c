//! The arrival of a packet at the client: docs/RULES.md, "The client".

use crate::client::{Client, LEAST_EXPONENT, Phase, Token, legal, raised, without_request};
use crate::kiss;
use crate::packet::{self, Fields};
use crate::refusal::Refusal::{self, *};
use crate::timestamp::{self, Measured};

/// One second of root delay or root dispersion.
const ROOT_SECOND: u32 = 1 << 16;

/// What an arrival that is not refused tells.
#[derive(Clone, Copy, PartialEq, Eq, Debug)]
pub enum Told {
    Accepted(Measured),
    Kiss { code: [u8; 4], row: u8 },
}

/// An arrival that is not refused: what it tells, and the next record or list.
#[derive(Clone, Copy, PartialEq, Eq, Debug)]
pub struct Arrived<T = Client> {
    pub told: Told,
    pub next: T,
}

/// `alternate` says whether there is another server to go to, and is looked at in a kiss alone.
pub fn arrival(
    client: &Client,
    packet: &[u8],
    t4: u64,
    alternate: bool,
) -> Result<Arrived, Refusal> {
    RecordNotLegal.when(!legal(client))?;
    let fields = packet::read(packet)?;
    NotWaiting.when(client.phase != Phase::Waiting)?;
    OriginateMismatch.when(Token(fields.originate) != client.token)?;
    ReplyModeWrong.when(fields.mode != 4)?;
    VersionMismatch.when(fields.version != client.version)?;
    if fields.stratum == 0 {
        return Ok(kissed(client, fields.identifier, alternate));
    }
    OwnClockZero.when(t4 == 0)?;
    test_fields(&fields)?;
    let measured = timestamp::measure(client.t1, fields.receive, fields.transmit, t4)?;
    let next = without_request(client, Phase::Idle, LEAST_EXPONENT);
    Ok(Arrived { told: Told::Accepted(measured), next })
}

/// With an alternate the client stops; without one it backs off.
fn kissed(client: &Client, code: [u8; 4], alternate: bool) -> Arrived {
    let next = if alternate {
        without_request(client, Phase::Stopped, client.exponent)
    } else {
        without_request(client, Phase::Idle, raised(client.exponent))
    };
    Arrived { told: Told::Kiss { code, row: kiss::row(code) }, next }
}

/// The tests of a reply that need nothing but its own fields.
fn test_fields(fields: &Fields) -> Result<(), Refusal> {
    ServerUnsynchronised.when(fields.leap == 3)?;
    StratumTooHigh.when(fields.stratum > 15)?;
    ServerTimestampZero.when(fields.receive == 0 || fields.transmit == 0)?;
    RootDelayOutOfRange.when(fields.root_delay < 0 || fields.root_delay >= ROOT_SECOND as i32)?;
    RootDispersionTooLarge.when(fields.root_dispersion >= ROOT_SECOND)
}
