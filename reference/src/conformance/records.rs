//! The values that stand in conformance lines as a row of octets: client records, packet fields,
//! dates and the server's settings.

use super::call::Malformed;
use crate::calendar::Date;
use crate::client::{Client, Phase, Token};
use crate::octets::{Reader, Short};
use crate::packet::Fields;
use crate::server::Settings;

/// Octets of a client record, and those from its phase to its token and to its flag.
pub const RECORD: usize = 28;
pub const TOKEN_AFTER_PHASE: usize = 9;
pub const ASKED_AFTER_PHASE: usize = 18;

/// A flag, which is 00 or 01.
pub fn read_flag(octets: &mut Reader) -> Result<bool, Malformed> {
    match octets.u8()? {
        0 => Ok(false),
        1 => Ok(true),
        _ => Err(Malformed::Flag),
    }
}

fn read_phase(octets: &mut Reader) -> Result<Phase, Malformed> {
    match octets.u8()? {
        0 => Ok(Phase::Idle),
        1 => Ok(Phase::Waiting),
        2 => Ok(Phase::Stopped),
        _ => Err(Malformed::Phase),
    }
}

pub fn read_client(octets: &mut Reader) -> Result<Client, Malformed> {
    Ok(Client {
        phase: read_phase(octets)?,
        t1: octets.u64()?,
        token: Token(octets.u64()?),
        version: octets.u8()?,
        asked: read_flag(octets)?,
        uptime: octets.u64()?,
        exponent: octets.u8()?,
    })
}

pub fn put_client(client: &Client, out: &mut Vec<u8>) {
    out.push(match client.phase {
        Phase::Idle => 0,
        Phase::Waiting => 1,
        Phase::Stopped => 2,
    });
    out.extend(client.t1.to_be_bytes());
    out.extend(client.token.0.to_be_bytes());
    out.push(client.version);
    out.push(client.asked.into());
    out.extend(client.uptime.to_be_bytes());
    out.push(client.exponent);
}

pub fn read_fields(octets: &mut Reader) -> Result<Fields, Short> {
    Ok(Fields {
        leap: octets.u8()?,
        version: octets.u8()?,
        mode: octets.u8()?,
        stratum: octets.u8()?,
        poll: octets.u8()?,
        precision: octets.i8()?,
        root_delay: octets.i32()?,
        root_dispersion: octets.u32()?,
        identifier: octets.octets()?,
        reference: octets.u64()?,
        originate: octets.u64()?,
        receive: octets.u64()?,
        transmit: octets.u64()?,
    })
}

pub fn put_fields(fields: &Fields, out: &mut Vec<u8>) {
    out.extend([fields.leap, fields.version, fields.mode, fields.stratum, fields.poll]);
    out.extend(fields.precision.to_be_bytes());
    out.extend(fields.root_delay.to_be_bytes());
    out.extend(fields.root_dispersion.to_be_bytes());
    out.extend(fields.identifier);
    out.extend(fields.reference.to_be_bytes());
    out.extend(fields.originate.to_be_bytes());
    out.extend(fields.receive.to_be_bytes());
    out.extend(fields.transmit.to_be_bytes());
}

pub fn read_date(octets: &mut Reader) -> Result<Date, Short> {
    Ok(Date {
        year: octets.u32()?,
        month: octets.u8()?,
        day: octets.u8()?,
        hour: octets.u8()?,
        minute: octets.u8()?,
        second: octets.u8()?,
        fraction: octets.u32()?,
    })
}

pub fn put_date(date: &Date, out: &mut Vec<u8>) {
    out.extend(date.year.to_be_bytes());
    out.extend([date.month, date.day, date.hour, date.minute, date.second]);
    out.extend(date.fraction.to_be_bytes());
}

pub fn read_settings(octets: &mut Reader) -> Result<Settings, Malformed> {
    Ok(Settings {
        synchronised: read_flag(octets)?,
        leap: octets.u8()?,
        precision: octets.i8()?,
        identifier: octets.octets()?,
        reference: octets.u64()?,
    })
}

pub fn put_settings(settings: &Settings, out: &mut Vec<u8>) {
    out.extend([settings.synchronised.into(), settings.leap]);
    out.extend(settings.precision.to_be_bytes());
    out.extend(settings.identifier);
    out.extend(settings.reference.to_be_bytes());
}
