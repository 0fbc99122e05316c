//! The client's calls over a block of packets, a call for each, by either side. What a call gave is
//! folded into a sum modulo 2^64.

use plain_sntp::c_calls::{ANSWER, FIELDS, IMAGE, write_image};
use plain_sntp::packet::LENGTH;

use super::calls::Calls;
use super::replies::ClientBlock;

#[inline(always)]
pub fn read(block: &mut ClientBlock, calls: &Calls) -> u64 {
    let mut fields = [0; FIELDS];
    let mut sum = 0_u64;
    for packet in block.packets.chunks_exact(LENGTH) {
        sum = sum.wrapping_add(calls.read_fields(packet, &mut fields).into());
        sum = fields.iter().fold(sum, |sum, n| sum.wrapping_add(*n));
    }
    sum
}

/// Writes the fields with another transmit timestamp for each packet.
#[inline(always)]
pub fn write(block: &mut ClientBlock, calls: &Calls) -> u64 {
    let mut sum = 0;
    let packets = block.packets.chunks_exact_mut(LENGTH);
    for (&transmit, buffer) in block.times.iter().zip(packets) {
        block.fields[FIELDS - 1] = transmit;
        sum += u64::from(calls.write_fields(&block.fields, buffer));
    }
    sum
}

/// A client that has never asked asks for each pair of clock reading and token.
#[inline(always)]
pub fn ask(block: &mut ClientBlock, calls: &Calls) -> u64 {
    let (version, uptime) = (block.client.request.version.into(), block.client.uptime);
    let mut sum = 0_u64;
    let packets = block.packets.chunks_exact_mut(LENGTH);
    for (time, buffer) in block.times.chunks_exact(2).zip(packets) {
        let mut image = [0; IMAGE];
        let number = calls.ask(&mut image, buffer, version, time, uptime);
        sum = sum.wrapping_add(number.into()).wrapping_add(folded(&image));
    }
    sum
}

/// Each packet arrives at its own time at a client with this record.
#[inline(always)]
pub fn arrival(block: &mut ClientBlock, calls: &Calls) -> u64 {
    let mut waiting = [0; IMAGE];
    write_image(&mut waiting, &block.client);
    let mut sum = 0_u64;
    let packets = block.packets.chunks_exact(LENGTH);
    for (&t4, packet) in block.times.iter().zip(packets) {
        let (mut image, mut answer) = (waiting, [0; ANSWER]);
        let alternate = block.alternate.into();
        let number = calls.arrival(&mut image, &mut answer, t4, alternate, packet);
        sum = sum.wrapping_add(number.into());
        sum = sum
            .wrapping_add(folded(&image))
            .wrapping_add(folded(&answer));
    }
    sum
}

fn folded(octets: &[u8]) -> u64 {
    octets.chunks_exact(8).fold(0, |sum: u64, part| {
        sum.wrapping_add(part.try_into().map_or(0, u64::from_le_bytes))
    })
}
