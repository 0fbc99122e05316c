//! Extension fields.

use crate::{lent, lent_mut, written};
use reference::extension::{self, AUTHENTICATORS, Field, HEAD, boundaries};
use reference::packet;
use reference::refusal::Refusal::{self, *};

#[unsafe(no_mangle)]
pub unsafe extern "C" fn independent_fields(
    packet: *const u8,
    packet_length: usize,
    cursor: &mut usize,
) -> u32 {
    let tail = extension::tail(unsafe { lent(packet, packet_length) });
    written(tail, |_| *cursor = packet::LENGTH)
}

/// The type and the whole length of the field that some octets begin with; none at the end of the
/// fields, which is where nothing or an authenticator is left.
fn first_field(left: &[u8]) -> Result<Option<(u16, usize)>, Refusal> {
    if let (Some(after), [a, b, ..]) = (boundaries(left).nth(1), left) {
        return Ok(Some((u16::from_be_bytes([*a, *b]), left.len() - after.len())));
    }
    PacketLengthWrong.when(!left.is_empty() && !AUTHENTICATORS.contains(&left.len()))?;
    Ok(None)
}

/// Past the end of the packet no octets are left.
#[unsafe(no_mangle)]
pub unsafe extern "C" fn independent_next_field(
    packet: *const u8,
    packet_length: usize,
    cursor: &mut usize,
    found: &mut u32,
    field_type: &mut u32,
    start: &mut usize,
    end: &mut usize,
) -> u32 {
    let packet = unsafe { lent(packet, packet_length) };
    let field = first_field(packet.get(*cursor..).unwrap_or_default());
    written(field, |field| {
        *found = field.is_some().into();
        if let Some((kind, length)) = field {
            *field_type = kind.into();
            *start = *cursor + HEAD;
            *end = *cursor + length;
            *cursor = *end;
        }
    })
}

#[unsafe(no_mangle)]
pub unsafe extern "C" fn independent_add_field(
    buffer: *mut u8,
    buffer_length: usize,
    size: &mut usize,
    field_type: u32,
    body: *const u8,
    body_length: usize,
) -> u32 {
    let buffer = unsafe { lent_mut(buffer, buffer_length) };
    let body = unsafe { lent(body, body_length) };
    let kind = u16::try_from(field_type).map_err(|_| FieldTooLarge);
    let added = kind.and_then(|kind| extension::add(buffer, *size, Field { kind, body }));
    written(added, |length| *size = length)
}
