//! The answers to conformance lines of extension fields.

use super::answer::put_result;
use super::extension_call::{Addition, ExtensionCall};
use crate::extension;
use crate::refusal::number_of;

pub fn put_extension_answer(call: &ExtensionCall, out: &mut Vec<u8>) {
    match call {
        ExtensionCall::Read { packet } => put_fields(packet, out),
        ExtensionCall::Add(addition) => put_added(addition, out),
    }
}

/// How many fields a packet has, then the type, the body's length and the body of each.
fn put_fields(packet: &[u8], out: &mut Vec<u8>) {
    put_result(extension::tail(packet), out, |tail, out| {
        out.push(tail.fields().count() as u8);
        for field in tail.fields() {
            let head = [field.kind, field.body.len() as u16];
            out.extend(head.map(u16::to_be_bytes).as_flattened());
            out.extend_from_slice(field.body);
        }
    });
}

/// The number, the new length of the packet, and the buffer.
fn put_added(addition: &Addition, out: &mut Vec<u8>) {
    let mut buffer = addition.buffer();
    let result = extension::add(&mut buffer, addition.packet_length.into(), addition.field);
    out.push(number_of(&result));
    out.extend((result.unwrap_or(0) as u16).to_be_bytes());
    out.extend_from_slice(&buffer);
}
