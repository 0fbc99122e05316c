//! The answers to conformance lines of C firmware: the number, and each lent slice as it stands after
//! the call.

use super::answer::{FILLED, lent};
use super::firmware_call::FirmwareCall;
use crate::firmware;

pub fn put_firmware_answer(call: &FirmwareCall, out: &mut Vec<u8>) {
    let mut space = FILLED;
    match *call {
        FirmwareCall::Fresh { ref image } => {
            let mut image = image.clone();
            out.push(firmware::fresh(&mut image));
            out.extend(image);
        }
        FirmwareCall::Ask { ref image, n, version, clock, token, uptime } => {
            let (mut image, buffer) = (image.clone(), lent(&mut space, n));
            out.push(firmware::ask(&mut image, buffer, version, clock, token, uptime));
            out.extend(image);
            out.extend_from_slice(buffer);
        }
        FirmwareCall::Arrival { ref image, ref answer, t4, alternate, packet } => {
            let (mut image, mut answer) = (image.clone(), answer.clone());
            out.push(firmware::arrival(&mut image, &mut answer, packet, t4, alternate));
            out.extend(image);
            out.extend(answer);
        }
        FirmwareCall::GiveUp { ref image, uptime } => {
            let mut image = image.clone();
            out.push(firmware::give_up(&mut image, uptime));
            out.extend(image);
        }
        FirmwareCall::Reply { ref settings, t2, t3, n, request } => {
            let buffer = lent(&mut space, n);
            out.push(firmware::reply(settings, t2, t3, request, buffer));
            out.extend_from_slice(buffer);
        }
    }
}
