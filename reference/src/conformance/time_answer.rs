//! The answers to conformance lines of Unix times and the Time Protocol.

use super::answer::{put_result, put_written};
use super::call::put_numbers;
use super::time_call::TimeCall;
use crate::{time_protocol, unix};

pub fn put_time_answer(call: &TimeCall, out: &mut Vec<u8>) {
    match *call {
        TimeCall::UnixOfTimestamp { timestamp } => {
            put_result(unix::unix_of(timestamp), out, |time, out| {
                put_numbers([time.seconds as u64], out);
                out.extend(time.nanoseconds.to_be_bytes());
            });
        }
        TimeCall::TimestampOfUnix { ref time } => {
            put_result(unix::timestamp_of(time), out, |timestamp, out| {
                put_numbers([timestamp], out);
            });
        }
        TimeCall::Answer { count, n } => {
            put_written(n, out, |buffer| time_protocol::answer(count, buffer));
        }
        TimeCall::Read { octets } => {
            put_result(time_protocol::read(octets), out, |count, out| {
                out.extend(count.to_be_bytes());
            });
        }
    }
}
