//! The server's replies to a block of requests.

use crate::packet::LENGTH;
use crate::refusal::Refusal;
use crate::server::{Settings, reply};
use crate::timestamp::Timestamp;

/// Answers as many requests as all four slices have room for and returns their count.
/// `times` has the receive and the transmit timestamp of each request side by side.
#[inline(always)]
pub fn reply_block(
    settings: &Settings,
    requests: &[u8],
    times: &[u64],
    replies: &mut [u8],
    numbers: &mut [u8],
) -> usize {
    let requests = requests.chunks_exact(LENGTH);
    let times = times.chunks_exact(2);
    let replies = replies.chunks_exact_mut(LENGTH);
    let mut count = 0;
    for (((request, time), buffer), number) in requests.zip(times).zip(replies).zip(numbers) {
        let (received, answered) = (Timestamp(time[0]), Timestamp(time[1]));
        let answer = reply(settings, request, received, answered, buffer);
        *number = answer.map_or_else(Refusal::number, |()| 0);
        count += 1;
    }
    count
}

#[cfg(test)]
mod tests {
    use super::*;

    #[test]
    fn the_shortest_slice_decides() {
        let settings = Settings {
            synchronised: true,
            leap: 0,
            precision: -20,
            identifier: 0,
            reference: Timestamp(1),
        };
        let (requests, times) = ([0x23; 144], [1; 6]);
        for (lengths, expected) in [
            ([144, 6, 144, 3], 3),
            ([143, 6, 144, 3], 2),
            ([144, 5, 144, 3], 2),
            ([144, 6, 95, 3], 1),
            ([144, 6, 144, 0], 0),
        ] {
            let [from, at, to, of] = lengths;
            let (mut replies, mut numbers) = (vec![0; to], vec![9; of]);
            let (requests, times) = (&requests[..from], &times[..at]);
            let count = reply_block(&settings, requests, times, &mut replies, &mut numbers);
            assert_eq!(count, expected);
        }
    }

    #[test]
    fn each_request_has_its_number() {
        let settings = Settings {
            synchronised: false,
            leap: 0,
            precision: 1,
            identifier: 0,
            reference: Timestamp(1),
        };
        let mut requests = [0x23; 48 * 3];
        requests[0] = 0x24;
        requests[48] = 0x03;
        let (mut replies, mut numbers) = ([0; 48 * 3], [9; 3]);
        reply_block(&settings, &requests, &[0; 6], &mut replies, &mut numbers);
        assert_eq!(numbers, [21, 22, 23]);
        assert_eq!(replies, [0; 48 * 3]);
    }
}
