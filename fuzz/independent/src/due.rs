//! When to call next: the first uptime at which the client's own call is not too soon, found by
//! halving the uptimes that are left.

use crate::{lent, written};
use reference::client::{self, Client, Token};
use reference::image;
use reference::packet;
use reference::refusal::Refusal;

/// The first uptime at which a call is not refused. A call that is refused at the last uptime is
/// refused at every one.
fn first_uptime(call: impl Fn(u64) -> Result<Client, Refusal>) -> Result<u64, Refusal> {
    let (mut first, mut last) = (0, u64::MAX);
    call(last)?;
    while first < last {
        let middle = first + (last - first) / 2;
        if call(middle).is_ok() {
            last = middle;
        } else {
            first = middle + 1;
        }
    }
    Ok(first)
}

#[unsafe(no_mangle)]
pub unsafe extern "C" fn independent_ask_due(
    image: *const u8,
    image_length: usize,
    uptime: &mut u64,
) -> u32 {
    let client = image::read(unsafe { lent(image, image_length) });
    let due = client.and_then(|client| {
        first_uptime(|uptime| {
            client::ask(&client, &mut [0; packet::LENGTH], 4, 1, Token(1), uptime)
        })
    });
    written(due, |due| *uptime = due)
}

#[unsafe(no_mangle)]
pub unsafe extern "C" fn independent_give_up_due(
    image: *const u8,
    image_length: usize,
    uptime: &mut u64,
) -> u32 {
    let client = image::read(unsafe { lent(image, image_length) });
    let due = client.and_then(|client| first_uptime(|uptime| client::give_up(&client, uptime)));
    written(due, |due| *uptime = due)
}
