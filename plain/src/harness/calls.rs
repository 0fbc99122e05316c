//! The calls of the proved archive and of plain Rust, both through the C ABI. No other file of the
//! program has unsafe code.

#![allow(unsafe_code)]

use plain_sntp::c_calls::FIELDS;
use plain_sntp::c_entry;
use plain_sntp::server::Settings;

type ReadFields = unsafe extern "C" fn(*const u8, usize, *mut u64) -> u32;
type WriteFields = unsafe extern "C" fn(*const u64, *mut u8, usize) -> u32;
type Ask = unsafe extern "C" fn(*mut u8, usize, *mut u8, usize, u32, u64, u64, u64) -> u32;
type Arrival =
    unsafe extern "C" fn(*mut u8, usize, *mut u8, usize, u64, u32, *const u8, usize) -> u32;
type Reply = unsafe extern "C" fn(
    u32,
    u32,
    i32,
    u32,
    u64,
    u64,
    u64,
    *mut u8,
    usize,
    *const u8,
    usize,
) -> u32;
type ReplyBlock = unsafe extern "C" fn(
    u32,
    u32,
    i32,
    u32,
    u64,
    *const u8,
    usize,
    *const u64,
    usize,
    *mut u8,
    usize,
    *mut u8,
    usize,
) -> usize;

#[link(name = "pongulvesz", kind = "static")]
unsafe extern "C" {
    fn pongulvesz_read_fields(packet: *const u8, packet_length: usize, fields: *mut u64) -> u32;

    fn pongulvesz_write_fields(fields: *const u64, buffer: *mut u8, buffer_length: usize) -> u32;

    fn pongulvesz_ask(
        image: *mut u8,
        image_length: usize,
        buffer: *mut u8,
        buffer_length: usize,
        version: u32,
        clock: u64,
        token: u64,
        uptime: u64,
    ) -> u32;

    fn pongulvesz_arrival(
        image: *mut u8,
        image_length: usize,
        answer: *mut u8,
        answer_length: usize,
        t4: u64,
        alternate: u32,
        packet: *const u8,
        packet_length: usize,
    ) -> u32;

    fn pongulvesz_reply(
        synchronised: u32,
        leap: u32,
        precision: i32,
        identifier: u32,
        reference: u64,
        t2: u64,
        t3: u64,
        buffer: *mut u8,
        buffer_length: usize,
        request: *const u8,
        request_length: usize,
    ) -> u32;

    fn pongulvesz_reply_block(
        synchronised: u32,
        leap: u32,
        precision: i32,
        identifier: u32,
        reference: u64,
        requests: *const u8,
        requests_length: usize,
        times: *const u64,
        times_count: usize,
        replies: *mut u8,
        replies_length: usize,
        numbers: *mut u8,
        numbers_length: usize,
    ) -> usize;
}

/// The calls of one side.
pub struct Calls {
    read_fields: ReadFields,
    write_fields: WriteFields,
    ask: Ask,
    arrival: Arrival,
    reply: Reply,
    reply_block: ReplyBlock,
}

pub const PROVED: Calls = Calls {
    read_fields: pongulvesz_read_fields,
    write_fields: pongulvesz_write_fields,
    ask: pongulvesz_ask,
    arrival: pongulvesz_arrival,
    reply: pongulvesz_reply,
    reply_block: pongulvesz_reply_block,
};

pub const PLAIN: Calls = Calls {
    read_fields: c_entry::plain_read_fields,
    write_fields: c_entry::plain_write_fields,
    ask: c_entry::plain_ask,
    arrival: c_entry::plain_arrival,
    reply: c_entry::plain_reply,
    reply_block: c_entry::plain_reply_block,
};

impl Calls {
    #[inline(always)]
    pub fn read_fields(&self, packet: &[u8], fields: &mut [u64; FIELDS]) -> u32 {
        // Safe: each pointer goes with the length that it is read or written for, and what is
        // written is borrowed for writing.
        unsafe { (self.read_fields)(packet.as_ptr(), packet.len(), fields.as_mut_ptr()) }
    }

    #[inline(always)]
    pub fn write_fields(&self, fields: &[u64; FIELDS], buffer: &mut [u8]) -> u32 {
        // Safe: as in read_fields.
        unsafe { (self.write_fields)(fields.as_ptr(), buffer.as_mut_ptr(), buffer.len()) }
    }

    /// `times` are the clock reading and the token.
    #[inline(always)]
    pub fn ask(
        &self,
        image: &mut [u8],
        buffer: &mut [u8],
        version: u32,
        times: &[u64],
        uptime: u64,
    ) -> u32 {
        // Safe: as in read_fields.
        unsafe {
            (self.ask)(
                image.as_mut_ptr(),
                image.len(),
                buffer.as_mut_ptr(),
                buffer.len(),
                version,
                times[0],
                times[1],
                uptime,
            )
        }
    }

    #[inline(always)]
    pub fn arrival(
        &self,
        image: &mut [u8],
        answer: &mut [u8],
        t4: u64,
        alternate: u32,
        packet: &[u8],
    ) -> u32 {
        // Safe: as in read_fields.
        unsafe {
            (self.arrival)(
                image.as_mut_ptr(),
                image.len(),
                answer.as_mut_ptr(),
                answer.len(),
                t4,
                alternate,
                packet.as_ptr(),
                packet.len(),
            )
        }
    }

    /// `times` are T2 and T3.
    #[inline(always)]
    pub fn reply(
        &self,
        settings: &Settings,
        times: &[u64],
        buffer: &mut [u8],
        request: &[u8],
    ) -> u32 {
        // Safe: as in read_fields.
        unsafe {
            (self.reply)(
                settings.synchronised.into(),
                settings.leap.into(),
                settings.precision.into(),
                settings.identifier,
                settings.reference.0,
                times[0],
                times[1],
                buffer.as_mut_ptr(),
                buffer.len(),
                request.as_ptr(),
                request.len(),
            )
        }
    }

    #[inline(always)]
    pub fn reply_block(
        &self,
        settings: &Settings,
        requests: &[u8],
        times: &[u64],
        replies: &mut [u8],
        numbers: &mut [u8],
    ) -> usize {
        // Safe: as in read_fields.
        unsafe {
            (self.reply_block)(
                settings.synchronised.into(),
                settings.leap.into(),
                settings.precision.into(),
                settings.identifier,
                settings.reference.0,
                requests.as_ptr(),
                requests.len(),
                times.as_ptr(),
                times.len(),
                replies.as_mut_ptr(),
                replies.len(),
                numbers.as_mut_ptr(),
                numbers.len(),
            )
        }
    }
}
