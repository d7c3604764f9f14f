//! The proved calls, out of the archive that `tools/hostlib firmware` makes. With the feature
//! `archive` alone, since the archive is not always there; `build.rs` finds it.

use std::ptr;

use crate::firmware::Calls;

/// The archive's six calls.
pub const ARCHIVE: Calls = Calls {
    fresh,
    packet,
    time,
    deliver,
    fetch,
    check,
};

// As in include/bellaqsum.h.
extern "C" {
    fn bq_fresh(block: *mut u8, block_len: usize) -> u64;
    fn bq_packet(
        block: *mut u8,
        block_len: usize,
        packet: *const u8,
        packet_len: usize,
        reply: *mut u8,
        reply_len: usize,
        message: *mut u8,
        message_len: usize,
    ) -> u64;
    fn bq_time(block: *mut u8, block_len: usize, ms: u32, reply: *mut u8, reply_len: usize) -> u64;
    fn bq_deliver(
        block: *mut u8,
        block_len: usize,
        ticket: u32,
        bytes: *const u8,
        len: usize,
        message: *mut u8,
        message_len: usize,
    ) -> u64;
    fn bq_fetch(
        block: *mut u8,
        block_len: usize,
        reply: *mut u8,
        reply_len: usize,
        message: *const u8,
        message_len: usize,
    ) -> u64;
    fn bq_check(message: *const u8, message_len: usize) -> u64;
}

// SAFETY, of all six: a slice stands for as many bytes as its length says, one to be written is
// borrowed by nobody else, and the archive keeps no pointer.

fn fresh(block: &mut [u8]) -> u64 {
    unsafe { bq_fresh(start_mut(block), block.len()) }
}

fn packet(block: &mut [u8], packet: &[u8], reply: &mut [u8], message: &mut [u8]) -> u64 {
    unsafe {
        bq_packet(
            start_mut(block),
            block.len(),
            start(packet),
            packet.len(),
            start_mut(reply),
            reply.len(),
            start_mut(message),
            message.len(),
        )
    }
}

fn time(block: &mut [u8], elapsed: u32, reply: &mut [u8]) -> u64 {
    unsafe {
        bq_time(
            start_mut(block),
            block.len(),
            elapsed,
            start_mut(reply),
            reply.len(),
        )
    }
}

fn deliver(block: &mut [u8], ticket: u32, bytes: &[u8], message: &mut [u8]) -> u64 {
    unsafe {
        bq_deliver(
            start_mut(block),
            block.len(),
            ticket,
            start(bytes),
            bytes.len(),
            start_mut(message),
            message.len(),
        )
    }
}

fn fetch(block: &mut [u8], reply: &mut [u8], message: &[u8]) -> u64 {
    unsafe {
        bq_fetch(
            start_mut(block),
            block.len(),
            start_mut(reply),
            reply.len(),
            start(message),
            message.len(),
        )
    }
}

fn check(message: &[u8]) -> u64 {
    unsafe { bq_check(start(message), message.len()) }
}

/// The pointer to lent bytes. Where there are none it is NULL, which the header allows: a call that
/// reads there ends the test at once.
fn start(bytes: &[u8]) -> *const u8 {
    match bytes {
        [] => ptr::null(),
        _ => bytes.as_ptr(),
    }
}

fn start_mut(bytes: &mut [u8]) -> *mut u8 {
    match bytes {
        [] => ptr::null_mut(),
        _ => bytes.as_mut_ptr(),
    }
}
