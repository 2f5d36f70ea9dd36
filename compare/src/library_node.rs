//! The node's calls in the static library. Table and runs of bytes are passed as a pointer and a length, head and answer by value.

use crate::library::{read, write};
use crate::link_call::{Call, Naming};
use crate::link_step::Record;
use crate::node_call::{Answered, Asked, Frame, Head, Whose};

#[rustfmt::skip]
extern "C" {
    fn uj_new_head(own: u32) -> Head;
    fn uj_fresh(partner: u32, partner_sap: u32, local_sap: u32, level: u32) -> Record;
    fn uj_open(table: *mut Record, count: usize, head: Head, time: u64, place: usize, random: u32, named: u32, idle_time: u32, net: *const u8,
               net_length: usize, out: *mut u8, out_length: usize) -> Answered;
    fn uj_close(table: *mut Record, count: usize, head: Head, time: u64, place: usize, new_setup: u32, reason: u32, text: *const u8,
                text_length: usize, out: *mut u8, out_length: usize) -> Answered;
    fn uj_send(table: *mut Record, count: usize, head: Head, time: u64, place: usize, command: u32, net: *const u8, net_length: usize, out: *mut u8,
               out_length: usize) -> Answered;
    fn uj_received(table: *mut Record, count: usize, head: Head, time: u64, sender: u32, destination_sap: u32, source_sap: u32, random: u32,
                   named: u32, idle_time: u32, telegram: *const u8, telegram_length: usize, net: *const u8, net_length: usize, out: *mut u8,
                   out_length: usize) -> Answered;
    fn uj_tick(table: *mut Record, count: usize, head: Head, time: u64, place: usize, out: *mut u8, out_length: usize) -> Answered;
}

pub fn new_head(own: u32) -> Head {
    // SAFETY: the function takes and gives plain numbers.
    unsafe { uj_new_head(own) }
}

pub fn fresh(partner: u32, partner_sap: u32, local_sap: u32, level: u32) -> Record {
    // SAFETY: as above.
    unsafe { uj_fresh(partner, partner_sap, local_sap, level) }
}

/// The library's call. A telegram received has a frame, every other call a place.
#[rustfmt::skip]
pub fn call(asked: &Asked, table: &mut [Record], out: &mut [u8]) -> Answered {
    let Asked { head, time, whose, ref call } = *asked;
    let Naming { named, idle_time } = call.naming();
    let ((net, n), (text, m), (telegram, l)) = (read(call.net()), read(call.text()), read(call.telegram()));
    let ((table, count), (out, room)) = (write(table), write(out));
    // SAFETY: the runs are readable, `table` and `out` writable, for their lengths; borrowed mutably, these two overlap no other run.
    match (whose, call) {
        (Whose::Place(place), Call::Open { random, .. }) => unsafe {
            uj_open(table, count, head, time, place, *random, named, idle_time, net, n, out, room)
        },
        (Whose::Place(place), Call::Close { new_setup, reason, .. }) => unsafe {
            uj_close(table, count, head, time, place, *new_setup, *reason, text, m, out, room)
        },
        (Whose::Place(place), Call::Send { command, .. }) => unsafe {
            uj_send(table, count, head, time, place, *command, net, n, out, room)
        },
        (Whose::Place(place), Call::Tick { .. }) => unsafe {
            uj_tick(table, count, head, time, place, out, room)
        },
        (Whose::Frame(Frame { sender, destination_sap, source_sap }), Call::Received { random, .. }) => unsafe {
            uj_received(table, count, head, time, sender, destination_sap, source_sap, *random, named, idle_time, telegram, l, net, n, out, room)
        },
        (Whose::Frame(_), _) | (Whose::Place(_), Call::Received { .. }) => panic!("a telegram received, and no other call, has a frame"),
    }
}
