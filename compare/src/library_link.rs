//! The steps of one connection in the static library. A run of bytes is passed as a pointer and a length, record and answer by value.

use crate::library::{read, write};
use crate::link_call::Call;
use crate::link_step::{Record, Step, Stepped};

#[rustfmt::skip]
extern "C" {
    fn uj_link_open(record: Record, own: u32, time: u64, random: u32, named: u32, idle_time: u32, net: *const u8, net_length: usize, out: *mut u8,
                    out_length: usize) -> Stepped;
    fn uj_link_close(record: Record, own: u32, new_setup: u32, reason: u32, text: *const u8, text_length: usize, out: *mut u8,
                     out_length: usize) -> Stepped;
    fn uj_link_send(record: Record, own: u32, time: u64, command: u32, net: *const u8, net_length: usize, out: *mut u8, out_length: usize) -> Stepped;
    fn uj_link_received(record: Record, own: u32, time: u64, random: u32, named: u32, idle_time: u32, telegram: *const u8, telegram_length: usize,
                        net: *const u8, net_length: usize, out: *mut u8, out_length: usize) -> Stepped;
    fn uj_link_tick(record: Record, own: u32, time: u64, out: *mut u8, out_length: usize) -> Stepped;
}

/// The library's step.
pub fn step(step: &Step, out: &mut [u8]) -> Stepped {
    let Step { record, own, ref call } = *step;
    let ((net, n), (text, m), (telegram, l), (out, room)) = (read(call.net()), read(call.text()), read(call.telegram()), write(out));
    // SAFETY: the runs are readable, `out` writable, for their lengths, and `out`, borrowed mutably, overlaps no other run.
    match *call {
        Call::Open { time, random, naming, .. } => unsafe {
            uj_link_open(record, own, time, random, naming.named, naming.idle_time, net, n, out, room)
        },
        Call::Close { new_setup, reason, .. } => unsafe { uj_link_close(record, own, new_setup, reason, text, m, out, room) },
        Call::Send { time, command, .. } => unsafe { uj_link_send(record, own, time, command, net, n, out, room) },
        Call::Received { time, random, naming, .. } => unsafe {
            uj_link_received(record, own, time, random, naming.named, naming.idle_time, telegram, l, net, n, out, room)
        },
        Call::Tick { time } => unsafe { uj_link_tick(record, own, time, out, room) },
    }
}
