//! The functions of the static library, as include/ujamniq.h declares them. A run of bytes is passed as a pointer and a length.

use crate::telegram::End;

/// What a writer did.
#[repr(C)]
#[derive(Clone, Copy, PartialEq, Debug)]
pub struct Written {
    pub answer: u32,
    pub length: u32,
}

/// Where the net data of a telegram lie.
#[repr(C)]
#[derive(Clone, Copy, PartialEq, Debug)]
pub struct Part {
    pub start: u32,
    pub count: u32,
}

#[rustfmt::skip]
extern "C" {
    fn uj_word48(first: *const u8, first_len: usize, second: *const u8, second_len: usize) -> u64;
    fn uj_word32(first: *const u8, first_len: usize, second: *const u8, second_len: usize) -> u32;
    fn uj_write_request(own: u32, partner: u32, partner_sap: u32, local_sap: u32, level: u32, random: u32, idle_time: u32, net: *const u8,
                        net_length: usize, out: *mut u8, out_length: usize) -> Written;
    fn uj_write_confirm(own: u32, partner: u32, partner_sap: u32, local_sap: u32, level: u32, random: u32, idle_time: u32, net: *const u8,
                        net_length: usize, out: *mut u8, out_length: usize) -> Written;
    fn uj_write_authentication(own: u32, partner: u32, partner_sap: u32, local_sap: u32, level: u32, number: u32, received: u32, out: *mut u8,
                               out_length: usize) -> Written;
    fn uj_write_acknowledgement(own: u32, partner: u32, partner_sap: u32, local_sap: u32, level: u32, number: u32, received: u32, out: *mut u8,
                                out_length: usize) -> Written;
    fn uj_write_disconnect(own: u32, partner: u32, partner_sap: u32, local_sap: u32, level: u32, number: u32, new_setup: u32, reason: u32,
                           text: *const u8, text_length: usize, out: *mut u8, out_length: usize) -> Written;
    fn uj_write_idle(own: u32, partner: u32, partner_sap: u32, local_sap: u32, level: u32, number: u32, out: *mut u8, out_length: usize) -> Written;
    fn uj_write_data(own: u32, partner: u32, partner_sap: u32, local_sap: u32, level: u32, number: u32, command: u32, net: *const u8,
                     net_length: usize, out: *mut u8, out_length: usize) -> Written;
    fn uj_check(own: u32, partner: u32, partner_sap: u32, local_sap: u32, level: u32, expected: u32, telegram: *const u8,
                telegram_length: usize) -> u32;
    fn uj_net_data(telegram: *const u8, telegram_length: usize) -> Part;
}

/// The library's check word at SL 4 over two runs.
pub fn word48(first: &[u8], second: &[u8]) -> u64 {
    // SAFETY: both runs are readable for their lengths, and the function only reads them.
    unsafe { uj_word48(first.as_ptr(), first.len(), second.as_ptr(), second.len()) }
}

/// The library's check word at SL 2 over two runs.
pub fn word32(first: &[u8], second: &[u8]) -> u64 {
    // SAFETY: as above.
    u64::from(unsafe { uj_word32(first.as_ptr(), first.len(), second.as_ptr(), second.len()) })
}

/// A run as pointer and length. An empty one goes as a null pointer, which the header allows.
pub fn read(run: &[u8]) -> (*const u8, usize) {
    let pointer = if run.is_empty() { std::ptr::null() } else { run.as_ptr() };
    (pointer, run.len())
}

/// An output buffer or a table, likewise.
pub fn write<T>(out: &mut [T]) -> (*mut T, usize) {
    let pointer = if out.is_empty() { std::ptr::null_mut() } else { out.as_mut_ptr() };
    (pointer, out.len())
}

pub fn write_request(end: &End, random: u32, idle_time: u32, net: &[u8], out: &mut [u8]) -> Written {
    let [own, partner, partner_sap, local_sap, level] = end.numbers();
    let ((net, n), (out, room)) = (read(net), write(out));
    // SAFETY: here and below the runs are readable, `out` writable, for their lengths, and `out`, borrowed mutably, overlaps no other run.
    unsafe { uj_write_request(own, partner, partner_sap, local_sap, level, random, idle_time, net, n, out, room) }
}

pub fn write_confirm(end: &End, random: u32, idle_time: u32, net: &[u8], out: &mut [u8]) -> Written {
    let [own, partner, partner_sap, local_sap, level] = end.numbers();
    let ((net, n), (out, room)) = (read(net), write(out));
    // SAFETY: as above.
    unsafe { uj_write_confirm(own, partner, partner_sap, local_sap, level, random, idle_time, net, n, out, room) }
}

pub fn write_authentication(end: &End, number: u32, received: u32, out: &mut [u8]) -> Written {
    let [own, partner, partner_sap, local_sap, level] = end.numbers();
    let (out, room) = write(out);
    // SAFETY: as above.
    unsafe { uj_write_authentication(own, partner, partner_sap, local_sap, level, number, received, out, room) }
}

pub fn write_acknowledgement(end: &End, number: u32, received: u32, out: &mut [u8]) -> Written {
    let [own, partner, partner_sap, local_sap, level] = end.numbers();
    let (out, room) = write(out);
    // SAFETY: as above.
    unsafe { uj_write_acknowledgement(own, partner, partner_sap, local_sap, level, number, received, out, room) }
}

pub fn write_disconnect(end: &End, number: u32, new_setup: u32, reason: u32, text: &[u8], out: &mut [u8]) -> Written {
    let [own, partner, partner_sap, local_sap, level] = end.numbers();
    let ((text, n), (out, room)) = (read(text), write(out));
    // SAFETY: as above.
    unsafe { uj_write_disconnect(own, partner, partner_sap, local_sap, level, number, new_setup, reason, text, n, out, room) }
}

pub fn write_idle(end: &End, number: u32, out: &mut [u8]) -> Written {
    let [own, partner, partner_sap, local_sap, level] = end.numbers();
    let (out, room) = write(out);
    // SAFETY: as above.
    unsafe { uj_write_idle(own, partner, partner_sap, local_sap, level, number, out, room) }
}

pub fn write_data(end: &End, number: u32, command: u32, net: &[u8], out: &mut [u8]) -> Written {
    let [own, partner, partner_sap, local_sap, level] = end.numbers();
    let ((net, n), (out, room)) = (read(net), write(out));
    // SAFETY: as above.
    unsafe { uj_write_data(own, partner, partner_sap, local_sap, level, number, command, net, n, out, room) }
}

pub fn check(end: &End, expected: u32, telegram: &[u8]) -> u32 {
    let [own, partner, partner_sap, local_sap, level] = end.numbers();
    let (telegram, n) = read(telegram);
    // SAFETY: the run is readable for its length, and the function only reads it.
    unsafe { uj_check(own, partner, partner_sap, local_sap, level, expected, telegram, n) }
}

pub fn net_data(telegram: &[u8]) -> Part {
    let (telegram, n) = read(telegram);
    // SAFETY: as above.
    unsafe { uj_net_data(telegram, n) }
}
