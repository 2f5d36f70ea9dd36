//! The local clock in the static library: its values as include/ujamniq.h lays them out, and its five functions. A clock is lent by its address, every other
//! value goes as it is.

use crate::library::read as run;

/// How many pairs a clock keeps.
pub const PAIRS: usize = 16;

/// Local_Clock_Time in milliseconds.
#[repr(C)]
#[derive(Clone, Copy, PartialEq, Debug)]
pub struct LocalTime {
    pub ms: u32,
}

/// Reference Time in milliseconds.
#[repr(C)]
#[derive(Clone, Copy, PartialEq, Debug)]
pub struct RefTime {
    pub ms: u32,
}

/// One moment in both times.
#[repr(C)]
#[derive(Clone, Copy, PartialEq, Debug)]
pub struct Pair {
    pub reference: RefTime,
    pub local: LocalTime,
}

/// A Sync and Reference Time message.
#[repr(C)]
#[derive(Clone, Copy, PartialEq, Debug)]
pub struct Message {
    pub number: u32,
    pub reference: RefTime,
}

/// The message received last.
#[repr(C)]
#[derive(Clone, Copy, PartialEq, Debug)]
pub struct Last {
    pub received: u32,
    pub number: u32,
    pub local: LocalTime,
}

/// The period of 30 s.
#[repr(C)]
#[derive(Clone, Copy, PartialEq, Debug)]
pub struct Period {
    pub begun: LocalTime,
    pub factor: u32,
    pub messages: u32,
}

#[repr(C)]
#[derive(Clone, Copy, PartialEq, Debug)]
pub struct Clock {
    pub pairs: [Pair; PAIRS],
    pub count: u32,
    pub state: u32,
    pub last: Last,
    pub resynchronised: LocalTime,
    pub period: Period,
}

/// What a run of bytes is.
#[repr(C)]
#[derive(Clone, Copy, PartialEq, Debug)]
pub struct Reading {
    pub answer: u32,
    pub message: Message,
}

/// The factor, or why there is none.
#[repr(C)]
#[derive(Clone, Copy, PartialEq, Debug)]
pub struct Factor {
    pub answer: u32,
    pub factor: u32,
}

/// A Reference Time, or why there is none.
#[repr(C)]
#[derive(Clone, Copy, PartialEq, Debug)]
pub struct Reference {
    pub answer: u32,
    pub time: RefTime,
}

extern "C" {
    fn uj_clock_new() -> Clock;
    fn uj_clock_read(bytes: *const u8, length: usize) -> Reading;
    fn uj_clock_message(clock: *mut Clock, message: Message, local: LocalTime) -> u32;
    fn uj_clock_factor(clock: *const Clock, local: LocalTime) -> Factor;
    fn uj_clock_reference_time(clock: *const Clock, local: LocalTime) -> Reference;
}

pub fn new() -> Clock {
    // SAFETY: the function takes nothing and gives plain numbers.
    unsafe { uj_clock_new() }
}

pub fn read(bytes: &[u8]) -> Reading {
    let (bytes, length) = run(bytes);
    // SAFETY: the run is readable for its length, and the function only reads it.
    unsafe { uj_clock_read(bytes, length) }
}

pub fn message(clock: &mut Clock, message: Message, local: LocalTime) -> u32 {
    // SAFETY: the clock is borrowed mutably, so it is writable and nobody else uses it.
    unsafe { uj_clock_message(clock, message, local) }
}

/// The clock is lent to be written into, though the function should only read it: so one that writes is seen.
pub fn factor(clock: &mut Clock, local: LocalTime) -> Factor {
    // SAFETY: as above.
    unsafe { uj_clock_factor(clock, local) }
}

/// Likewise.
pub fn reference_time(clock: &mut Clock, local: LocalTime) -> Reference {
    // SAFETY: as above.
    unsafe { uj_clock_reference_time(clock, local) }
}
