//! The library and the second program under one interface, so that a case can be put to either, and to a wrong program.

use crate::check::{check, net_data, Verdict};
use crate::library::{self, Part, Written};
use crate::telegram::{written, End, Telegram};

/// The check's answer for a telegram that fails. The library may answer any number from here on.
pub const FAILED: u32 = 100;

pub struct Program {
    /// Writes a telegram into the buffer.
    pub write: fn(&End, &Telegram, &mut [u8]) -> Written,
    /// Checks a telegram with the number expected.
    pub check: fn(&End, u32, &[u8]) -> u32,
    /// Tells where a telegram's net data lie.
    pub net_data: fn(&[u8]) -> Part,
}

pub const LIBRARY: Program = Program {
    write: library_write,
    check: library::check,
    net_data: library::net_data,
};

pub const SECOND: Program = Program {
    write: second_write,
    check: |end, expected, telegram| answer(check(end, expected, telegram)),
    net_data: |telegram| {
        let (start, count) = net_data(telegram).unwrap_or((0, 0));
        Part {
            start: start as u32,
            count: count as u32,
        }
    },
};

/// The number that the interface gives for a verdict.
pub fn answer(verdict: Verdict) -> u32 {
    match verdict {
        Verdict::Passes => 0,
        Verdict::Refused(number) => number,
        Verdict::Fails(_) => FAILED,
    }
}

fn library_write(end: &End, telegram: &Telegram, out: &mut [u8]) -> Written {
    match telegram {
        Telegram::Request { random, idle_time, net } => library::write_request(end, *random, *idle_time, net, out),
        Telegram::Confirm { random, idle_time, net } => library::write_confirm(end, *random, *idle_time, net, out),
        Telegram::Authentication { number, received } => library::write_authentication(end, *number, *received, out),
        Telegram::Acknowledgement { number, received } => library::write_acknowledgement(end, *number, *received, out),
        Telegram::Disconnect {
            number,
            new_setup,
            reason,
            text,
        } => library::write_disconnect(end, *number, *new_setup, *reason, text, out),
        Telegram::Idle { number } => library::write_idle(end, *number, out),
        Telegram::Data { number, command, net } => library::write_data(end, *number, *command, net, out),
    }
}

/// The telegram into the front of the buffer and the rest as it was; or, refused, the whole buffer as it was.
fn second_write(end: &End, telegram: &Telegram, out: &mut [u8]) -> Written {
    match written(end, telegram, out.len()) {
        Ok(bytes) => {
            out[..bytes.len()].copy_from_slice(&bytes);
            Written {
                answer: 0,
                length: bytes.len() as u32,
            }
        }
        Err(answer) => Written { answer, length: 0 },
    }
}
