//! What the systematic cases of a connection start from: a good record in each phase, the telegrams that its partner sends it, and a good call of each sort.

use crate::draft::Draft;
use crate::link_call::{Call, Naming};
use crate::link_step::{Record, ACKNOWLEDGEMENT_AWAITED, AUTHENTICATION_AWAITED, CLOSED, CONFIRM_AWAITED, FINALLY_CLOSED, OPEN};
use crate::samples::{pattern, SENDERS};
use crate::telegram::{End, Kind, Telegram};

pub const PHASES: [u32; 6] = [
    CLOSED,
    CONFIRM_AWAITED,
    AUTHENTICATION_AWAITED,
    ACKNOWLEDGEMENT_AWAITED,
    OPEN,
    FINALLY_CLOSED,
];

/// When the calls are made where the time doesn't matter: no wait and no watch has run out, and no idle is due.
pub const NOW: u64 = 1_000_000;
pub const SENT_AT: u64 = NOW - 40;
pub const TAKEN_AT: u64 = NOW - 30;
/// The record's two numbers and two idle times.
pub const SENDING: u32 = 0x0123_4568;
pub const EXPECTED: u32 = 0x89AB_CDF0;
pub const DECLARED: u32 = 300;
pub const WATCHED: u32 = 700;
/// What a call is lent, and what the partner names: random numbers and idle times.
pub const RANDOM: u32 = 0x7654_3210;
pub const NAMED: u32 = 1200;
pub const PARTNERS_RANDOM: u32 = 0xFEDC_BA98;
pub const PARTNERS_IDLE_TIME: u32 = 900;

/// A record as its steps leave it in a phase.
pub fn record(end: End, phase: u32) -> Record {
    let closed = Record::closed(&end, phase);
    let opening = Record {
        sending: SENDING,
        declared: DECLARED,
        sent_at: SENT_AT,
        ..closed
    };
    match phase {
        CLOSED | FINALLY_CLOSED => closed,
        CONFIRM_AWAITED => opening,
        _ => Record {
            expected: EXPECTED,
            watched: WATCHED,
            taken_at: TAKEN_AT,
            ..opening
        },
    }
}

/// Records in every phase at both levels, each with its node's address.
pub fn records() -> Vec<(Record, u32)> {
    let of = |end: End| PHASES.map(|phase| (record(end, phase), end.own));
    SENDERS.into_iter().flat_map(of).collect()
}

/// The number that the partner's next telegram has. Before its request or confirm it has none, and the scope takes 0.
pub fn next_number(record: &Record) -> u32 {
    match record.phase {
        CLOSED | CONFIRM_AWAITED => 0,
        _ => record.expected,
    }
}

/// Our random number in a record that awaits authentication or acknowledgement: since then we have sent the confirm, or the request and the authentication.
pub fn our_random(record: &Record) -> u32 {
    let sent = if record.phase == AUTHENTICATION_AWAITED { 1 } else { 2 };
    record.sending.wrapping_sub(sent)
}

/// The partner's telegram of each kind, as the record would have it: with the right number and, where the record can know it, the right authentication number.
pub fn telegram(record: &Record, kind: Kind) -> Telegram {
    let number = next_number(record);
    match kind {
        Kind::Request => Telegram::request(PARTNERS_RANDOM, PARTNERS_IDLE_TIME, pattern(3)),
        Kind::Confirm => Telegram::confirm(PARTNERS_RANDOM, PARTNERS_IDLE_TIME, pattern(3)),
        Kind::Authentication => Telegram::authentication(number, our_random(record)),
        Kind::Acknowledgement => Telegram::acknowledgement(number, our_random(record)),
        Kind::Disconnect => Telegram::disconnect(number, 0, 0x21, pattern(2)),
        Kind::Idle => Telegram::idle(number),
        Kind::Data => Telegram::data(number, 0x2A, pattern(5)),
    }
}

/// A telegram from the record's partner. What is changed in it doesn't break the check word.
pub fn draft(record: &Record, own: u32, telegram: &Telegram) -> Draft {
    Draft::new(record.end(own).mirrored(), telegram)
}

/// The bytes of the partner's telegram of a kind.
pub fn bytes(record: &Record, own: u32, kind: Kind) -> Vec<u8> {
    draft(record, own, &telegram(record, kind)).telegram()
}

pub fn naming(idle_time: u32) -> Naming {
    Naming { named: 1, idle_time }
}

pub fn open(time: u64) -> Call {
    Call::Open {
        time,
        random: RANDOM,
        naming: naming(NAMED),
        net: pattern(4),
    }
}

pub fn close(new_setup: u32, reason: u32) -> Call {
    Call::Close {
        new_setup,
        reason,
        text: pattern(6),
    }
}

pub fn send(time: u64) -> Call {
    Call::Send {
        time,
        command: 0x09,
        net: pattern(7),
    }
}

pub fn received(time: u64, telegram: Vec<u8>) -> Call {
    Call::Received {
        time,
        random: RANDOM,
        naming: naming(NAMED),
        telegram,
        net: pattern(4),
    }
}

pub fn tick(time: u64) -> Call {
    Call::Tick { time }
}

/// A good call of each sort. The telegram received is data.
pub fn calls(record: &Record, own: u32, time: u64) -> [Call; 5] {
    let data = bytes(record, own, Kind::Data);
    [open(time), close(1, 0x20), send(time), received(time, data), tick(time)]
}
