//! How a connection is made wrong: by reading something else than it is given, by giving back or writing something else, or by doing something else where the
//! step comes out in a certain way. Where a wrong one doesn't say otherwise, it is the second program.

use crate::check::{check, Verdict};
use crate::link_call::Call;
use crate::link_case::{Case, Program, SECOND};
use crate::link_step::{Answer, Record, Step, Stepped, CONFIRM_AWAITED, OPEN};
use crate::telegram::{written, End, Telegram, LONGEST};

pub struct Wrong {
    pub what: &'static str,
    pub program: Box<Program>,
    /// The group of cases that must tell it from the second program.
    pub seen_by: Group,
}

pub type Group = fn() -> Vec<Case>;

/// The numbers by which the interface names events and telegrams.
pub const EVENT_OPENED: u32 = 1;
pub const EVENT_DATA: u32 = 2;
pub const EVENT_CLOSED: u32 = 3;
pub const WROTE_CONFIRM: u32 = 2;
pub const WROTE_AUTHENTICATION: u32 = 3;
pub const WROTE_ACKNOWLEDGEMENT: u32 = 4;
pub const WROTE_DISCONNECT: u32 = 5;
pub const WROTE_IDLE: u32 = 6;

/// Does what it is told.
pub fn wrong(what: &'static str, seen_by: Group, program: impl Fn(&Step, &mut [u8]) -> Stepped + 'static) -> Wrong {
    let program = Box::new(program);
    Wrong { what, program, seen_by }
}

/// Does the second program's step of something else. What the step leaves of that is put back.
pub fn reads(what: &'static str, seen_by: Group, change: fn(&mut Step)) -> Wrong {
    wrong(what, seen_by, move |step, out| {
        let mut other = step.clone();
        change(&mut other);
        let stepped = SECOND(&other, out);
        let record = match stepped.happened.event {
            EVENT_CLOSED => stepped.record.between(&step.end()),
            _ => put_back(step.record, other.record, stepped.record),
        };
        Stepped { record, ..stepped }
    })
}

/// The record after a step, with the value of before in each field where the step left the one that was changed.
fn put_back(before: Record, changed: Record, after: Record) -> Record {
    fn back<T: PartialEq>(before: T, changed: T, after: T) -> T {
        if after == changed {
            before
        } else {
            after
        }
    }
    Record {
        partner: before.partner,
        partner_sap: before.partner_sap,
        local_sap: before.local_sap,
        level: before.level,
        phase: back(before.phase, changed.phase, after.phase),
        sending: back(before.sending, changed.sending, after.sending),
        expected: back(before.expected, changed.expected, after.expected),
        declared: back(before.declared, changed.declared, after.declared),
        watched: back(before.watched, changed.watched, after.watched),
        sent_at: back(before.sent_at, changed.sent_at, after.sent_at),
        taken_at: back(before.taken_at, changed.taken_at, after.taken_at),
    }
}

/// Gives back something else than the second program, unless that refuses.
pub fn gives_back(what: &'static str, seen_by: Group, change: fn(&Step, &mut Stepped)) -> Wrong {
    wrong(what, seen_by, move |step, out| {
        let mut stepped = SECOND(step, out);
        if stepped.answer.number == 0 {
            change(step, &mut stepped);
        }
        stepped
    })
}

/// Does something else than the second program where its step comes out as `when` says.
pub fn instead(
    what: &'static str,
    seen_by: Group,
    when: fn(&Step, &Stepped) -> bool,
    other: impl Fn(&Step, &mut [u8]) -> Stepped + 'static,
) -> Wrong {
    wrong(what, seen_by, move |step, out| {
        let stepped = SECOND(step, &mut out.to_vec());
        match when(step, &stepped) {
            true => other(step, out),
            false => SECOND(step, out),
        }
    })
}

/// Writes another telegram than the second program, where there is one.
pub fn writes(what: &'static str, seen_by: Group, other: fn(&Step, &Stepped) -> Option<(u32, Telegram)>) -> Wrong {
    wrong(what, seen_by, move |step, out| {
        let stepped = SECOND(step, out);
        let (number, telegram) = match other(step, &stepped) {
            Some(other) if stepped.answer.number == 0 => other,
            _ => return stepped,
        };
        let bytes = written(&step.end(), &telegram, LONGEST).unwrap_or_default();
        out[..bytes.len()].copy_from_slice(&bytes);
        let answer = Answer {
            telegram: number,
            length: bytes.len() as u32,
            ..stepped.answer
        };
        Stepped { answer, ..stepped }
    })
}

/// Connections made so with nothing changed: no case may see them.
pub fn unchanged(seen_by: Group) -> Vec<Wrong> {
    vec![
        reads("nothing else read", seen_by, |_| {}),
        gives_back("nothing else given back", seen_by, |_, _| {}),
        instead("nothing else done", seen_by, |_, _| false, refusing(0)),
        writes("nothing else written", seen_by, |_, _| None),
    ]
}

/// Closes as the call does, without a text.
pub fn closing(new_setup: u32, reason: u32) -> impl Fn(&Step, &mut [u8]) -> Stepped {
    let call = Call::Close {
        new_setup,
        reason,
        text: vec![],
    };
    move |step, out| {
        let call = call.clone();
        SECOND(&Step { call, ..step.clone() }, out)
    }
}

/// Refuses with a number; with 0 it does nothing at all.
pub fn refusing(number: u32) -> impl Fn(&Step, &mut [u8]) -> Stepped {
    move |step, _| Stepped::refused(step.record, number)
}

pub fn is_open(step: &Step) -> bool {
    step.record.phase == OPEN
}

pub fn is_waiting(step: &Step) -> bool {
    step.record.waits()
}

pub fn is_tick(step: &Step) -> bool {
    matches!(step.call, Call::Tick { .. })
}

pub fn is_receipt(step: &Step) -> bool {
    matches!(step.call, Call::Received { .. })
}

/// Whether the call looks at waits and watch.
pub fn looks(step: &Step) -> bool {
    is_tick(step) || is_receipt(step)
}

pub fn since_sent(step: &Step) -> u64 {
    step.call.time().saturating_sub(step.record.sent_at)
}

pub fn since_taken(step: &Step) -> u64 {
    step.call.time().saturating_sub(step.record.taken_at)
}

pub fn set_time(step: &mut Step, time: u64) {
    step.call = step.call.clone().with_time(time);
}

/// The call one millisecond later.
pub fn one_later(step: &mut Step) {
    let time = step.call.time() + 1;
    set_time(step, time);
}

/// The call at the time of the last sending, so that no wait has run out.
pub fn at_once(step: &mut Step) {
    let time = step.record.sent_at;
    set_time(step, time);
}

/// Whether the telegram received passes the check under an end.
pub fn passes(step: &Step, end: End) -> bool {
    let expected = if step.record.phase <= CONFIRM_AWAITED { 0 } else { step.record.expected };
    check(&end, expected, step.call.telegram()) == Verdict::Passes
}

/// Whether it passes under its own end, and is of the kind that these low six bits name.
pub fn is_good(step: &Step, low_six: u8) -> bool {
    passes(step, step.end()) && step.call.telegram()[1] & 0x3F == low_six
}
