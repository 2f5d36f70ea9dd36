//! What the scope and the clauses of 5.2 demand of one connection's steps, said a second time and not taken from the second program: by phase and telegram,
//! and by phase and time.

use crate::link_call::Call;
use crate::link_case::{Case, Demand};
use crate::link_samples::{records, NOW};
use crate::link_step::{Event, Record, ACKNOWLEDGEMENT_AWAITED, AUTHENTICATION_AWAITED, CLOSED, CONFIRM_AWAITED, FINALLY_CLOSED, OPEN};
use crate::telegram::{End, Kind};
use Brings::*;

/// What a call brings.
#[derive(Clone, Copy)]
pub enum Brings {
    Nothing,
    Confirm,
    Authentication,
    Acknowledgement,
    Opened,
    Taken,
    HandedOver,
    IdleSent,
    /// Closed by the partner, with its reason and type.
    Ended,
    /// Closed with this reason, and finally where it says so, with a disconnect.
    Closes(u32, bool),
}

/// What happens in the phases closed, confirm awaited, authentication awaited, acknowledgement awaited, open.
pub type Row = [Brings; 5];

/// A good telegram that comes in time.
#[rustfmt::skip]
const GOOD: [(Kind, Row); 7] = [
    (Kind::Request,         [Confirm, Nothing,        Closes(3, true), Closes(3, true), Closes(4, false)]),
    (Kind::Confirm,         [Nothing, Authentication, Closes(3, true), Closes(3, true), Closes(4, false)]),
    (Kind::Authentication,  [Nothing, Nothing,        Acknowledgement, Closes(3, true), Closes(4, false)]),
    (Kind::Acknowledgement, [Nothing, Nothing,        Closes(3, true), Opened,          Closes(4, false)]),
    (Kind::Disconnect,      [Nothing, Ended,          Ended,           Ended,           Ended]),
    (Kind::Idle,            [Nothing, Nothing,        Closes(3, true), Closes(3, true), Taken]),
    (Kind::Data,            [Nothing, Nothing,        Closes(3, true), Closes(3, true), HandedOver]),
];

/// A telegram that comes in time and fails the check.
pub const FAILED: Row = [Nothing, Closes(6, false), Closes(6, false), Closes(6, false), Closes(6, false)];

/// A wait or watch that has run out.
pub const RUN_OUT: Row = [Nothing, Closes(2, false), Closes(3, true), Closes(3, true), Closes(5, false)];

/// A tick by which nothing has run out and no idle is due.
pub const NOTHING_DUE: Row = [Nothing; 5];

pub fn good(kind: Kind) -> Row {
    GOOD.into_iter().find(|(of, _)| *of == kind).map_or(NOTHING_DUE, |(_, row)| row)
}

/// The case of a call for which the row of its phase counts. A finally closed record refuses.
pub fn case(record: Record, own: u32, call: Call, row: Row) -> Case {
    let demand = match record.phase {
        FINALLY_CLOSED => Demand::Refused(8),
        phase => demand(row[phase as usize - 1], &record, own, &call),
    };
    Case::new(record, own, call, demand)
}

/// The record after a telegram sent, and after one taken: each adds one to its number and sets its timer.
pub fn sent(record: Record, time: u64) -> Record {
    Record {
        sending: record.sending.wrapping_add(1),
        sent_at: time,
        ..record
    }
}

pub fn taken(record: Record, time: u64) -> Record {
    Record {
        expected: record.expected.wrapping_add(1),
        taken_at: time,
        ..record
    }
}

/// The record that has met its partner: 5.2.1.3 and 5.2.2.2, bytes 3..6 and 7..8.
fn met(record: Record, telegram: &[u8]) -> Record {
    let number = |bytes: &[u8]| bytes.iter().rev().fold(0, |number, byte| number * 256 + u32::from(*byte));
    Record {
        expected: number(&telegram[2..6]),
        watched: number(&telegram[6..8]),
        ..record
    }
}

/// The record that has begun with the call's random number and declared the idle time that the call names.
pub fn begun(record: Record, call: &Call) -> Record {
    Record {
        sending: call.random(),
        declared: call.naming().idle_time,
        ..record
    }
}

/// 5.2.7.2: the net data stand behind two bytes and before the check word.
fn handed_over(level: u32, telegram: &[u8]) -> Event {
    let word = if level == 4 { 6 } else { 4 };
    Event::Data {
        command: u32::from(telegram[1] % 0x40),
        start: 2,
        count: (telegram.len() - 2 - word) as u32,
    }
}

pub fn closes(end: &End, reason: u32, finally: bool, written: Option<Kind>) -> Demand {
    let phase = if finally { FINALLY_CLOSED } else { CLOSED };
    Demand::Done(Record::closed(end, phase), written, Event::Closed { reason, finally })
}

/// The demand on a call that brings this. The call names an idle time.
fn demand(brings: Brings, record: &Record, own: u32, call: &Call) -> Demand {
    let (record, end, time, telegram) = (*record, record.end(own), call.time(), call.telegram());
    let in_phase = |phase: u32, record: Record| Record { phase, ..record };
    match brings {
        Nothing => Demand::Done(record, None, Event::Nothing),
        Confirm => {
            let confirmed = sent(begun(taken(met(record, telegram), time), call), time);
            Demand::Done(in_phase(AUTHENTICATION_AWAITED, confirmed), Some(Kind::Confirm), Event::Nothing)
        }
        Authentication => {
            let authenticated = sent(taken(met(record, telegram), time), time);
            Demand::Done(
                in_phase(ACKNOWLEDGEMENT_AWAITED, authenticated),
                Some(Kind::Authentication),
                Event::Nothing,
            )
        }
        Acknowledgement => {
            let acknowledged = sent(taken(record, time), time);
            Demand::Done(in_phase(OPEN, acknowledged), Some(Kind::Acknowledgement), Event::Opened)
        }
        Opened => Demand::Done(in_phase(OPEN, taken(record, time)), None, Event::Opened),
        Taken => Demand::Done(taken(record, time), None, Event::Nothing),
        HandedOver => Demand::Done(taken(record, time), None, handed_over(record.level, telegram)),
        IdleSent => Demand::Done(sent(record, time), Some(Kind::Idle), Event::Nothing),
        Ended => closes(&end, u32::from(telegram[3]), telegram[2] == 0, None),
        Closes(reason, finally) => closes(&end, reason, finally, Some(Kind::Disconnect)),
    }
}

/// The records of the samples in these phases, each with its node's address.
pub fn records_in(phases: &[u32]) -> Vec<(Record, u32)> {
    records().into_iter().filter(|(record, _)| phases.contains(&record.phase)).collect()
}

/// Times for a record, each with whether its wait or watch has run out by then: long before the limit, just before, at it, one past, and long past.
pub fn times(record: &Record) -> Vec<(u64, bool)> {
    let (timer, limit) = match record.phase {
        CONFIRM_AWAITED | AUTHENTICATION_AWAITED | ACKNOWLEDGEMENT_AWAITED => (record.sent_at, 5000),
        OPEN if record.watched != 0 => (record.taken_at, u64::from(record.watched)),
        _ => return [0, NOW, NOW + 5001, u64::MAX].map(|time| (time, false)).to_vec(),
    };
    let in_time = [0, 1, limit - 1, limit].map(|gap| (timer + gap, false));
    let late = [limit + 1, limit + 2, 2 * limit, 10 * limit, 0x1_0000_0000, 0x1_0000_0000 + limit].map(|gap| (timer + gap, true));
    let ends = [(0, false), (timer - 1, false), (u64::MAX, true)];
    [&in_time[..], &late, &ends].concat()
}
