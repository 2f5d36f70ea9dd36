//! Systematic cases of one connection's times: waits, watch and idle before, at and past their limits, and times from one end of 64 bits to the other.

use crate::link_case::{Case, Demand};
use crate::link_demands::{case, closes, good, records_in, sent, times, Brings, Row, NOTHING_DUE, RUN_OUT};
use crate::link_samples::*;
use crate::link_step::{Event, Record, ACKNOWLEDGEMENT_AWAITED, AUTHENTICATION_AWAITED, CLOSED, CONFIRM_AWAITED, OPEN};
use crate::telegram::Kind;

/// A tick at which idle is due on an open record.
const IDLE_DUE: Row = [Brings::Nothing, Brings::Nothing, Brings::Nothing, Brings::Nothing, Brings::IdleSent];

/// What a tick brings where the wait or watch is late, and where idle is due: closing comes first.
fn ticks(late: bool, due: bool) -> Row {
    match (late, due) {
        (true, _) => RUN_OUT,
        (false, true) => IDLE_DUE,
        (false, false) => NOTHING_DUE,
    }
}

/// Ticks in every phase around each limit. An open record declares 0 here, so that no idle is due.
pub fn waits_and_watch() -> Vec<Case> {
    let mut cases = Vec::new();
    for (record, own) in records() {
        let watched_times = [0, 100, 200, 500, 700, 65400, 65500].map(|watched| Record {
            watched,
            declared: 0,
            ..record
        });
        let records = if record.phase == OPEN { watched_times.to_vec() } else { vec![record] };
        for record in records {
            for (time, late) in times(&record) {
                cases.push(case(record, own, tick(time), ticks(late, false)));
            }
        }
    }
    cases
}

/// Ticks around half of every idle time that can be declared, watched or not: idle is due from half on. In other phases it never is.
pub fn idle_due() -> Vec<Case> {
    let mut cases = Vec::new();
    for (record, own) in records_in(&[OPEN]) {
        for declared in (0..=655).map(|steps| steps * 100) {
            let half = u64::from(declared) / 2;
            for gap in [0, 1, half.saturating_sub(1), half, half + 1, 2 * half, 2 * half + 1, 0x1_0000_0000] {
                let time = record.sent_at + gap;
                for watched in [0, 65500] {
                    let record = Record {
                        declared,
                        watched,
                        taken_at: time,
                        ..record
                    };
                    cases.push(case(record, own, tick(time), ticks(false, declared != 0 && gap >= half)));
                }
            }
        }
    }
    for (record, own) in records_in(&[CLOSED, CONFIRM_AWAITED, AUTHENTICATION_AWAITED, ACKNOWLEDGEMENT_AWAITED]) {
        for gap in [149, 150, 151, 300, 301, 500, 5000] {
            cases.push(case(record, own, tick(SENT_AT + gap), NOTHING_DUE));
        }
    }
    cases
}

/// An open record whose watch is at its limit or past it when idle isn't due yet or just is.
pub fn watch_before_idle() -> Vec<Case> {
    let mut cases = Vec::new();
    for (record, own) in records_in(&[OPEN]) {
        for (watch_gap, late) in [(700, false), (701, true)] {
            for (idle_gap, due) in [(149, false), (150, true)] {
                let record = Record {
                    sent_at: NOW - idle_gap,
                    taken_at: NOW - watch_gap,
                    ..record
                };
                cases.push(case(record, own, tick(NOW), ticks(late, due)));
            }
        }
    }
    cases
}

/// Send and close look at neither wait nor watch. Send sets the timer, whatever the time.
pub fn send_and_close_late() -> Vec<Case> {
    let mut cases = Vec::new();
    for (record, own) in records_in(&[CONFIRM_AWAITED, AUTHENTICATION_AWAITED, ACKNOWLEDGEMENT_AWAITED, OPEN]) {
        for (new_setup, finally) in [(0, true), (1, false)] {
            let demand = closes(&record.end(own), 0x20, finally, Some(Kind::Disconnect));
            cases.push(Case::new(record, own, close(new_setup, 0x20), demand));
        }
        for (time, _) in times(&record) {
            let demand = match record.phase {
                OPEN => Demand::Done(sent(record, time), Some(Kind::Data), Event::Nothing),
                _ => Demand::Refused(3),
            };
            cases.push(Case::new(record, own, send(time), demand));
        }
    }
    cases
}

#[rustfmt::skip]
const FAR_TIMES: [u64; 13] = [
    0, 1, 150, 700, 701, 5000, 5001, 0xFFFF_FFFF, 0x1_0000_0000, (1 << 63) - 1, 1 << 63, u64::MAX - 1, u64::MAX,
];

/// Ticks and receipts with time and timers from one end of 64 bits to the other, timers later than the time among them.
pub fn far_times() -> Vec<Case> {
    let mut cases = Vec::new();
    for (record, own) in records_in(&[CONFIRM_AWAITED, AUTHENTICATION_AWAITED, ACKNOWLEDGEMENT_AWAITED, OPEN]) {
        let data = bytes(&record, own, Kind::Data);
        for time in FAR_TIMES {
            for (sent_at, taken_at) in FAR_TIMES.into_iter().flat_map(|sent_at| FAR_TIMES.map(|taken_at| (sent_at, taken_at))) {
                for watched in [0, WATCHED] {
                    let record = Record {
                        sent_at,
                        taken_at,
                        watched,
                        ..record
                    };
                    let (late, due) = far(&record, time);
                    let taken = if late { RUN_OUT } else { good(Kind::Data) };
                    cases.push(case(record, own, tick(time), ticks(late, due)));
                    cases.push(case(record, own, received(time, data.clone()), taken));
                }
            }
        }
    }
    cases
}

/// Whether the wait or watch has run out, and whether idle is due, worked out in numbers that don't wrap.
fn far(record: &Record, time: u64) -> (bool, bool) {
    let since = |timer: u64| i128::from(time) - i128::from(timer);
    let late = match (record.phase, record.watched) {
        (OPEN, 0) => false,
        (OPEN, watched) => since(record.taken_at) > i128::from(watched),
        _ => since(record.sent_at) > 5000,
    };
    (late, 2 * since(record.sent_at) >= i128::from(record.declared))
}
