//! Systematic cases of the refusals of a connection's steps, and of the values that a call may have.

use crate::link_call::{Call, Naming};
use crate::link_case::{Case, Demand};
use crate::link_samples::*;
use crate::link_step::{Event, Record, AUTHENTICATION_AWAITED, CLOSED, CONFIRM_AWAITED, FINALLY_CLOSED, OPEN};
use crate::samples::{limits, pattern, SENDERS};
use crate::telegram::{End, Kind, LONGEST};

/// The answer of a good call in a phase.
pub fn answer(call: &Call, phase: u32) -> u32 {
    match (call, phase) {
        (_, FINALLY_CLOSED) => 8,
        (Call::Open { .. }, CLOSED) | (Call::Send { .. }, OPEN) => 0,
        (Call::Open { .. } | Call::Send { .. }, _) | (Call::Close { .. }, CLOSED) => 3,
        _ => 0,
    }
}

fn demand(answer: u32) -> Demand {
    match answer {
        0 => Demand::NotRefused,
        number => Demand::Refused(number),
    }
}

/// The demand on a call whose values answer 5 may turn away.
fn demand_of_values(good: bool, call: &Call, phase: u32) -> Demand {
    match answer(call, phase) {
        0 if !good => Demand::Refused(5),
        answer => demand(answer),
    }
}

/// Every call in every phase.
pub fn phases() -> Vec<Case> {
    let mut cases = Vec::new();
    for (record, own) in records() {
        for call in calls(&record, own, NOW) {
            let demand = demand(answer(&call, record.phase));
            cases.push(Case::new(record, own, call, demand));
        }
    }
    cases
}

/// Idle times that are good, and some that are not: among these some that a narrower number would wrap into good ones.
#[rustfmt::skip]
const GOOD_IDLE_TIMES: [u32; 7] = [0, 100, 200, 500, 1000, 65400, 65500];
#[rustfmt::skip]
const BAD_IDLE_TIMES: [u32; 14] =
    [1, 50, 99, 101, 150, 499, 65450, 65501, 65535, 65536, 65600, 0x1_0000 + 500, 0x8000_0000, u32::MAX];

/// The record with each idle time in turn good and bad, and the answer.
fn idle_times(record: Record) -> Vec<(Record, u32)> {
    let good = GOOD_IDLE_TIMES.map(|value| (value, 0));
    let bad = BAD_IDLE_TIMES.map(|value| (value, 1));
    let each = |(value, answer): (u32, u32)| {
        let declared = Record { declared: value, ..record };
        let watched = Record { watched: value, ..record };
        [(declared, answer), (watched, answer)]
    };
    good.into_iter().chain(bad).flat_map(each).collect()
}

/// A closed record with each of the fields that must be 0 at another value.
fn not_cleared(closed: Record) -> Vec<Record> {
    let mut records = Vec::new();
    for value in [1, 100, 0x100, 0x1_0000, u32::MAX] {
        records.push(Record { sending: value, ..closed });
        records.push(Record { expected: value, ..closed });
    }
    for value in [100, 500, 65500] {
        records.push(Record { declared: value, ..closed });
        records.push(Record { watched: value, ..closed });
    }
    for value in [1, NOW, 0x1_0000_0000, 1 << 63, u64::MAX] {
        records.push(Record { sent_at: value, ..closed });
        records.push(Record { taken_at: value, ..closed });
    }
    records
}

/// The record and the own address with every field in turn at its limits and out of range, and whether that is out of
/// range.
pub fn variations(record: Record, own: u32) -> Vec<(Record, u32, bool)> {
    const BAD_PHASES: [u32; 9] = [0, 7, 8, 255, 256 + 1, 256 + 5, 0x1_0001, 0x8000_0000, u32::MAX];
    let ends = limits(record.end(own)).into_iter();
    let mut variations: Vec<(Record, u32, bool)> =
        ends.map(|(end, answer)| (record.between(&end), end.own, answer == 1)).collect();
    variations.extend(BAD_PHASES.map(|phase| (Record { phase, ..record }, own, true)));
    if [CLOSED, FINALLY_CLOSED].contains(&record.phase) {
        variations.extend(not_cleared(record).into_iter().map(|record| (record, own, true)));
    } else {
        variations.extend(idle_times(record).into_iter().map(|(record, answer)| (record, own, answer == 1)));
    }
    variations
}

/// Every call in every phase with each of these. The telegram received is made for just that record.
pub fn fields() -> Vec<Case> {
    let mut cases = Vec::new();
    for (record, own) in records() {
        for (record, own, out_of_range) in variations(record, own) {
            for call in calls(&record, own, NOW) {
                let demand = demand(if out_of_range { 1 } else { answer(&call, record.phase) });
                cases.push(Case::new(record, own, call, demand));
            }
        }
    }
    cases
}

/// The refusals in their order.
const REFUSALS: [u32; 6] = [1, 4, 6, 8, 3, 5];

/// The same record and address with one of their numbers out of range.
pub fn out_of_range((record, own): (Record, u32)) -> Vec<(Record, u32)> {
    vec![
        (record, 127),
        (Record { partner: 256, ..record }, own),
        (Record { partner_sap: 63, ..record }, own),
        (
            Record {
                local_sap: u32::MAX,
                ..record
            },
            own,
        ),
        (Record { level: 0, ..record }, own),
        (Record { phase: 7, ..record }, own),
        (Record { declared: 50, ..record }, own),
        (Record { watched: 65600, ..record }, own),
    ]
}

/// The call with a telegram that answer 6 turns away; nothing for a call without a telegram.
pub fn bad_telegrams(call: &Call) -> Vec<Call> {
    let lengths: &[usize] = match call {
        Call::Received { .. } => &[0, 5, 245, 256 + 8],
        _ => &[],
    };
    lengths.iter().map(|length| call.clone().with_telegram(pattern(*length))).collect()
}

/// The call with a value that answer 5 turns away, in several ways; nothing for a tick.
pub fn bad_values(call: &Call) -> Vec<Call> {
    let call = call.clone();
    match call {
        Call::Open { .. } | Call::Received { .. } => {
            vec![call.clone().with_naming(naming(50)), call.with_net(pattern(229))]
        }
        Call::Send { .. } => vec![call.clone().with_command(0x0D), call.with_net(pattern(239))],
        Call::Close { .. } => vec![close(2, 0x20), close(1, 0x08), call.with_text(pattern(41))],
        Call::Tick { .. } => vec![],
    }
}

/// Every set of refusals for every call, as far as they can hold at once: the first in the order is answered.
pub fn order() -> Vec<Case> {
    let mut cases = Vec::new();
    for end in SENDERS {
        for call in calls(&record(end, OPEN), end.own, NOW) {
            for set in 1..1 << REFUSALS.len() {
                let chosen: Vec<u32> = (0..REFUSALS.len()).filter(|k| set >> k & 1 == 1).map(|k| REFUSALS[k]).collect();
                cases.extend(all_holding(&chosen, end, &call));
            }
        }
    }
    cases
}

/// The call where all these refusals hold; nothing where they can't. A finally closed record is in the wrong phase too,
/// for all but close.
fn all_holding(chosen: &[u32], end: End, call: &Call) -> Vec<Case> {
    let has = |number: u32| chosen.contains(&number);
    let by_phase = [8, 3].into_iter().find(|number| has(*number)).unwrap_or(0);
    let phases = PHASES.into_iter().filter(|phase| answer(call, *phase) == by_phase);
    let mut records: Vec<(Record, u32)> = phases.map(|phase| (record(end, phase), end.own)).collect();
    let mut calls = vec![call.clone()];
    if has(1) {
        records = records.into_iter().flat_map(out_of_range).collect();
    }
    if has(6) {
        calls = calls.iter().flat_map(bad_telegrams).collect();
    }
    if has(5) {
        calls = calls.iter().flat_map(bad_values).collect();
    }
    let room = if has(4) { LONGEST - 1 } else { LONGEST };
    let mut cases = Vec::new();
    for (record, own) in records {
        for call in &calls {
            cases.push(Case::new(record, own, call.clone(), Demand::Refused(chosen[0])).with_room(room));
        }
    }
    cases
}

/// Every call in every phase into buffers with less room than 244 bytes, with just that, and with more.
pub fn rooms() -> Vec<Case> {
    let mut cases = Vec::new();
    for (record, own) in records() {
        for call in calls(&record, own, NOW) {
            let answer = answer(&call, record.phase);
            for room in [0, 1, 6, 8, 12, 100, 242, 243] {
                cases.push(Case::new(record, own, call.clone(), Demand::Refused(4)).with_room(room));
            }
            for room in [244, 245, 255, 256, 300, 1000, 0x1_0000 + 10] {
                cases.push(Case::new(record, own, call.clone(), demand(answer)).with_room(room));
            }
        }
    }
    cases
}

/// Telegrams received of every length up to 260, and of greater ones that a narrower number would wrap into good ones,
/// in every phase. They fail the check.
pub fn telegram_lengths() -> Vec<Case> {
    let mut cases = Vec::new();
    for (record, own) in records() {
        let closed = Record::closed(&record.end(own), CLOSED);
        let event = Event::Closed {
            reason: 0x06,
            finally: false,
        };
        for length in (0..=260).chain([512, 0x1_0000 + 8, 0x1_0000 + 20]) {
            let demand = match (length, record.phase) {
                (0..=5 | 245.., _) => Demand::Refused(6),
                (_, FINALLY_CLOSED) => Demand::Refused(8),
                (_, CLOSED) => Demand::Done(record, None, Event::Nothing),
                _ => Demand::Done(closed, Some(Kind::Disconnect), event),
            };
            cases.push(Case::new(record, own, received(NOW, pattern(length)), demand));
        }
    }
    cases
}

/// Idle times named and not named, in open and in received, in every phase. 0 named is 0 declared; where none is named
/// 1,000 is declared, whatever stands beside the flag. Every flag but 0 names one, also those that a narrower number
/// would wrap into 0.
pub fn namings() -> Vec<Case> {
    const FLAGS: [u32; 8] = [0, 1, 2, 255, 256, 0x1_0000, 0x8000_0000, u32::MAX];
    let mut cases = Vec::new();
    for (record, own) in records() {
        let request = bytes(&record, own, Kind::Request);
        for named in FLAGS {
            for idle_time in GOOD_IDLE_TIMES.into_iter().chain(BAD_IDLE_TIMES) {
                let good = named == 0 || GOOD_IDLE_TIMES.contains(&idle_time);
                let declared = if named == 0 { 1000 } else { idle_time };
                for call in [open(NOW), received(NOW, request.clone())] {
                    let demand = match good && record.phase == CLOSED {
                        true => declaring(&record, &call, declared),
                        false => demand_of_values(good, &call, record.phase),
                    };
                    let call = call.with_naming(Naming { named, idle_time });
                    cases.push(Case::new(record, own, call, demand));
                }
            }
        }
    }
    cases
}

/// A closed record opens, or confirms the request of `link_samples`, and declares this idle time.
fn declaring(record: &Record, call: &Call, declared: u32) -> Demand {
    let opened = Record {
        phase: CONFIRM_AWAITED,
        sending: RANDOM + 1,
        declared,
        sent_at: NOW,
        ..*record
    };
    let confirmed = Record {
        phase: AUTHENTICATION_AWAITED,
        expected: PARTNERS_RANDOM.wrapping_add(1),
        watched: PARTNERS_IDLE_TIME,
        taken_at: NOW,
        ..opened
    };
    match call {
        Call::Open { .. } => Demand::Done(opened, Some(Kind::Request), Event::Nothing),
        _ => Demand::Done(confirmed, Some(Kind::Confirm), Event::Nothing),
    }
}

/// Net data lent to open, send and received, and a text lent to close, of lengths around each limit: in received they
/// are measured in every phase.
pub fn net_lengths() -> Vec<Case> {
    let lengths = (0..=4)
        .chain(38..=43)
        .chain(224..=245)
        .chain([255, 256, 257, 300, 0x1_0000, 0x1_0000 + 5]);
    let mut cases = Vec::new();
    for length in lengths {
        for (record, own) in records() {
            // As the scope prints them; 40 is from 5.2.5.9.
            let (request_most, data_most) = if record.level == 4 { (226, 236) } else { (228, 238) };
            let request = bytes(&record, own, Kind::Request);
            let calls = [
                (open(NOW), request_most),
                (received(NOW, request), request_most),
                (send(NOW), data_most),
                (close(0, 0x1F), 40),
            ];
            for (call, most) in calls {
                let demand = demand_of_values(length <= most, &call, record.phase);
                let call = call.with_net(pattern(length)).with_text(pattern(length));
                cases.push(Case::new(record, own, call, demand));
            }
        }
    }
    cases
}

/// Send with every command up to 300, those with a level's bits included, and with greater numbers that would wrap.
pub fn commands() -> Vec<Case> {
    let mut cases = Vec::new();
    for (record, own) in records() {
        for command in (0..=300).chain([0x13F, 0x1_0009, 0x1_0020, u32::MAX]) {
            let of_data = command == 0x09 || (0x20..=0x3F).contains(&command);
            let call = send(NOW).with_command(command);
            let demand = demand_of_values(of_data, &call, record.phase);
            cases.push(Case::new(record, own, call, demand));
        }
    }
    cases
}

/// Close with every reason up to 260 and types around the two good ones, and with greater numbers that would wrap.
pub fn types_and_reasons() -> Vec<Case> {
    let mut cases = Vec::new();
    for (record, own) in records() {
        for new_setup in [0, 1, 2, 255, 256, 257, 0x1_0000, u32::MAX] {
            for reason in (0..=260).chain([0x11F, 0x120, 0x1_0000, 0x1_0020, u32::MAX]) {
                let good = new_setup <= 1 && (reason <= 0x07 || (0x1F..=0x40).contains(&reason));
                let call = close(new_setup, reason);
                let finally = new_setup == 0;
                let closed = Record::closed(&record.end(own), if finally { FINALLY_CLOSED } else { CLOSED });
                let demand = match demand_of_values(good, &call, record.phase) {
                    Demand::NotRefused => {
                        Demand::Done(closed, Some(Kind::Disconnect), Event::Closed { reason, finally })
                    }
                    refused => refused,
                };
                cases.push(Case::new(record, own, call, demand));
            }
        }
    }
    cases
}
