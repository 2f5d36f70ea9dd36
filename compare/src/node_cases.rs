//! Systematic cases of a node's table: how many records, each field of each record, two alike at every pair of places, which record a telegram is
//! for, and the steps of one connection at several places of a table.

use crate::link_call::Call;
use crate::link_case;
use crate::link_refusals::{answer, variations};
use crate::link_samples::{bytes, received, NOW};
use crate::link_step::{Record, CLOSED, OPEN};
use crate::node_call::{Asked, Frame, Head, Whose};
use crate::node_case::{Case, Demand};
use crate::node_samples::{ask, asks, table, HEAD, OTHER_ADDRESS, OTHER_SAP};
use crate::samples::limits;
use crate::telegram::Kind;
use crate::{link_cases, link_refusals, link_times};

/// The demand on a good call about the record at a place of a good table.
fn by_phase(table: &[Record], place: usize, asked: &Asked) -> Demand {
    match answer(&asked.call, table[place].phase) {
        0 => Demand::Done(place),
        number => Demand::Refused(number),
    }
}

/// Every call about every record of tables of several sizes, in every phase.
pub fn every_record() -> Vec<Case> {
    let mut cases = Vec::new();
    for (count, shift) in [1, 2, 5, 63, 64].into_iter().flat_map(|count| (0..6).map(move |shift| (count, shift))) {
        let table = table(count, shift);
        for place in 0..count {
            for asked in asks(&table, place) {
                let demand = by_phase(&table, place, &asked);
                cases.push(Case::new(table.clone(), asked, demand));
            }
        }
    }
    cases
}

/// Tables of 0 to 70 records, and of more that a narrower number would wrap into a good one. Only the number of the records is wrong.
pub fn counts() -> Vec<Case> {
    let one = table(1, 0);
    let mut cases = Vec::new();
    for count in (0..=70).chain([127, 128, 255, 256, 257, 320]) {
        let table = table(count, 0);
        let about = if count == 0 { &one } else { &table };
        for place in [0, count.saturating_sub(1)] {
            for asked in asks(about, place) {
                let demand = match count {
                    1..=64 => by_phase(&table, place, &asked),
                    _ => Demand::Refused(1),
                };
                cases.push(Case::new(table.clone(), asked, demand));
            }
        }
    }
    cases
}

/// The record with each timer at the head's latest time, which is good, and later.
fn late_timers(record: Record) -> Vec<(Record, bool)> {
    let mut records = Vec::new();
    for (timer, late) in [
        (HEAD.latest, false),
        (HEAD.latest + 1, true),
        (NOW, true),
        (NOW + 1, true),
        (u64::MAX, true),
    ] {
        records.push((Record { sent_at: timer, ..record }, late));
        records.push((Record { taken_at: timer, ..record }, late));
    }
    records
}

/// Tables with each field of each record out of range, for calls about that record and about another. The calls take turns.
pub fn fields() -> Vec<Case> {
    let mut cases = Vec::new();
    for (count, shift) in [(1, 4), (2, 0), (64, 0)] {
        let good = table(count, shift);
        for place in 0..count {
            let record = good[place];
            let of_record = variations(record, HEAD.own).into_iter().filter(|(_, own, _)| *own == HEAD.own);
            let bad = of_record
                .filter(|(_, _, out_of_range)| *out_of_range)
                .map(|(record, _, _)| (record, true));
            let timers = late_timers(record).into_iter().filter(|(_, late)| *late || record.phase == OPEN);
            for (record, out_of_range) in bad.chain(timers) {
                let mut table = good.clone();
                table[place] = record;
                for at in [place, (place + 1) % count] {
                    let asked = asks(&table, at).swap_remove(cases.len() % 5);
                    let demand = match out_of_range {
                        true => Demand::Refused(1),
                        false => by_phase(&table, at, &asked),
                    };
                    cases.push(Case::new(table.clone(), asked, demand));
                }
            }
        }
    }
    cases
}

/// Heads with the own address at its limits and past them, for every call.
pub fn heads() -> Vec<Case> {
    let table = table(6, 0);
    let mut cases = Vec::new();
    for place in 0..table.len() {
        let record = &table[place];
        for (end, answer) in limits(record.end(HEAD.own)).into_iter().filter(|(end, _)| record.between(end) == *record) {
            for asked in asks(&table, place) {
                let head = Head { own: end.own, ..HEAD };
                let demand = match answer {
                    0 => by_phase(&table, place, &asked),
                    number => Demand::Refused(number),
                };
                cases.push(Case::new(table.clone(), Asked { head, ..asked }, demand));
            }
        }
    }
    cases
}

/// Every pair of places of tables of several sizes.
fn pairs() -> Vec<(Vec<Record>, usize, usize)> {
    let mut pairs = Vec::new();
    for count in [2, 3, 7, 64] {
        let table = table(count, 4);
        for first in 0..count {
            pairs.extend((first + 1..count).map(|second| (table.clone(), first, second)));
        }
    }
    pairs
}

/// The record with partner address and SAPs of another.
fn named_as(record: &Record, other: &Record) -> Record {
    Record {
        partner: other.partner,
        partner_sap: other.partner_sap,
        local_sap: other.local_sap,
        ..*record
    }
}

/// Two records alike at every pair of places, whatever their levels and phases, for calls about each of them and about another record. The calls take
/// turns.
pub fn pairs_alike() -> Vec<Case> {
    let mut cases = Vec::new();
    for (mut table, first, second) in pairs() {
        table[second] = named_as(&table[second], &table[first]);
        for at in [first, second, (second + 1) % table.len()] {
            let asked = asks(&table, at).swap_remove(cases.len() % 5);
            cases.push(Case::new(table.clone(), asked, Demand::Refused(1)));
        }
    }
    cases
}

/// Records that differ in one of partner address, partner SAP and local SAP alone, at every pair of places: all good.
pub fn pairs_nearly_alike() -> Vec<Case> {
    let mut cases = Vec::new();
    for (table, first, second) in pairs() {
        let named = named_as(&table[second], &table[first]);
        let others = [
            Record {
                partner: OTHER_ADDRESS,
                ..named
            },
            Record {
                partner_sap: OTHER_SAP,
                ..named
            },
            Record {
                local_sap: OTHER_SAP,
                ..named
            },
        ];
        for other in others {
            let mut table = table.clone();
            table[second] = other;
            for at in [first, second] {
                let asked = ask(received(NOW, bytes(&table[at], HEAD.own, Kind::Data)), at, &table[at]);
                let demand = by_phase(&table, at, &asked);
                cases.push(Case::new(table.clone(), asked, demand));
            }
        }
    }
    cases
}

/// The frame with each of its numbers changed, among these numbers that a narrower one would wrap into the right one, or with its SAPs exchanged.
fn other_frames(frame: Frame) -> Vec<Frame> {
    let Frame {
        sender,
        destination_sap,
        source_sap,
    } = frame;
    let changed = |number: u32| [number ^ 1, number + 256, number + 0x1_0000, OTHER_ADDRESS, 127, u32::MAX];
    let mut frames = vec![Frame {
        destination_sap: source_sap,
        source_sap: destination_sap,
        ..frame
    }];
    frames.extend(changed(sender).map(|sender| Frame { sender, ..frame }));
    frames.extend(changed(destination_sap).map(|destination_sap| Frame { destination_sap, ..frame }));
    frames.extend(changed(source_sap).map(|source_sap| Frame { source_sap, ..frame }));
    frames
}

/// Data for each record of a table of 64 in other frames: no record is taken that doesn't agree in all three numbers.
pub fn frames() -> Vec<Case> {
    let table = table(64, 4);
    let mut cases = Vec::new();
    for record in &table {
        let data = received(NOW, bytes(record, HEAD.own, Kind::Data));
        for frame in other_frames(Frame::to(record)) {
            let matching = table.iter().position(|other| Frame::to(other) == frame);
            let demand = match matching {
                None => Demand::Refused(2),
                Some(place) if answer(&data, table[place].phase) == 0 => Demand::Agree,
                Some(_) => Demand::Refused(8),
            };
            let whose = Whose::Frame(frame);
            let asked = ask(data.clone(), 0, record);
            cases.push(Case::new(table.clone(), Asked { whose, ..asked }, demand));
        }
    }
    cases
}

/// Data for each open connection of a table in the frame of each other one: none comes up, though all expect the same number.
pub fn crossed() -> Vec<Case> {
    let table: Vec<Record> = table(64, 0).into_iter().filter(|record| record.phase == OPEN).collect();
    let mut cases = Vec::new();
    for (from, sender) in table.iter().enumerate() {
        let data = received(NOW, bytes(sender, HEAD.own, Kind::Data));
        for (place, record) in table.iter().enumerate() {
            let demand = if place == from { Demand::Done(place) } else { Demand::NoData(place) };
            cases.push(Case::new(table.clone(), ask(data.clone(), 0, record), demand));
        }
    }
    cases
}

/// Each record of a table with each other one exchanged: a telegram finds its record at the other's place.
pub fn exchanged_places() -> Vec<Case> {
    let good = table(12, 4);
    let mut cases = Vec::new();
    for first in 0..good.len() {
        for second in 0..good.len() {
            let mut table = good.clone();
            table.swap(first, second);
            for asked in asks(&table, second) {
                let demand = by_phase(&table, second, &asked);
                cases.push(Case::new(table.clone(), asked, demand));
            }
        }
    }
    cases
}

/// Cases of one connection at the first, a middle and the last place of a table.
pub fn steps() -> Vec<Case> {
    let groups = [
        link_cases::phases_and_telegrams,
        link_cases::phases_and_failing_telegrams,
        link_cases::confirm_awaited,
        link_cases::numbers,
        link_times::waits_and_watch,
        link_times::watch_before_idle,
        link_times::send_and_close_late,
        link_refusals::phases,
        link_refusals::namings,
        link_refusals::net_lengths,
    ];
    let cases = groups.into_iter().flat_map(|group| group());
    cases.enumerate().map(|(number, case)| within_table(&case, number % 3)).collect()
}

/// The step as a call about the record at this place of a table of three. The latest time seen is that of the record's later timer.
fn within_table(case: &link_case::Case, place: usize) -> Case {
    let link_case::Case { step, before, demand } = case;
    let record = step.record;
    let head = Head {
        own: step.own,
        latest: record.sent_at.max(record.taken_at),
    };
    let mut table = table(3, 0);
    table
        .iter_mut()
        .for_each(|neighbour| *neighbour = Record::closed(&neighbour.end(head.own), CLOSED));
    table.iter_mut().for_each(|neighbour| neighbour.local_sap = OTHER_SAP);
    table[place] = record;
    let asked = ask(step.call.clone(), place, &record);
    let time = match step.call {
        Call::Close { .. } => head.latest,
        _ => step.call.time(),
    };
    let demand = match demand {
        _ if time < head.latest => Demand::Refused(7),
        link_case::Demand::Agree => Demand::Agree,
        link_case::Demand::Refused(number) => Demand::Refused(*number),
        link_case::Demand::NotRefused | link_case::Demand::Done(..) => Demand::Done(place),
    };
    Case {
        table,
        asked: Asked { head, time, ..asked },
        before: before.clone(),
        demand,
    }
}
