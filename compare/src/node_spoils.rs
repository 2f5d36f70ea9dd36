//! How the random calls of a node are spoilt: in table, head, time, buffer, record number or frame, or in the call itself.

use crate::link_step::Record;
use crate::node::place;
use crate::node_call::{Frame, Whose};
use crate::node_case::Case;
use crate::random::{once_in, one_of, Random};
use crate::random_calls::{spoil_record, spoilt_call, RECORD_SPOILS};
use crate::stations::fill;

/// The longest buffer of the random calls.
pub const GREATEST_ROOM: usize = 300;

/// The call with one to three things spoilt, at the record that it is about or at another.
pub fn spoilt(mut case: Case, random: &mut Random) -> Case {
    let about = place(&case.asked, &case.table);
    for _ in 0..one_of(random, &[1, 1, 1, 2, 3]) {
        let last = case.table.len().saturating_sub(1);
        let at = match about {
            Some(place) if place <= last && once_in(random, 3) => place,
            _ => random.upto(last),
        };
        spoil(&mut case, at, random);
    }
    case
}

/// Each of the ways is as likely as another, but values of the call and buffers are a little more.
fn spoil(case: &mut Case, at: usize, random: &mut Random) {
    let Case { table, asked, before, .. } = case;
    let latest = asked.head.latest;
    let beyond = random.next() as u32 % 300;
    match random.upto(RECORD_SPOILS + 16) {
        0 => asked.head.own = 127 + beyond,
        way @ 1..=RECORD_SPOILS => with_record(table, at, |record| spoil_record(way, beyond, record, random)),
        11 => with_record(table, at, |record| record.expected = record.expected.wrapping_add(1)),
        12 => with_record(table, at, |record| record.sent_at = latest.wrapping_add(1)),
        13 => asked.time = latest.saturating_sub(1 + random.next() % 3),
        14 => asked.time = one_of(random, &[latest, far_time(latest, beyond), u64::MAX]),
        15 => asked.whose = elsewhere(asked.whose, table.len(), random),
        16 => copy_names(table, at, random),
        17 => fill(table, one_of(random, &[64, 65, 65, 66]), random),
        18 => table.truncate(random.upto(2)),
        19 if !table.is_empty() => table.rotate_left(at),
        20 | 21 => before.truncate(random.upto(GREATEST_ROOM)),
        _ => asked.call = spoilt_call(asked.call.clone(), random),
    }
}

/// The record at a place, where there is one.
fn with_record(table: &mut [Record], at: usize, change: impl FnOnce(&mut Record)) {
    if let Some(record) = table.get_mut(at) {
        change(record);
    }
}

/// A time that a narrower number would take for an earlier one.
fn far_time(latest: u64, beyond: u32) -> u64 {
    latest.wrapping_add(u64::from(beyond) << 32).wrapping_sub(u64::from(beyond))
}

/// Past the table, or another frame.
fn elsewhere(whose: Whose, count: usize, random: &mut Random) -> Whose {
    let frame = match whose {
        Whose::Place(place) => {
            let wrapping = [256, 1 << 32].map(|more| place.wrapping_add(more));
            return Whose::Place(one_of(random, &[count, count + 1, wrapping[0], wrapping[1], usize::MAX]));
        }
        Whose::Frame(frame) => frame,
    };
    let Frame {
        sender,
        destination_sap,
        source_sap,
    } = frame;
    let mut changed = |number: u32| one_of(random, &[number ^ 1, number.wrapping_add(256)]);
    let frames = [
        Frame {
            sender: changed(sender),
            ..frame
        },
        Frame {
            destination_sap: changed(destination_sap),
            ..frame
        },
        Frame {
            source_sap: changed(source_sap),
            ..frame
        },
        Frame {
            destination_sap: source_sap,
            source_sap: destination_sap,
            ..frame
        },
    ];
    Whose::Frame(one_of(random, &frames))
}

/// Gives the record at a place, often the last, the partner address and SAPs of another record, or two of these three numbers.
fn copy_names(table: &mut [Record], at: usize, random: &mut Random) {
    if table.len() < 2 {
        return;
    }
    let to = one_of(random, &[at, table.len() - 1]);
    let from = table[(to + 1 + random.upto(table.len() - 2)) % table.len()];
    let kept = random.upto(5);
    let record = &mut table[to];
    if kept != 0 {
        record.partner = from.partner;
    }
    if kept != 1 {
        record.partner_sap = from.partner_sap;
    }
    if kept != 2 {
        record.local_sap = from.local_sap;
    }
}
