//! What the systematic cases of a node start from: good tables of any number of records, in every phase, and a good call of each sort about each of
//! them.

use crate::link_call::Call;
use crate::link_samples::{calls, record, NOW, PHASES};
use crate::link_step::Record;
use crate::node_call::{Asked, Frame, Head, Whose};
use crate::telegram::End;

/// The head beside the tables: its time is before that of the calls, and not before the timers of a record.
pub const HEAD: Head = Head { own: 8, latest: NOW - 20 };

const PARTNERS: [u32; 6] = [1, 0, 126, 7, 8, 64];
const PARTNER_SAPS: [u32; 4] = [3, 62, 5, 0];
const LOCAL_SAPS: [u32; 3] = [5, 3, 62];

/// An address and a SAP that no record of the tables has.
pub const OTHER_ADDRESS: u32 = 100;
pub const OTHER_SAP: u32 = 33;

/// The end of a record of the tables. The same addresses and the same SAPs come up in many of them, so that records differ in little. From the 73rd
/// on the addresses are others.
fn end(number: usize) -> End {
    let among = |values: &[u32], number: usize| values[number % values.len()];
    let others = (number / 72 * 6 + number % 6) as u32;
    End {
        own: HEAD.own,
        partner: if number < 72 { among(&PARTNERS, number) } else { 10 + others },
        partner_sap: among(&PARTNER_SAPS, number / 6),
        local_sap: among(&LOCAL_SAPS, number / 24),
        level: among(&[4, 4, 2], number / 2),
    }
}

/// A good table of this many records, but for their number. The phases change from one to the next, and from one shift to the next.
pub fn table(count: usize, shift: usize) -> Vec<Record> {
    (0..count).map(|k| record(end(k), PHASES[(k + k / 6 + shift) % 6])).collect()
}

/// A call, with the record that it is about: by its place, or by the frame in which its partner sends.
pub fn ask(call: Call, place: usize, record: &Record) -> Asked {
    let whose = match call {
        Call::Received { .. } => Whose::Frame(Frame::to(record)),
        _ => Whose::Place(place),
    };
    Asked {
        head: HEAD,
        time: NOW,
        whose,
        call,
    }
}

/// A good call of each sort about the record at a place.
pub fn asks(table: &[Record], place: usize) -> Vec<Asked> {
    let record = &table[place];
    calls(record, HEAD.own, NOW).into_iter().map(|call| ask(call, place, record)).collect()
}
