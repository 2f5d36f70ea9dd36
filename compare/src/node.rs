//! The second program's node: the scope, "The table" and "Numbers a call can answer". Which tables are good, which record a call is about, and the
//! refusals in their order; the step itself is that of one connection.

use crate::link::{is_bad_telegram, Link, ENDED, WRONG_PHASE};
use crate::link_step::Record;
use crate::node_call::{Answered, Asked, Frame, Head, Whose};
use crate::telegram::{BAD_TELEGRAM, BAD_VALUE, LONGEST, NO_ROOM, OUT_OF_RANGE};

/// The most records that a table has.
pub const MOST_RECORDS: usize = 64;

/// The numbers of the refusals that a node adds to those of a connection.
pub const TOO_EARLY: u32 = 7;
pub const NO_RECORD: u32 = 2;

/// All refusals in the order in which the first that holds is answered.
pub const REFUSALS: [u32; 8] = [OUT_OF_RANGE, NO_ROOM, TOO_EARLY, BAD_TELEGRAM, NO_RECORD, ENDED, WRONG_PHASE, BAD_VALUE];

/// Whether two records agree in partner address and both SAPs.
pub fn alike(one: &Record, other: &Record) -> bool {
    (one.partner, one.partner_sap, one.local_sap) == (other.partner, other.partner_sap, other.local_sap)
}

/// The first two places whose records are alike.
fn pair_alike(table: &[Record]) -> Option<(usize, usize)> {
    let pairs = (0..table.len()).flat_map(|first| (first + 1..table.len()).map(move |second| (first, second)));
    pairs.into_iter().find(|(first, second)| alike(&table[*first], &table[*second]))
}

/// Whether a record's fields are in range on this node. Neither timer is later than the latest time seen.
pub fn record_in_range(record: &Record, head: &Head) -> bool {
    let timers = record.sent_at <= head.latest && record.taken_at <= head.latest;
    timers && Link::in_range(*record, head.own).is_some()
}

/// Whether head and table are those of a node: answer 1. An own address out of range makes each of its records so.
fn table_in_range(table: &[Record], head: &Head) -> bool {
    let count = (1..=MOST_RECORDS).contains(&table.len());
    count && table.iter().all(|record| record_in_range(record, head)) && pair_alike(table).is_none()
}

/// Whether a telegram in this frame is for the record: its partner sent it, to our SAP, from the partner's.
fn is_for(frame: &Frame, record: &Record) -> bool {
    frame.sender == record.partner && frame.destination_sap == record.local_sap && frame.source_sap == record.partner_sap
}

/// Where the record stands that the call is about; nothing where there is none: answer 2.
pub fn place(asked: &Asked, table: &[Record]) -> Option<usize> {
    match asked.whose {
        Whose::Place(place) => (place < table.len()).then(|| place),
        Whose::Frame(frame) => table.iter().position(|record| is_for(&frame, record)),
    }
}

/// Whether a refusal holds, whatever the others do.
fn holds(number: u32, asked: &Asked, table: &[Record], room: usize) -> bool {
    let of_record = |refuses: fn(&Link, &Asked) -> bool| {
        let link = place(asked, table).and_then(|place| Link::in_range(table[place], asked.head.own));
        link.map_or(false, |link| refuses(&link, asked))
    };
    match number {
        OUT_OF_RANGE => !table_in_range(table, &asked.head),
        NO_ROOM => room < LONGEST,
        TOO_EARLY => asked.time < asked.head.latest,
        BAD_TELEGRAM => is_bad_telegram(&asked.call),
        NO_RECORD => place(asked, table).is_none(),
        ENDED => of_record(|link, _| link.is_ended()),
        WRONG_PHASE => of_record(|link, asked| !link.takes(&asked.call)),
        BAD_VALUE => of_record(|link, asked| !link.allows(&asked.call)),
        _ => false,
    }
}

/// A call. Refused, it leaves head, table and buffer as they were; done, it sets the latest time, and of the table it changes the one record.
pub fn call(asked: &Asked, table: &mut [Record], out: &mut [u8]) -> Answered {
    call_by(&REFUSALS, asked, table, out)
}

/// The call with these refusals in this order.
pub fn call_by(refusals: &[u32], asked: &Asked, table: &mut [Record], out: &mut [u8]) -> Answered {
    let Head { own, .. } = asked.head;
    if let Some(number) = refusals.iter().find(|number| holds(**number, asked, table, out.len())) {
        return Answered::refused(asked.head, *number);
    }
    let place = place(asked, table).expect("answer 2 has turned away what is about no record");
    let link = Link::in_range(table[place], own).expect("answer 1 has turned away what is out of range");
    let stepped = link.act(&asked.call.clone().with_time(asked.time), out);
    table[place] = stepped.record;
    let latest = asked.time;
    Answered::done(Head { own, latest }, &stepped)
}
