//! The lines of the scope that are marked "Run" and are about tables and openings, each as a case with its name, by
//! both programs.

use crate::library_node;
use crate::link_call::{Call, Naming};
use crate::link_samples::{bytes, open, received, record, send, NOW};
use crate::link_step::{Record, CLOSED, OPEN};
use crate::node_call::Head;
use crate::node_case::{Case, Demand, Outcome, LIBRARY, SECOND};
use crate::node_samples::{ask, asks, table, HEAD, OTHER_ADDRESS, OTHER_SAP};
use crate::samples::{pattern, SENDERS};
use crate::tally::Tally;
use crate::telegram::{End, Kind};

/// A case with its name, and what the line says of its outcome.
struct Line {
    what: &'static str,
    case: Case,
    says: fn(&Outcome) -> bool,
}

/// A table of an open and a closed record at SL 4.
fn two_records() -> Vec<Record> {
    let open = record(SENDERS[0], OPEN);
    let closed = record(SENDERS[0], CLOSED);
    vec![
        open,
        Record {
            partner: OTHER_ADDRESS,
            ..closed
        },
    ]
}

fn sends(length: usize, demand: Demand) -> Case {
    let table = two_records();
    let asked = ask(send(NOW).with_net(pattern(length)), 0, &table[0]);
    Case::new(table, asked, demand)
}

fn opens(naming: Naming) -> Case {
    let table = two_records();
    let asked = ask(open(NOW).with_naming(naming), 1, &table[1]);
    Case::new(table, asked, Demand::Done(1))
}

/// A request of the closed record's partner, and the confirm of it.
fn confirms(naming: Naming) -> Case {
    let table = two_records();
    let request = bytes(&table[1], HEAD.own, Kind::Request);
    let asked = ask(received(NOW, request).with_naming(naming), 1, &table[1]);
    Case::new(table, asked, Demand::Done(1))
}

/// A tick of the first record of a table with this many.
fn ticks(count: usize, demand: Demand) -> Case {
    let table = table(count, 0);
    let asked = ask(Call::Tick { time: NOW }, 0, &table[0]);
    Case::new(table, asked, demand)
}

/// Data for the second of two open records that differ in local SAP alone.
fn differing_in_local_sap() -> Case {
    let first = record(SENDERS[0], OPEN);
    let second = Record {
        local_sap: OTHER_SAP,
        ..first
    };
    let table = vec![first, second];
    let asked = asks(&table, 1).remove(3);
    Case::new(table, asked, Demand::Done(1))
}

/// Bytes 7..8 of the telegram written.
fn idle_time_written(outcome: &Outcome) -> Option<&[u8]> {
    outcome.telegram().get(6..8)
}

fn lines() -> Vec<Line> {
    let line = |what, case, says| Line { what, case, says };
    vec![
        line("data of 236 bytes at SL 4 make 244", sends(236, Demand::Done(0)), |outcome| {
            outcome.telegram().len() == 244
        }),
        line("data of 237 bytes at SL 4 answer 5", sends(237, Demand::Refused(5)), |_| true),
        line("a table of 64 records is good", ticks(64, Demand::Done(0)), |_| true),
        line("a table of 65 records answers 1", ticks(65, Demand::Refused(1)), |_| true),
        line("two records differing in local SAP alone are good", differing_in_local_sap(), |outcome| {
            outcome.answered.happened.event == 2
        }),
        line(
            "an opening that names no time writes E8h 03h as bytes 7..8",
            opens(Naming { named: 0, idle_time: 0 }),
            |outcome| idle_time_written(outcome) == Some(&[0xE8, 0x03]),
        ),
        line(
            "a confirm that names no time writes E8h 03h as bytes 7..8",
            confirms(Naming { named: 0, idle_time: 0 }),
            |outcome| idle_time_written(outcome) == Some(&[0xE8, 0x03]),
        ),
        line("naming 500 writes F4h 01h", opens(Naming { named: 1, idle_time: 500 }), |outcome| {
            idle_time_written(outcome) == Some(&[0xF4, 0x01])
        }),
        line("one that names 0 writes 0 and 0", opens(Naming { named: 1, idle_time: 0 }), |outcome| {
            idle_time_written(outcome) == Some(&[0, 0])
        }),
    ]
}

/// Each line: the programs agree, and both do what it says.
pub fn run(tally: &mut Tally) {
    for Line { what, case, says } in lines() {
        println!("{:<11}{what}", "run");
        case.compare(tally);
        for program in [LIBRARY, SECOND] {
            tally.hold(says(&case.outcome(program)), || format!("otherwise: {what}"));
        }
    }
    tally.told("the scope, the lines on tables and openings: each by both programs");
}

/// A new head and a fresh record, in the library as in the scope, by the numbers that they are given, whatever these
/// are.
pub fn beginnings(tally: &mut Tally) {
    const NUMBERS: [u32; 9] = [0, 1, 8, 62, 63, 126, 127, 256, u32::MAX];
    for own in NUMBERS {
        tally.hold(library_node::new_head(own) == Head { own, latest: 0 }, || format!("the head of {own}"));
        for other in NUMBERS {
            for level in [4, 2, 0, 260] {
                let end = End {
                    own: HEAD.own,
                    partner: own,
                    partner_sap: other,
                    local_sap: own ^ 5,
                    level,
                };
                let fresh = library_node::fresh(end.partner, end.partner_sap, end.local_sap, level);
                tally.hold(fresh == Record::closed(&end, CLOSED), || format!("the fresh record of {end:?}"));
            }
        }
    }
    tally.told("new heads and fresh records, from good numbers and others");
}
