//! Nodes that are wrong in which record they take, in their refusals, their table and their times, and in what they leave. Each is seen by the group
//! named with it and by the random calls: so the comparisons can fail.

use crate::link_call::Call;
use crate::link_step::{Record, CLOSED, FINALLY_CLOSED, OPEN};
use crate::node::{alike, call_by, place, record_in_range, REFUSALS};
use crate::node_call::{Answered, Asked, Frame, Whose};
use crate::node_case::SECOND;
use crate::telegram::LONGEST;
use crate::wrong_node::*;
use crate::{node_cases, node_refusals};

pub fn wrong_nodes() -> Vec<Wrong> {
    let groups = [
        matching(),
        orders(),
        numbers(),
        pairs(),
        fields(),
        times(),
        heads(),
        neighbours(),
        whole(),
        buffers(),
    ];
    groups.into_iter().flatten().collect()
}

fn is_receipt(asked: &Asked) -> bool {
    matches!(asked.call, Call::Received { .. })
}

/// Has a telegram taken for the first record that the frame fits so far.
fn taken_for(asked: &mut Asked, table: &[Record], fits: fn(&Frame, &Record) -> bool) {
    if let Whose::Frame(frame) = asked.whose {
        let record = table.iter().find(|record| fits(&frame, record));
        asked.whose = record.map_or(asked.whose, |record| Whose::Frame(Frame::to(record)));
    }
}

fn matching() -> Vec<Wrong> {
    let frames = node_cases::frames;
    vec![
        reads("a telegram taken for the first record", frames, |asked, _| {
            if let Whose::Frame(_) = asked.whose {
                asked.whose = Whose::Place(0);
            }
        }),
        reads(
            "a telegram taken by place: for the record whose number its source SAP is",
            frames,
            |asked, table| {
                if let Whose::Frame(frame) = asked.whose {
                    asked.whose = Whose::Place(frame.source_sap as usize % table.len().max(1));
                }
            },
        ),
        reads("a telegram matched by the sender address alone", frames, |asked, table| {
            taken_for(asked, table, |frame, record| frame.sender == record.partner);
        }),
        reads("a telegram matched by the SAPs alone", frames, |asked, table| {
            taken_for(asked, table, |frame, record| {
                (frame.destination_sap, frame.source_sap) == (record.local_sap, record.partner_sap)
            });
        }),
        reads("a telegram matched without the source SAP", frames, |asked, table| {
            taken_for(asked, table, |frame, record| {
                (frame.sender, frame.destination_sap) == (record.partner, record.local_sap)
            });
        }),
        reads("a telegram matched without the destination SAP", frames, |asked, table| {
            taken_for(asked, table, |frame, record| {
                (frame.sender, frame.source_sap) == (record.partner, record.partner_sap)
            });
        }),
        reads("a telegram matched with its SAPs exchanged", frames, |asked, _| {
            if let Whose::Frame(frame) = &mut asked.whose {
                std::mem::swap(&mut frame.destination_sap, &mut frame.source_sap);
            }
        }),
        reads("a sender address cut to 8 bits", frames, |asked, _| {
            if let Whose::Frame(frame) = &mut asked.whose {
                frame.sender &= 0xFF;
            }
        }),
        reads("a record number cut to 32 bits", node_refusals::places, |asked, _| {
            if let Whose::Place(place) = &mut asked.whose {
                *place &= 0xFFFF_FFFF;
            }
        }),
        reads(
            "the last record not searched for a telegram",
            node_refusals::taken_everywhere,
            |asked, table| {
                if is_receipt(asked) && place(asked, table).map_or(false, |place| place + 1 == table.len()) {
                    asked.whose = Whose::Place(table.len());
                }
            },
        ),
        reads("only open records searched for a telegram", node_cases::every_record, |asked, table| {
            if is_receipt(asked) && place(asked, table).map_or(false, |place| table[place].phase != OPEN) {
                asked.whose = Whose::Place(table.len());
            }
        }),
        refuses("a telegram for no record dropped", frames, 0, |asked, _, answered| {
            answered.answer.number == 2 && is_receipt(asked)
        }),
    ]
}

/// The second program with two refusals exchanged in the order.
fn exchanged(what: &'static str, one: u32, other: u32) -> Wrong {
    let order = REFUSALS.map(|number| match number {
        _ if number == one => other,
        _ if number == other => one,
        _ => number,
    });
    wrong(what, node_refusals::order, move |asked, table, out| call_by(&order, asked, table, out))
}

fn orders() -> Vec<Wrong> {
    vec![
        exchanged("4 before 1", 1, 4),
        exchanged("7 before 4", 4, 7),
        exchanged("6 before 7", 7, 6),
        exchanged("6 before 4, and 4 after 7", 4, 6),
        exchanged("2 before 6", 6, 2),
        exchanged("2 before 7, and 7 after 6", 7, 2),
        exchanged("8 before 6, and 6 after 2", 6, 8),
        exchanged("3 before 8", 8, 3),
        exchanged("5 before 3", 3, 5),
        exchanged("5 before 8, and 8 after 3", 8, 5),
        reads(
            "8 before 2: a record number past the table taken for the last",
            node_refusals::places,
            |asked, table| {
                if let Whose::Place(place) = &mut asked.whose {
                    *place = (*place).min(table.len().saturating_sub(1));
                }
            },
        ),
    ]
}

fn numbers() -> Vec<Wrong> {
    let every = node_cases::every_record;
    vec![
        leaves("2 and 8 exchanged", every, |_, _, _, answered| {
            answered.answer.number = match answered.answer.number {
                2 => 8,
                8 => 2,
                number => number,
            };
        }),
        refuses("a finally closed record not found: 2 for 8", every, 2, |asked, _, answered| {
            answered.answer.number == 8 && is_receipt(asked)
        }),
        refuses("a tick of a closed record answered with 3", every, 3, |asked, table, answered| {
            let closed = place(asked, table).map_or(false, |place| table[place].phase == CLOSED);
            answered.answer.number == 0 && closed && matches!(asked.call, Call::Tick { .. })
        }),
        refuses("a table of 0 records answered with 2", node_cases::counts, 2, |_, table, _| {
            table.is_empty()
        }),
        refuses("a table of 64 records refused", node_cases::counts, 1, |_, table, _| table.len() == 64),
        sees_table("a table of 65 records taken", node_cases::counts, |table, _| table.truncate(64)),
    ]
}

/// Gives one record of each pair that isn't looked at another partner address, as if it were not there for the search.
fn overlook(table: &mut [Record], overlooked: fn(usize, usize, &[Record]) -> bool) {
    for second in 0..table.len() {
        for first in 0..second {
            if alike(&table[first], &table[second]) && overlooked(first, second, table) {
                let free = (0..=126).find(|partner| {
                    let renamed = Record {
                        partner: *partner,
                        ..table[second]
                    };
                    !table.iter().any(|record| alike(record, &renamed))
                });
                table[second].partner = free.unwrap_or(table[second].partner);
            }
        }
    }
}

/// Whether two records agree so far.
fn any_pair(table: &[Record], agree: fn(&Record, &Record) -> bool) -> bool {
    (0..table.len()).any(|second| (0..second).any(|first| agree(&table[first], &table[second])))
}

fn pairs() -> Vec<Wrong> {
    let alike = node_cases::pairs_alike;
    let nearly = node_cases::pairs_nearly_alike;
    vec![
        sees_table("the pair search without the last record", alike, |table, _| {
            overlook(table, |_, second, table| second + 1 == table.len());
        }),
        sees_table("the pair search without the first record", alike, |table, _| {
            overlook(table, |first, _, _| first == 0);
        }),
        sees_table("the pair search over neighbours alone", alike, |table, _| {
            overlook(table, |first, second, _| second - first > 1);
        }),
        sees_table("the pair search without closed records", alike, |table, _| {
            overlook(table, |first, second, table| {
                [first, second]
                    .iter()
                    .any(|place| [CLOSED, FINALLY_CLOSED].contains(&table[*place].phase))
            });
        }),
        sees_table("records of two levels not taken for alike", alike, |table, _| {
            overlook(table, |first, second, table| table[first].level != table[second].level);
        }),
        sees_table("records alike taken", alike, |table, _| overlook(table, |_, _, _| true)),
        refuses("records with one partner and partner SAP refused", nearly, 1, |_, table, _| {
            any_pair(table, |one, other| (one.partner, one.partner_sap) == (other.partner, other.partner_sap))
        }),
        refuses("records with one partner and local SAP refused", nearly, 1, |_, table, _| {
            any_pair(table, |one, other| (one.partner, one.local_sap) == (other.partner, other.local_sap))
        }),
        refuses("records with the same SAPs refused", nearly, 1, |_, table, _| {
            any_pair(table, |one, other| {
                (one.partner_sap, one.local_sap) == (other.partner_sap, other.local_sap)
            })
        }),
    ]
}

fn fields() -> Vec<Wrong> {
    let fields = node_cases::fields;
    vec![
        sees_table("only the record asked about looked at", fields, |table, asked| {
            let about = place(asked, table);
            for (_, record) in table.iter_mut().enumerate().filter(|(place, _)| Some(*place) != about) {
                if !record_in_range(record, &asked.head) {
                    let clear = Record::closed(&record.end(0), CLOSED);
                    *record = Record {
                        partner: record.partner.min(126),
                        partner_sap: record.partner_sap.min(62),
                        local_sap: record.local_sap.min(62),
                        level: 4,
                        ..clear
                    };
                }
            }
        }),
        sees_table("timers later than the latest time taken", fields, |table, asked| {
            for record in table {
                record.sent_at = record.sent_at.min(asked.head.latest);
                record.taken_at = record.taken_at.min(asked.head.latest);
            }
        }),
        sees_table("timers held to the time of the call", fields, |table, asked| {
            for timer in table.iter_mut().flat_map(|record| [&mut record.sent_at, &mut record.taken_at]) {
                if *timer > asked.head.latest && *timer <= asked.time {
                    *timer = asked.head.latest;
                }
            }
        }),
        refuses("a timer at the latest time refused", fields, 1, |asked, table, _| {
            let latest = asked.head.latest;
            latest != 0 && table.iter().any(|record| [record.sent_at, record.taken_at].contains(&latest))
        }),
        reads("an own address out of range taken", node_cases::heads, |asked, _| {
            asked.head.own = asked.head.own.min(126);
        }),
    ]
}

fn times() -> Vec<Wrong> {
    let times = node_refusals::times;
    vec![
        refuses("a time equal to the latest refused", times, 7, |asked, _, answered| {
            ![1, 4].contains(&answered.answer.number) && asked.time == asked.head.latest
        }),
        reads("a time before the latest taken as the latest", times, |asked, _| {
            asked.time = asked.time.max(asked.head.latest);
        }),
        refuses("times compared in 32 bits", times, 7, |asked, _, answered| {
            ![1, 4].contains(&answered.answer.number) && (asked.time as u32) < asked.head.latest as u32
        }),
    ]
}

fn heads() -> Vec<Wrong> {
    let every = node_cases::every_record;
    vec![
        leaves("a refusal that stores the time", every, |asked, _, _, answered| {
            answered.head.latest = asked.head.latest.max(asked.time);
        }),
        leaves("a time too early stored", node_refusals::times, |asked, _, _, answered| {
            if answered.answer.number == 7 {
                answered.head.latest = asked.time;
            }
        }),
        leaves("the time never stored", every, |asked, _, _, answered| answered.head = asked.head),
        leaves("the time stored only where a telegram is written", every, |asked, _, _, answered| {
            if answered.answer.telegram == 0 {
                answered.head = asked.head;
            }
        }),
        leaves("the time not stored by close", every, |asked, _, _, answered| {
            if let Call::Close { .. } = asked.call {
                answered.head = asked.head;
            }
        }),
    ]
}

fn neighbours() -> Vec<Wrong> {
    let every = node_cases::every_record;
    vec![
        leaves("a call that sets the neighbour's timer too", every, |asked, place, table, answered| {
            if let (Some(place), 0) = (place, answered.answer.number) {
                let neighbour = (place + 1) % table.len();
                if table[neighbour].phase == OPEN {
                    table[neighbour].sent_at = asked.time;
                }
            }
        }),
        leaves("a closing that closes the neighbour too", every, |asked, place, table, answered| {
            if let (Some(place), 3) = (place, answered.happened.event) {
                let neighbour = (place + 1) % table.len();
                table[neighbour] = Record::closed(&table[neighbour].end(asked.head.own), CLOSED);
            }
        }),
        leaves("the record put into the first place", every, |_, place, table, answered| {
            if let (Some(place), 0) = (place, answered.answer.number) {
                table[0] = table[place];
            }
        }),
        leaves(
            "a finally closed record opened again by a call about another",
            every,
            |_, _, table, answered| {
                if answered.answer.number == 0 {
                    for record in table.iter_mut().filter(|record| record.phase == FINALLY_CLOSED) {
                        record.phase = CLOSED;
                    }
                }
            },
        ),
        leaves("a table cleared by a refusal", every, |asked, _, table, answered| {
            if answered.answer.number != 0 {
                table
                    .iter_mut()
                    .for_each(|record| *record = Record::closed(&record.end(asked.head.own), CLOSED));
            }
        }),
    ]
}

fn whole() -> Vec<Wrong> {
    let every = node_cases::every_record;
    vec![
        wrong("a node that refuses everything", every, |asked, _, _| Answered::refused(asked.head, 1)),
        wrong("a node that answers the same always", every, |asked, table, out| Answered {
            head: SECOND(asked, table, out).head,
            ..nothing_done(asked)
        }),
        wrong("a node that does nothing", every, |asked, _, _| nothing_done(asked)),
        wrong("a node that leaves table and buffer idle", every, |asked, table, out| {
            SECOND(asked, &mut table.to_vec(), &mut out.to_vec())
        }),
        wrong("a node that leaves the table idle", every, |asked, table, out| {
            SECOND(asked, &mut table.to_vec(), out)
        }),
        wrong("a node that only says that it wrote", every, |asked, table, out| {
            SECOND(asked, table, &mut out.to_vec())
        }),
        wrong("a node without addresses in the check word", every, |asked, table, out| {
            without_addresses()(asked, table, out)
        }),
    ]
}

fn buffers() -> Vec<Wrong> {
    vec![
        wrong("a buffer cleared behind the telegram", node_refusals::rooms, |asked, table, out| {
            let answered = SECOND(asked, table, out);
            if answered.answer.number == 0 {
                out[answered.answer.length as usize..].fill(0);
            }
            answered
        }),
        wrong("a buffer cleared by a refusal", node_refusals::order, |asked, table, out| {
            let answered = SECOND(asked, table, out);
            if answered.answer.number != 0 {
                out.fill(0);
            }
            answered
        }),
        wrong(
            "a node that needs room only where it writes",
            node_refusals::rooms,
            |asked, table, out| {
                let mut after = table.to_vec();
                let answered = SECOND(asked, &mut after, &mut [0; LONGEST]);
                match (answered.answer.number, answered.answer.telegram) {
                    (0, 0) => {
                        table.copy_from_slice(&after);
                        answered
                    }
                    _ => SECOND(asked, table, out),
                }
            },
        ),
    ]
}
