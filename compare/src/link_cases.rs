//! Systematic cases of one connection: every phase with every telegram, good and failing, in time and late; each field that a step looks at; and the numbers
//! where they wrap.

use crate::check::CLAUSES;
use crate::check_cases::broken;
use crate::draft::Draft;
use crate::link_call::Call;
use crate::link_case::{Case, Demand};
use crate::link_demands::{begun, case, closes, good, records_in, sent, times, Brings, FAILED, RUN_OUT};
use crate::link_samples::*;
use crate::link_step::{Event, Record, ACKNOWLEDGEMENT_AWAITED, AUTHENTICATION_AWAITED, CLOSED, CONFIRM_AWAITED, FINALLY_CLOSED};
use crate::samples::{longest_telegrams, pattern};
use crate::telegram::{Kind, Telegram, KINDS};
use crate::write_cases::NUMBERS;

/// Every kind of telegram in every phase, good, at times around the limit of the wait or watch.
pub fn phases_and_telegrams() -> Vec<Case> {
    let mut cases = Vec::new();
    for (record, own) in records() {
        for kind in KINDS {
            for (time, late) in times(&record) {
                let row = if late { RUN_OUT } else { good(kind) };
                cases.push(case(record, own, received(time, bytes(&record, own, kind)), row));
            }
        }
    }
    cases
}

/// The partner's telegram with each clause of the check broken in several ways, and with another number.
fn failing(draft: &Draft) -> Vec<Vec<u8>> {
    let broken = CLAUSES.into_iter().flat_map(|clause| broken(draft, clause)).map(|draft| draft.telegram());
    let renumbered = |number: u32| {
        let [lowest, ..] = number.to_le_bytes();
        Draft {
            number,
            ..draft.with(0, lowest)
        }
        .telegram()
    };
    let others = [1, 255, 256, 0x1_0000, 0x8000_0000].map(|older| renumbered(draft.number.wrapping_sub(older)));
    match draft.is_connect() {
        true => broken.collect(),
        false => broken.chain(others).collect(),
    }
}

/// The same with telegrams that fail the check.
pub fn phases_and_failing_telegrams() -> Vec<Case> {
    let mut cases = Vec::new();
    for (record, own) in records() {
        for kind in KINDS {
            for bytes in failing(&draft(&record, own, &telegram(&record, kind))) {
                for (time, late) in times(&record) {
                    let row = if late { RUN_OUT } else { FAILED };
                    cases.push(case(record, own, received(time, bytes.clone()), row));
                }
            }
        }
    }
    cases
}

/// Each single bit damaged in each kind of telegram, in every phase.
pub fn damaged_bits() -> Vec<Case> {
    let mut cases = Vec::new();
    for (record, own) in records() {
        for kind in KINDS {
            let bytes = bytes(&record, own, kind);
            for bit in 0..bytes.len() * 8 {
                let mut damaged = bytes.clone();
                damaged[bit / 8] ^= 1 << (bit % 8);
                cases.push(case(record, own, received(NOW, damaged), FAILED));
            }
        }
    }
    cases
}

/// The longest telegrams of each kind that has net data, and the shortest.
pub fn net_lengths_received() -> Vec<Case> {
    let mut cases = Vec::new();
    for (record, own) in records() {
        let number = next_number(&record);
        let shortest = [
            Telegram::request(1, 100, vec![]),
            Telegram::confirm(2, 100, vec![]),
            Telegram::disconnect(number, 1, 0x00, vec![]),
            Telegram::data(number, 0x3F, vec![]),
        ];
        for telegram in longest_telegrams(record.level).iter().chain(&shortest) {
            let bytes = draft(&record, own, telegram).numbered(number).telegram();
            cases.push(case(record, own, received(NOW, bytes), good(telegram.kind())));
        }
        for length in 0..=238 {
            let bytes = draft(&record, own, &Telegram::data(number, 0x09, pattern(length))).telegram();
            let call = received(NOW, bytes);
            cases.push(match call.telegram().len() {
                245.. => Case::new(record, own, call, Demand::Refused(6)),
                _ => case(record, own, call, good(Kind::Data)),
            });
        }
    }
    cases
}

/// Every command in an idle telegram's and in a data telegram's shape, in every phase.
pub fn commands_received() -> Vec<Case> {
    let mut cases = Vec::new();
    for (record, own) in records() {
        let number = next_number(&record);
        for telegram in [Telegram::idle(number), Telegram::data(number, 0x09, pattern(5))] {
            let first = if record.level == 4 { 0x80 } else { 0x00 };
            for command in 0..=255u8 {
                let bytes = draft(&record, own, &telegram).with(1, command).telegram();
                let of_level = (first..=first + 0x3F).contains(&command);
                let row = match command % 0x40 {
                    0x09 | 0x20..=0x3F if of_level => good(Kind::Data),
                    0x06 if of_level && telegram.kind() == Kind::Idle => good(Kind::Idle),
                    // A disconnect in the data telegram's shape has a type out of range.
                    _ => FAILED,
                };
                cases.push(case(record, own, received(NOW, bytes), row));
            }
        }
    }
    cases
}

/// Requests to closed records and confirms to those that await one, with every X and Y, and some Z: only 3 and 0 are accepted. In the other phases the version
/// doesn't matter.
pub fn versions() -> Vec<Case> {
    let any_x = (0..=255).map(|x| [x, 0, 0]);
    let any_y = (0..=255).map(|y| [3, y, 0]);
    let some = [[3, 0, 1], [3, 0, 255], [0, 3, 0], [2, 2, 0], [4, 4, 0], [255, 255, 255]];
    let mut cases = Vec::new();
    for [x, y, z] in any_x.chain(any_y).chain(some) {
        for (record, own) in records() {
            for kind in [Kind::Request, Kind::Confirm] {
                let draft = draft(&record, own, &telegram(&record, kind)).with(8, x).with(9, y).with(10, z);
                let row = good(kind).map(|brings| match brings {
                    Brings::Confirm if [x, y] != [3, 0] => Brings::Nothing,
                    Brings::Authentication if [x, y] != [3, 0] => Brings::Closes(1, true),
                    other => other,
                });
                cases.push(case(record, own, received(NOW, draft.telegram()), row));
            }
        }
    }
    cases
}

/// Requests and confirms with every good idle time, and with both values of the dual bus byte: the time is watched from then on.
pub fn idle_times_received() -> Vec<Case> {
    let mut cases = Vec::new();
    for (record, own) in records_in(&[CLOSED, CONFIRM_AWAITED]) {
        for idle_time in (0..=655).map(|steps| steps * 100) {
            let request = Telegram::request(PARTNERS_RANDOM, idle_time, vec![]);
            let confirm = Telegram::confirm(PARTNERS_RANDOM, idle_time, vec![]);
            for telegram in [request, confirm] {
                for dual_bus in [0, 1] {
                    let bytes = draft(&record, own, &telegram).with(11, dual_bus).telegram();
                    cases.push(case(record, own, received(NOW, bytes), good(telegram.kind())));
                }
            }
        }
    }
    cases
}

/// Authentications and acknowledgements with right and wrong numbers, around every number at which something carries over. The scope's worked numbers are
/// among them: 89ABCDEFh gives 89ABCDF0h at SL 4 and 89ABCDF1h at SL 2, FFFFFFFFh gives 0 and 1.
pub fn authentication_numbers() -> Vec<Case> {
    let mut cases = Vec::new();
    for (record, own) in records_in(&[AUTHENTICATION_AWAITED, ACKNOWLEDGEMENT_AWAITED]) {
        for random in NUMBERS {
            let awaited = record.phase == AUTHENTICATION_AWAITED;
            let kind = if awaited { Kind::Authentication } else { Kind::Acknowledgement };
            let sending = random.wrapping_add(if awaited { 1 } else { 2 });
            let record = Record { sending, ..record };
            let right = random.wrapping_add(if record.level == 4 { 1 } else { 2 });
            let near = (0..=4).flat_map(|k| [right.wrapping_add(k), right.wrapping_sub(k)]);
            let far = [256, 0x1_0000, 0x100_0000].map(|k| right.wrapping_add(k));
            let bits = (0..32).map(|bit| right ^ 1 << bit);
            for number in near.chain(far).chain(bits) {
                let [a, b, c, d] = number.to_le_bytes();
                let draft = draft(&record, own, &telegram(&record, kind)).with(2, a).with(3, b).with(4, c).with(5, d);
                let row = if number == right { good(kind) } else { [Brings::Closes(3, true); 5] };
                cases.push(case(record, own, received(NOW, draft.telegram()), row));
            }
        }
    }
    cases
}

/// Disconnects with every type around the good ones and every reason, in every phase.
pub fn disconnects_received() -> Vec<Case> {
    let mut cases = Vec::new();
    for (record, own) in records() {
        let draft = draft(&record, own, &telegram(&record, Kind::Disconnect));
        for new_setup in [0, 1, 2, 3, 128, 255] {
            for reason in 0..=255 {
                let bytes = draft.with(2, new_setup).with(3, reason).telegram();
                let row = if new_setup <= 1 { good(Kind::Disconnect) } else { FAILED };
                cases.push(case(record, own, received(NOW, bytes), row));
            }
        }
    }
    cases
}

/// Records that await a confirm, with anything in the fields that such a record doesn't use: 0 is expected all the same.
pub fn confirm_awaited() -> Vec<Case> {
    let mut cases = Vec::new();
    for (record, own) in records_in(&[CONFIRM_AWAITED]) {
        for expected in NUMBERS {
            let record = Record {
                expected,
                watched: 100,
                taken_at: NOW - 1000,
                ..record
            };
            for kind in KINDS {
                cases.push(case(record, own, received(NOW, bytes(&record, own, kind)), good(kind)));
                let renumbered = draft(&record, own, &telegram(&record, kind)).numbered(expected);
                if expected != 0 && !renumbered.is_connect() {
                    cases.push(case(record, own, received(NOW, renumbered.telegram()), FAILED));
                }
            }
        }
    }
    cases
}

/// Good telegrams that come to a record with another address or SAP, with two of them swapped, or with the other level: they fail.
pub fn other_ends() -> Vec<Case> {
    let mut cases = Vec::new();
    for (record, own) in records() {
        for kind in KINDS {
            let bytes = bytes(&record, own, kind);
            let mut push = |record: Record, own: u32| cases.push(case(record, own, received(NOW, bytes.clone()), FAILED));
            for near in [1, 2, 3, 64] {
                push(record, own ^ near);
                let partner = record.partner ^ near;
                push(Record { partner, ..record }, own);
            }
            for near in [1, 2, 8, 16] {
                let (partner_sap, local_sap) = (record.partner_sap ^ near, record.local_sap ^ near);
                push(Record { partner_sap, ..record }, own);
                push(Record { local_sap, ..record }, own);
            }
            let crossed = Record { partner: own, ..record };
            push(crossed, record.partner);
            let swapped = Record {
                partner_sap: record.local_sap,
                local_sap: record.partner_sap,
                ..record
            };
            push(swapped, own);
            let level = 6 - record.level;
            push(Record { level, ..record }, own);
        }
    }
    // Some neighbours are out of range, and those are refused.
    cases.retain(|case| case.step.end().in_range().is_some());
    cases
}

/// The numbers of each step where they carry over and wrap: every telegram sent or taken adds one, and a disconnect has the number before closing.
pub fn numbers() -> Vec<Case> {
    let mut cases = Vec::new();
    for (record, own) in records() {
        for sending in NUMBERS {
            for expected in NUMBERS {
                cases.extend(match record.phase {
                    CLOSED => beginning(record, own, sending, expected),
                    FINALLY_CLOSED => vec![],
                    _ => numbered(Record { sending, expected, ..record }, own),
                });
            }
        }
    }
    cases
}

/// A closed record that begins with our random number, and the partner with its own.
fn beginning(record: Record, own: u32, ours: u32, partners: u32) -> Vec<Case> {
    let open = open(NOW).with_random(ours);
    let opened = Record {
        phase: CONFIRM_AWAITED,
        ..sent(begun(record, &open), NOW)
    };
    let request = draft(&record, own, &telegram(&record, Kind::Request)).numbered(partners);
    let request = received(NOW, request.telegram()).with_random(ours);
    vec![
        Case::new(record, own, open, Demand::Done(opened, Some(Kind::Request), Event::Nothing)),
        case(record, own, request, good(Kind::Request)),
    ]
}

/// The steps of a record that isn't closed, with any two numbers. A confirm has the second as its random number.
fn numbered(record: Record, own: u32) -> Vec<Case> {
    let receipt = |draft: Draft| case(record, own, received(NOW, draft.telegram()), good(draft.kind));
    let from_partner = |kind: Kind| draft(&record, own, &telegram(&record, kind));
    let done = |call: Call, demand: Demand| Case::new(record, own, call, demand);
    let closing = |reason, finally| closes(&record.end(own), reason, finally, Some(Kind::Disconnect));
    let of_phase = match record.phase {
        CONFIRM_AWAITED => vec![receipt(from_partner(Kind::Confirm).numbered(record.expected))],
        AUTHENTICATION_AWAITED => vec![receipt(from_partner(Kind::Authentication))],
        ACKNOWLEDGEMENT_AWAITED => vec![receipt(from_partner(Kind::Acknowledgement))],
        _ => vec![
            receipt(from_partner(Kind::Idle)),
            receipt(from_partner(Kind::Data)),
            done(send(NOW), Demand::Done(sent(record, NOW), Some(Kind::Data), Event::Nothing)),
            done(tick(NOW + 200), Demand::Done(sent(record, NOW + 200), Some(Kind::Idle), Event::Nothing)),
        ],
    };
    let of_every_phase = vec![
        done(close(0, 0x00), closing(0x00, true)),
        done(close(1, 0x40), closing(0x40, false)),
        done(received(NOW, vec![0xFF; 12]), closing(0x06, false)),
    ];
    [of_phase, of_every_phase].concat()
}
