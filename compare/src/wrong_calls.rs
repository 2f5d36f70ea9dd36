//! Connections that are wrong in what a call may have, in their refusals, in the buffer and in what they tell. Each is
//! seen by the group named with it: so the comparisons can fail.

use crate::check::field;
use crate::link_call::{Call, Naming};
use crate::link_case::SECOND;
use crate::link_step::{Record, Step, Stepped, ACKNOWLEDGEMENT_AWAITED, CLOSED, FINALLY_CLOSED, OPEN};
use crate::telegram::LONGEST;
use crate::wrong_link::*;
use crate::{link_cases, link_refusals};

pub fn wrong_calls() -> Vec<Wrong> {
    let groups = [namings(), orders(), refusals(), buffers(), events()];
    groups.into_iter().flatten().collect()
}

/// Makes a naming of the call's.
fn set_naming(step: &mut Step, other: fn(Naming) -> Naming) {
    let naming = other(step.call.naming());
    step.call = step.call.clone().with_naming(naming);
}

/// Where none is named, as if 500 were.
fn declaring_500(naming: Naming) -> Naming {
    match naming.named {
        0 => Naming { named: 1, idle_time: 500 },
        _ => naming,
    }
}

fn namings() -> Vec<Wrong> {
    let namings = link_refusals::namings;
    vec![
        reads("0 named taken as none named", namings, |step| {
            set_naming(step, |naming| Naming {
                named: naming.named.min(naming.idle_time),
                ..naming
            });
        }),
        reads("500 declared where none is named", namings, |step| {
            set_naming(step, declaring_500);
        }),
        reads("500 declared by a confirm where none is named", namings, |step| {
            if is_receipt(step) {
                set_naming(step, declaring_500);
            }
        }),
        reads("none named declares 0", namings, |step| {
            set_naming(step, |naming| match naming.named {
                0 => Naming { named: 1, idle_time: 0 },
                _ => naming,
            });
        }),
        reads("none named declares the number beside it", namings, |step| {
            set_naming(step, |naming| Naming { named: 1, ..naming });
        }),
        reads("a confirm without a time named declares the partner's", namings, |step| {
            if is_receipt(step) && step.call.naming().named == 0 && is_good(step, 0x00) {
                let idle_time = field(step.call.telegram(), 7, 8);
                step.call = step.call.clone().with_naming(Naming { named: 1, idle_time });
            }
        }),
        reads("the flag cut to 8 bits", namings, |step| {
            set_naming(step, |naming| Naming {
                named: naming.named & 0xFF,
                ..naming
            });
        }),
        reads("an idle time cut to 16 bits", namings, |step| {
            set_naming(step, |naming| Naming {
                idle_time: naming.idle_time & 0xFFFF,
                ..naming
            });
        }),
        reads("an idle time measured only where a confirm is sent", namings, |step| {
            if is_receipt(step) && step.record.phase != CLOSED {
                set_naming(step, |_| Naming { named: 0, idle_time: 0 });
            }
        }),
        reads("net data measured only where a confirm is sent", link_refusals::net_lengths, |step| {
            if is_receipt(step) && step.record.phase != CLOSED {
                step.call = step.call.clone().with_net(vec![]);
            }
        }),
        reads("net data at SL 4 as long as at SL 2", link_refusals::net_lengths, |step| {
            if is_receipt(step) && step.record.level == 4 && (227..=228).contains(&step.call.net().len()) {
                step.call = step.call.clone().with_net(vec![]);
            }
        }),
    ]
}

fn bad_telegram(step: &Step) -> bool {
    is_receipt(step) && !(6..=LONGEST).contains(&step.call.telegram().len())
}

/// Whether answer 5 would turn the call away if nothing else were wrong.
fn bad_value(step: &Step) -> bool {
    let phase = if matches!(step.call, Call::Open { .. }) { CLOSED } else { OPEN };
    let good = Step {
        record: Record::closed(&step.end(), phase),
        own: step.own,
        call: step.call.clone().with_telegram(vec![0; 6]),
    };
    SECOND(&good, &mut [0; LONGEST]).answer.number == 5
}

fn orders() -> Vec<Wrong> {
    let order = link_refusals::order;
    vec![
        wrong("4 before 1", order, |step, out| match out.len() {
            LONGEST.. => SECOND(step, out),
            _ => Stepped::refused(step.record, 4),
        }),
        instead(
            "6 before 4",
            order,
            |step, stepped| stepped.answer.number == 4 && bad_telegram(step),
            refusing(6),
        ),
        instead(
            "8 before 6",
            order,
            |step, stepped| stepped.answer.number == 6 && step.record.phase == FINALLY_CLOSED,
            refusing(8),
        ),
        instead(
            "8 before 4",
            order,
            |step, stepped| stepped.answer.number == 4 && step.record.phase == FINALLY_CLOSED,
            refusing(8),
        ),
        instead(
            "3 before 8",
            order,
            |step, stepped| stepped.answer.number == 8 && matches!(step.call, Call::Open { .. } | Call::Send { .. }),
            refusing(3),
        ),
        instead(
            "5 before 3",
            order,
            |step, stepped| stepped.answer.number == 3 && bad_value(step),
            refusing(5),
        ),
        instead(
            "5 before 8",
            order,
            |step, stepped| stepped.answer.number == 8 && bad_value(step),
            refusing(5),
        ),
        instead(
            "5 before 6",
            order,
            |step, stepped| stepped.answer.number == 6 && bad_value(step),
            refusing(5),
        ),
        instead(
            "5 before 4",
            order,
            |step, stepped| stepped.answer.number == 4 && bad_value(step),
            refusing(5),
        ),
    ]
}

fn refusals() -> Vec<Wrong> {
    let phases = link_refusals::phases;
    let fields = link_refusals::fields;
    vec![
        wrong("a connection that refuses everything", phases, refusing(3)),
        wrong("a connection that does nothing", phases, refusing(0)),
        instead(
            "close on a finally closed record answered with 3",
            phases,
            |step, stepped| stepped.answer.number == 8 && matches!(step.call, Call::Close { .. }),
            refusing(3),
        ),
        instead(
            "a telegram to a finally closed record dropped",
            phases,
            |step, stepped| stepped.answer.number == 8 && is_receipt(step),
            refusing(0),
        ),
        instead(
            "a tick of a finally closed record done",
            phases,
            |step, stepped| stepped.answer.number == 8 && is_tick(step),
            refusing(0),
        ),
        instead(
            "close on a closed record done",
            phases,
            |step, stepped| stepped.answer.number == 3 && matches!(step.call, Call::Close { .. }),
            refusing(0),
        ),
        reads("a finally closed record that opens", phases, |step| {
            if step.record.phase == FINALLY_CLOSED && matches!(step.call, Call::Open { .. }) {
                step.record.phase = CLOSED;
            }
        }),
        reads("send before the connection is open", phases, |step| {
            if step.record.phase == ACKNOWLEDGEMENT_AWAITED && matches!(step.call, Call::Send { .. }) {
                step.record.phase = OPEN;
            }
        }),
        reads("a closed record with numbers taken", fields, |step| {
            if step.record.phase == CLOSED {
                step.record = Record::closed(&step.end(), CLOSED);
            }
        }),
        reads("a finally closed record with timers answered with 8", fields, |step| {
            if step.record.phase == FINALLY_CLOSED {
                step.record.sent_at = 0;
                step.record.taken_at = 0;
            }
        }),
        reads("a phase cut to 8 bits", fields, |step| step.record.phase &= 0xFF),
        reads("an own address cut to 8 bits", fields, |step| step.own &= 0xFF),
        reads("the record's idle times not asked", fields, |step| {
            for idle_time in [&mut step.record.declared, &mut step.record.watched] {
                if *idle_time % 100 != 0 || *idle_time > 65500 {
                    *idle_time = 100;
                }
            }
        }),
    ]
}

fn buffers() -> Vec<Wrong> {
    vec![
        wrong("a connection that only says that it wrote", link_cases::numbers, |step, out| {
            SECOND(step, &mut out.to_vec())
        }),
        wrong("a buffer cleared behind the telegram", link_refusals::rooms, |step, out| {
            let stepped = SECOND(step, out);
            if stepped.answer.telegram != 0 {
                out[stepped.answer.length as usize..].fill(0);
            }
            stepped
        }),
        wrong("a buffer cleared where nothing is written", link_refusals::phases, |step, out| {
            let stepped = SECOND(step, out);
            if stepped.answer.number == 0 && stepped.answer.telegram == 0 {
                out.fill(0);
            }
            stepped
        }),
        wrong("a buffer cleared by a refusal", link_refusals::order, |step, out| {
            let stepped = SECOND(step, out);
            if stepped.answer.number != 0 {
                out.fill(0);
            }
            stepped
        }),
        wrong("a record cleared by a refusal", link_refusals::order, |step, out| {
            let stepped = SECOND(step, out);
            match stepped.answer.number {
                0 => stepped,
                answer => Stepped::refused(Record::closed(&step.end(), CLOSED), answer),
            }
        }),
        wrong("a step that needs room only where it writes", link_refusals::rooms, |step, out| {
            let stepped = SECOND(step, &mut [0; LONGEST]);
            match (stepped.answer.number, stepped.answer.telegram) {
                (0, 0) => stepped,
                _ => SECOND(step, out),
            }
        }),
    ]
}

fn events() -> Vec<Wrong> {
    let phases = link_cases::phases_and_telegrams;
    vec![
        gives_back("data told with the level's bits", phases, |step, stepped| {
            if stepped.happened.event == EVENT_DATA {
                stepped.happened.command = u32::from(step.call.telegram()[1]);
            }
        }),
        gives_back("data told with the check word", phases, |step, stepped| {
            if stepped.happened.event == EVENT_DATA {
                stepped.happened.count = step.call.telegram().len() as u32 - stepped.happened.start;
            }
        }),
        gives_back("data without net data told as nothing", link_cases::net_lengths_received, |_, stepped| {
            if stepped.happened.event == EVENT_DATA && stepped.happened.count == 0 {
                stepped.happened.event = 0;
                stepped.happened.command = 0;
                stepped.happened.start = 0;
            }
        }),
        gives_back("idle told as data", phases, |step, stepped| {
            if is_open(step) && is_receipt(step) && stepped.happened.event == 0 {
                stepped.happened.event = EVENT_DATA;
            }
        }),
        gives_back("opened told when a request is accepted", phases, |_, stepped| {
            if stepped.answer.telegram == WROTE_CONFIRM {
                stepped.happened.event = EVENT_OPENED;
            }
        }),
        gives_back("opened told by the opener alone", phases, |_, stepped| {
            if stepped.answer.telegram == WROTE_ACKNOWLEDGEMENT {
                stepped.happened.event = 0;
            }
        }),
        gives_back("a closing by close told as nothing", link_refusals::types_and_reasons, |step, stepped| {
            if let Call::Close { .. } = step.call {
                stepped.happened.event = 0;
                stepped.happened.reason = 0;
                stepped.happened.last = 0;
            }
        }),
        gives_back("a closing told without its type", phases, |_, stepped| stepped.happened.last = 0),
        gives_back("the command of send told back", link_refusals::phases, |step, stepped| {
            stepped.happened.command |= step.call.command();
        }),
    ]
}
