//! Connections that are wrong in what a step does: in its times, its closings, what it takes, and its numbers. Each is seen by the group named with it: so the
//! comparisons can fail.

use crate::check::{check, field, Verdict};
use crate::link_call::Call;
use crate::link_case::SECOND;
use crate::link_step::{
    Answer, Record, Step, Stepped, ACKNOWLEDGEMENT_AWAITED, AUTHENTICATION_AWAITED, CLOSED, CONFIRM_AWAITED, FINALLY_CLOSED, OPEN,
};
use crate::telegram::{reason_listed, sealed, End, Level, Telegram};
use crate::wrong_link::*;
use crate::{link_cases, link_times};

pub fn wrong_steps() -> Vec<Wrong> {
    let groups = [
        times(),
        idle(),
        closings(),
        disconnects(),
        unexpected(),
        versions(),
        numbers(),
        timers(),
        authentications(),
        ends(),
    ];
    groups.into_iter().flatten().collect()
}

fn times() -> Vec<Wrong> {
    let waits = link_times::waits_and_watch;
    let far = link_times::far_times;
    vec![
        reads("our own idle time watched", waits, |step| {
            if is_open(step) && looks(step) {
                step.record.watched = step.record.declared;
            }
        }),
        reads("the wait tested with 5000 or more", waits, |step| {
            if is_waiting(step) && looks(step) && since_sent(step) == 5000 {
                one_later(step);
            }
        }),
        reads(
            "the wait tested with 5000 or more by received",
            link_cases::phases_and_telegrams,
            |step| {
                if is_waiting(step) && is_receipt(step) && since_sent(step) == 5000 {
                    one_later(step);
                }
            },
        ),
        reads("a gap equal to the watched time closes", waits, |step| {
            if is_open(step) && looks(step) && step.record.watched != 0 && since_taken(step) == u64::from(step.record.watched) {
                one_later(step);
            }
        }),
        reads("0 watched as a time", waits, |step| {
            if is_open(step) && looks(step) && step.record.watched == 0 && since_taken(step) > 0 {
                step.record.watched = 100;
                step.record.taken_at = 0;
            }
        }),
        reads("a wait of 5000 in place of the watch", waits, |step| {
            if is_open(step) && is_tick(step) {
                step.record.watched = 5000;
                step.record.taken_at = step.record.sent_at;
            }
        }),
        reads("the wait measured from the last telegram taken", far, |step| {
            if is_waiting(step) && is_tick(step) {
                step.record.sent_at = step.record.taken_at;
            }
        }),
        reads("the watch measured from the last telegram sent", far, |step| {
            if is_open(step) && is_tick(step) {
                step.record.taken_at = step.record.sent_at;
            }
        }),
        reads("no wait on a tick", waits, |step| {
            if is_waiting(step) && is_tick(step) {
                at_once(step);
            }
        }),
        reads("a timer later than the time taken as long ago", far, |step| {
            if is_waiting(step) && looks(step) && step.record.sent_at > step.call.time() {
                step.record.sent_at = 0;
                set_time(step, u64::MAX);
            }
        }),
        reads("a gap cut to 32 bits", waits, |step| {
            if is_waiting(step) && is_tick(step) && since_sent(step) as u32 <= 5000 {
                at_once(step);
            }
        }),
        reads(
            "the telegram looked at before the wait",
            link_cases::phases_and_failing_telegrams,
            |step| {
                if is_receipt(step) && (is_waiting(step) || is_open(step)) && !passes(step, step.end()) {
                    step.record.sent_at = step.call.time();
                    step.record.taken_at = step.call.time();
                }
            },
        ),
        instead(
            "send looking at the watch",
            link_times::send_and_close_late,
            |step, stepped| {
                let late = step.record.watched != 0 && since_taken(step) > u64::from(step.record.watched);
                stepped.answer.number == 0 && late && matches!(step.call, Call::Send { .. })
            },
            closing(1, 0x05),
        ),
    ]
}

fn idle() -> Vec<Wrong> {
    let idle = link_times::idle_due;
    vec![
        reads("idle due after more than half", idle, |step| {
            if is_open(step) && is_tick(step) && since_sent(step) == u64::from(step.record.declared / 2) {
                step.record.declared = 0;
            }
        }),
        reads("idle due after the whole time", idle, |step| {
            if is_open(step) && is_tick(step) && since_sent(step) < u64::from(step.record.declared) {
                step.record.declared = 0;
            }
        }),
        reads("twice the gap in 64 bits", link_times::far_times, |step| {
            if is_open(step) && is_tick(step) && since_sent(step).wrapping_mul(2) < u64::from(step.record.declared) {
                step.record.declared = 0;
            }
        }),
        reads("idle due after half of the time that we watch", idle, |step| {
            if is_open(step) && is_tick(step) {
                step.record.declared = step.record.watched;
            }
        }),
        reads("idle due since the last telegram taken", idle, |step| {
            if is_open(step) && is_tick(step) {
                step.record.sent_at = step.record.taken_at;
            }
        }),
        reads("0 declared sends idle", idle, |step| {
            if is_open(step) && is_tick(step) && step.record.declared == 0 {
                step.record.declared = 100;
            }
        }),
        reads("idle while the acknowledgement is awaited", idle, |step| {
            if step.record.phase == ACKNOWLEDGEMENT_AWAITED && is_tick(step) && since_sent(step) <= 5000 {
                step.record.phase = OPEN;
                step.record.watched = 0;
            }
        }),
        reads("idle before closing", link_times::watch_before_idle, |step| {
            if is_open(step) && is_tick(step) && since_sent(step) >= u64::from(step.record.declared / 2) {
                step.record.watched = 0;
            }
        }),
    ]
}

/// The disconnect that a wrong connection writes in place of the second program's.
fn disconnect(number: u32, new_setup: u32, stepped: &Stepped) -> Option<(u32, Telegram)> {
    let telegram = Telegram::disconnect(number, new_setup, stepped.happened.reason, vec![]);
    (stepped.answer.telegram == WROTE_DISCONNECT).then(|| (WROTE_DISCONNECT, telegram))
}

fn closings() -> Vec<Wrong> {
    let waits = link_times::waits_and_watch;
    let phases = link_cases::phases_and_telegrams;
    let failing = link_cases::phases_and_failing_telegrams;
    vec![
        writes("a disconnect with the number after closing", waits, |_, stepped| {
            disconnect(stepped.record.sending, 1 - stepped.happened.last, stepped)
        }),
        writes("a disconnect with the next number", waits, |step, stepped| {
            disconnect(step.record.sending.wrapping_add(1), 1 - stepped.happened.last, stepped)
        }),
        writes("every disconnect of type 1", waits, |step, stepped| {
            disconnect(step.record.sending, 1, stepped)
        }),
        writes("the text left out by close", link_cases::numbers, |step, stepped| {
            disconnect(step.record.sending, 1 - stepped.happened.last, stepped)
        }),
        gives_back("a final closing that leaves phase 1", phases, |_, stepped| {
            if stepped.happened.event == EVENT_CLOSED {
                stepped.record.phase = CLOSED;
            }
        }),
        gives_back("a closing that leaves the numbers", phases, |step, stepped| {
            if stepped.happened.event == EVENT_CLOSED {
                stepped.record.sending = step.record.sending;
                stepped.record.expected = step.record.expected;
            }
        }),
        gives_back("a closing that leaves the idle times", phases, |step, stepped| {
            if stepped.happened.event == EVENT_CLOSED {
                stepped.record.declared = step.record.declared;
                stepped.record.watched = step.record.watched;
            }
        }),
        gives_back("a closing that sets its timer", phases, |step, stepped| {
            if stepped.happened.event == EVENT_CLOSED {
                stepped.record.sent_at = step.call.time();
            }
        }),
        instead(
            "an authentication error that doesn't close finally",
            phases,
            |_, stepped| stepped.happened.reason == 0x03 && stepped.answer.telegram == WROTE_DISCONNECT,
            closing(1, 0x03),
        ),
        instead(
            "a late confirm that closes finally",
            phases,
            |_, stepped| stepped.happened.reason == 0x02 && stepped.answer.telegram == WROTE_DISCONNECT,
            closing(0, 0x02),
        ),
        instead(
            "a watch run out that closes finally",
            phases,
            |_, stepped| stepped.happened.reason == 0x05 && stepped.answer.telegram == WROTE_DISCONNECT,
            closing(0, 0x05),
        ),
        instead(
            "a failed check during authentication that closes finally with 03h",
            failing,
            |step, stepped| stepped.happened.reason == 0x06 && step.record.phase > CONFIRM_AWAITED && !is_open(step),
            closing(0, 0x03),
        ),
        instead(
            "a failed check that closes finally with 07h",
            failing,
            |_, stepped| stepped.happened.reason == 0x06,
            closing(0, 0x07),
        ),
        instead(
            "a failed check dropped",
            failing,
            |_, stepped| stepped.happened.reason == 0x06,
            refusing(0),
        ),
        wrong("a failed check without a disconnect", failing, |step, out| {
            let stepped = SECOND(step, &mut out.to_vec());
            let answer = Answer::default();
            match stepped.happened.reason {
                0x06 => Stepped { answer, ..stepped },
                _ => SECOND(step, out),
            }
        }),
        writes("a disconnect of a closed record", failing, |step, stepped| {
            let dropped = step.record.phase == CLOSED && is_receipt(step) && stepped.answer.telegram == 0;
            dropped.then(|| (WROTE_DISCONNECT, Telegram::disconnect(0, 1, 0x06, vec![])))
        }),
    ]
}

/// Whether the partner's disconnect has closed the record.
fn ended(stepped: &Stepped) -> bool {
    stepped.happened.event == EVENT_CLOSED && stepped.answer.telegram == 0
}

fn disconnects() -> Vec<Wrong> {
    let disconnects = link_cases::disconnects_received;
    vec![
        gives_back("a disconnect received that never closes finally", disconnects, |_, stepped| {
            if ended(stepped) {
                stepped.record.phase = CLOSED;
                stepped.happened.last = 0;
            }
        }),
        writes("a disconnect received that is answered by one", disconnects, |step, stepped| {
            let telegram = Telegram::disconnect(step.record.sending, 1, 0x00, vec![]);
            ended(stepped).then(|| (WROTE_DISCONNECT, telegram))
        }),
        instead(
            "a disconnect with an unlisted reason that fails the check",
            disconnects,
            |_, stepped| ended(stepped) && !reason_listed(stepped.happened.reason),
            closing(1, 0x06),
        ),
        instead(
            "a disconnect that doesn't end a set-up",
            disconnects,
            |step, stepped| ended(stepped) && step.record.phase == CONFIRM_AWAITED,
            refusing(0),
        ),
    ]
}

fn unexpected() -> Vec<Wrong> {
    let phases = link_cases::phases_and_telegrams;
    vec![
        instead(
            "a request that closes while a confirm is awaited",
            phases,
            |step, stepped| step.record.phase == CONFIRM_AWAITED && stepped.happened.event == 0 && is_good(step, 0x00),
            closing(1, 0x04),
        ),
        instead(
            "data that close while a confirm is awaited",
            phases,
            |step, stepped| step.record.phase == CONFIRM_AWAITED && stepped.happened.event == 0 && is_good(step, 0x2A),
            closing(0, 0x03),
        ),
        instead(
            "idle dropped while authentication is awaited",
            phases,
            |step, stepped| step.record.phase == AUTHENTICATION_AWAITED && stepped.happened.reason == 0x03 && is_good(step, 0x06),
            refusing(0),
        ),
        instead(
            "a request on an open record that is dropped",
            phases,
            |step, stepped| stepped.happened.reason == 0x04 && is_good(step, 0x00),
            refusing(0),
        ),
        instead(
            "a request on an open record that sets up anew",
            phases,
            |step, stepped| stepped.happened.reason == 0x04 && is_good(step, 0x00),
            |step, out| {
                let record = Record::closed(&step.end(), CLOSED);
                SECOND(&Step { record, ..step.clone() }, out)
            },
        ),
        instead(
            "a request on an open record that closes finally",
            phases,
            |step, stepped| stepped.happened.reason == 0x04 && is_good(step, 0x00),
            closing(0, 0x04),
        ),
        instead(
            "an acknowledgement on an open record that is dropped",
            phases,
            |step, stepped| stepped.happened.reason == 0x04 && is_good(step, 0x04),
            refusing(0),
        ),
    ]
}

/// Puts other bytes into the telegram received, under a right check word.
fn reseal(step: &mut Step, number: u32, change: fn(&mut [u8])) {
    if let Some(level) = Level::named(step.record.level) {
        let telegram = step.call.telegram();
        let mut body = telegram[..telegram.len() - level.generator().bytes()].to_vec();
        change(&mut body);
        let telegram = sealed(level, step.end().receiving(), number, &body);
        step.call = step.call.clone().with_telegram(telegram);
    }
}

fn versions() -> Vec<Wrong> {
    let versions = link_cases::versions;
    vec![
        reads("a version with any Y accepted", versions, |step| {
            if (is_good(step, 0x00) || is_good(step, 0x02)) && step.call.telegram()[8] == 3 {
                let number = field(step.call.telegram(), 3, 6);
                reseal(step, number, |body| body[9] = 0);
            }
        }),
        reads("a confirm of any version accepted", versions, |step| {
            if is_good(step, 0x02) {
                let number = field(step.call.telegram(), 3, 6);
                reseal(step, number, |body| body[8..10].copy_from_slice(&[3, 0]));
            }
        }),
        instead(
            "a Z other than 0 not accepted",
            versions,
            |step, stepped| stepped.answer.telegram == WROTE_CONFIRM && step.call.telegram()[10] != 0,
            refusing(0),
        ),
        instead(
            "a confirm of another version that closes not finally",
            versions,
            |_, stepped| stepped.happened.reason == 0x01,
            closing(1, 0x01),
        ),
        instead(
            "a confirm of another version dropped",
            versions,
            |_, stepped| stepped.happened.reason == 0x01,
            refusing(0),
        ),
        gives_back("a request of another version that closes", versions, |step, stepped| {
            if step.record.phase == CLOSED && stepped.answer.telegram == 0 && is_good(step, 0x00) {
                stepped.record.phase = FINALLY_CLOSED;
                stepped.happened.event = EVENT_CLOSED;
                stepped.happened.reason = 0x01;
                stepped.happened.last = 1;
            }
        }),
    ]
}

/// Whether an open record has stayed open.
fn stayed_open(step: &Step, stepped: &Stepped) -> bool {
    is_open(step) && stepped.record.phase == OPEN
}

fn numbers() -> Vec<Wrong> {
    let numbers = link_cases::numbers;
    vec![
        gives_back("taking without advancing", numbers, |step, stepped| {
            if stayed_open(step, stepped) {
                stepped.record.expected = step.record.expected;
            }
        }),
        gives_back("idle taken without advancing", numbers, |step, stepped| {
            if stayed_open(step, stepped) && is_receipt(step) && stepped.happened.event == 0 {
                stepped.record.expected = step.record.expected;
            }
        }),
        gives_back("an authentication taken without advancing", numbers, |step, stepped| {
            if stepped.answer.telegram == WROTE_ACKNOWLEDGEMENT {
                stepped.record.expected = step.record.expected;
            }
        }),
        gives_back("an acknowledgement taken without advancing", numbers, |step, stepped| {
            if stepped.happened.event == EVENT_OPENED && stepped.answer.telegram == 0 {
                stepped.record.expected = step.record.expected;
            }
        }),
        gives_back("sending without advancing", numbers, |step, stepped| {
            if stayed_open(step, stepped) {
                stepped.record.sending = step.record.sending;
            }
        }),
        gives_back("idle sent without advancing", numbers, |step, stepped| {
            if stepped.answer.telegram == WROTE_IDLE {
                stepped.record.sending = step.record.sending;
            }
        }),
        gives_back("a number sent that stops at FFFFFFFFh", numbers, |step, stepped| {
            if stayed_open(step, stepped) && step.record.sending == u32::MAX {
                stepped.record.sending = u32::MAX;
            }
        }),
        gives_back("a number expected that stops at FFFFFFFFh", numbers, |step, stepped| {
            if stayed_open(step, stepped) && step.record.expected == u32::MAX {
                stepped.record.expected = u32::MAX;
            }
        }),
        gives_back("the random number kept as the number to send", numbers, |step, stepped| {
            if step.record.phase == CLOSED && stepped.answer.telegram != 0 {
                stepped.record.sending = step.call.random();
            }
        }),
        reads("a telegram 256 older taken", link_cases::phases_and_failing_telegrams, |step| {
            let expected = step.record.expected.wrapping_sub(256);
            if is_open(step) && check(&step.end(), expected, step.call.telegram()) == Verdict::Passes {
                step.record.expected = expected;
            }
        }),
        instead(
            "the record's number expected while a confirm is awaited",
            link_cases::confirm_awaited,
            |step, stepped| {
                let passes = check(&step.end(), step.record.expected, step.call.telegram()) == Verdict::Passes;
                step.record.phase == CONFIRM_AWAITED && stepped.happened.reason == 0x06 && passes
            },
            refusing(0),
        ),
    ]
}

fn timers() -> Vec<Wrong> {
    let numbers = link_cases::numbers;
    vec![
        gives_back("taking that doesn't restart the watch", numbers, |step, stepped| {
            if stayed_open(step, stepped) {
                stepped.record.taken_at = step.record.taken_at;
            }
        }),
        gives_back("taking that sets the timer of sending", numbers, |step, stepped| {
            if stayed_open(step, stepped) && is_receipt(step) {
                stepped.record.sent_at = step.call.time();
            }
        }),
        gives_back("sending that restarts the watch", numbers, |step, stepped| {
            if stayed_open(step, stepped) && stepped.answer.telegram != 0 {
                stepped.record.taken_at = step.call.time();
            }
        }),
        gives_back("an acknowledgement that sets the timer of sending", numbers, |step, stepped| {
            if stepped.happened.event == EVENT_OPENED {
                stepped.record.sent_at = step.call.time();
            }
        }),
        gives_back("idle that doesn't set its timer", link_times::idle_due, |step, stepped| {
            if stepped.answer.telegram == WROTE_IDLE {
                stepped.record.sent_at = step.record.sent_at;
            }
        }),
        gives_back("an authentication that doesn't set its timer", numbers, |step, stepped| {
            if stepped.answer.telegram == WROTE_AUTHENTICATION {
                stepped.record.sent_at = step.record.sent_at;
            }
        }),
        gives_back(
            "the partner's idle time kept as ours",
            link_cases::idle_times_received,
            |step, stepped| {
                if stepped.happened.event == 0 && stepped.record.phase != step.record.phase {
                    std::mem::swap(&mut stepped.record.declared, &mut stepped.record.watched);
                }
            },
        ),
    ]
}

fn authentications() -> Vec<Wrong> {
    let asked = link_cases::authentication_numbers;
    let numbers = link_cases::numbers;
    vec![
        reads("authentication plus 1 asked for at both levels", asked, |step| {
            let awaited = match step.record.phase {
                AUTHENTICATION_AWAITED => is_good(step, 0x03),
                ACKNOWLEDGEMENT_AWAITED => is_good(step, 0x04),
                _ => false,
            };
            if awaited && step.record.level == 2 {
                let expected = step.record.expected;
                reseal(step, expected, |body| {
                    let number = field(body, 3, 6).wrapping_add(1);
                    body[2..6].copy_from_slice(&number.to_le_bytes());
                });
            }
        }),
        writes("authentication plus 1 written at both levels", numbers, |step, stepped| {
            let partners = field(step.call.telegram(), 3, 6).wrapping_sub(1);
            let telegram = Telegram::authentication(step.record.sending, partners);
            (step.record.level == 2 && stepped.answer.telegram == WROTE_AUTHENTICATION).then(|| (WROTE_AUTHENTICATION, telegram))
        }),
        writes("acknowledgement plus 1 written at both levels", numbers, |step, stepped| {
            let partners = step.record.expected.wrapping_sub(2);
            let telegram = Telegram::acknowledgement(step.record.sending, partners);
            (step.record.level == 2 && stepped.answer.telegram == WROTE_ACKNOWLEDGEMENT).then(|| (WROTE_ACKNOWLEDGEMENT, telegram))
        }),
        writes("our own random number sent back", numbers, |step, stepped| {
            let ours = step.record.sending.wrapping_sub(1);
            let telegram = Telegram::acknowledgement(step.record.sending, ours);
            (stepped.answer.telegram == WROTE_ACKNOWLEDGEMENT).then(|| (WROTE_ACKNOWLEDGEMENT, telegram))
        }),
        reads("an acknowledgement asked for by the authentication's number", asked, |step| {
            if step.record.phase == ACKNOWLEDGEMENT_AWAITED && is_good(step, 0x04) {
                step.record.sending = step.record.sending.wrapping_add(1);
            }
        }),
        instead(
            "a wrong authentication number dropped",
            asked,
            |step, stepped| stepped.happened.reason == 0x03 && is_good(step, 0x03),
            refusing(0),
        ),
        instead(
            "a wrong authentication number that closes not finally",
            asked,
            |step, stepped| stepped.happened.reason == 0x03 && is_good(step, 0x03),
            closing(1, 0x03),
        ),
    ]
}

/// Takes the telegram under another end, if it passes there.
fn take_under(step: &mut Step, end: End) {
    if passes(step, end) {
        step.record = step.record.between(&end);
        step.own = end.own;
    }
}

fn ends() -> Vec<Wrong> {
    let others = link_cases::other_ends;
    vec![
        reads("the two addresses in either order", others, |step| {
            let end = step.end();
            let [own, partner] = [end.partner, end.own];
            take_under(step, End { own, partner, ..end });
        }),
        reads("the two SAPs in either order", others, |step| {
            let end = step.end();
            let [partner_sap, local_sap] = [end.local_sap, end.partner_sap];
            take_under(
                step,
                End {
                    partner_sap,
                    local_sap,
                    ..end
                },
            );
        }),
        reads("any partner's address taken", others, |step| {
            let end = step.end();
            (0..=126).for_each(|partner| take_under(step, End { partner, ..end }));
        }),
        reads("any own address taken", others, |step| {
            let end = step.end();
            (0..=126).for_each(|own| take_under(step, End { own, ..end }));
        }),
        reads("the level taken from the telegram", others, |step| {
            let end = step.end();
            [2, 4].into_iter().for_each(|level| take_under(step, End { level, ..end }));
        }),
        reads("telegrams sent as from the partner", link_cases::numbers, |step| {
            if !is_receipt(step) {
                let [own, partner] = [step.record.partner, step.own];
                step.record.partner = partner;
                step.own = own;
            }
        }),
    ]
}
