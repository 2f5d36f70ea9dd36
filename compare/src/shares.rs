//! How often each thing happened in a run of random calls, so that a reader sees what it reaches, and a run that doesn't reach it fails.

use crate::link_step::{Happened, Record, Stepped, ACKNOWLEDGEMENT_AWAITED, AUTHENTICATION_AWAITED, CLOSED, CONFIRM_AWAITED, FINALLY_CLOSED, OPEN};
use crate::tally::Tally;
use std::collections::BTreeMap;

#[derive(Default)]
pub struct Shares(BTreeMap<(u32, String), usize>);

impl Shares {
    /// Counts one more of what is named. It is told in the order of the numbers.
    pub fn count(&mut self, order: u32, what: impl Into<String>) {
        *self.0.entry((order, what.into())).or_default() += 1;
    }

    /// Counts a step of a record.
    pub fn count_step(&mut self, before: &Record, stepped: &Stepped) {
        let Stepped { record, answer, happened } = stepped;
        let order = before.phase.wrapping_sub(1).min(6);
        self.count(order, steps_name(before.phase));
        self.count(10, format!("answer {}", answer.number));
        if answer.telegram != 0 {
            self.count(20 + answer.telegram, format!("{} written", telegram_name(answer.telegram)));
        }
        if answer.number == 0 {
            self.count(30 + happened.event + happened.last, event_name(happened));
            self.count_wraps(before, record);
        }
    }

    fn count_wraps(&mut self, before: &Record, after: &Record) {
        let stayed = before.phase == OPEN && after.phase == OPEN;
        if stayed && (before.sending, after.sending) == (u32::MAX, 0) {
            self.count(40, "numbers sent that wrap to 0");
        }
        if stayed && (before.expected, after.expected) == (u32::MAX, 0) {
            self.count(40, "numbers expected that wrap to 0");
        }
    }

    pub fn tell(&self) {
        for ((_, what), times) in &self.0 {
            println!("{times:>20}  {what}");
        }
    }

    /// Each of these must have happened at least so often: a run that doesn't reach them shows nothing about them.
    pub fn demand(&self, least: usize, wanted: &[String], tally: &mut Tally) {
        for what in wanted {
            let times: usize = self.0.iter().filter(|((_, counted), _)| counted == what).map(|(_, times)| times).sum();
            tally.hold(times >= least, || format!("the run has only {times} of: {what}"));
        }
    }
}

pub fn steps_name(phase: u32) -> String {
    let phase = match phase {
        CLOSED => "in phase 1, closed",
        CONFIRM_AWAITED => "in phase 2, confirm awaited",
        AUTHENTICATION_AWAITED => "in phase 3, authentication awaited",
        ACKNOWLEDGEMENT_AWAITED => "in phase 4, acknowledgement awaited",
        OPEN => "in phase 5, open",
        FINALLY_CLOSED => "in phase 6, finally closed",
        _ => "in no phase",
    };
    format!("steps of a record {phase}")
}

fn telegram_name(number: u32) -> &'static str {
    match number {
        1 => "request",
        2 => "confirm",
        3 => "authentication",
        4 => "acknowledgement",
        5 => "disconnect",
        6 => "idle",
        _ => "data",
    }
}

/// The reasons of the layer above are told as one.
fn event_name(happened: &Happened) -> String {
    let finally = if happened.last == 1 { ", finally" } else { "" };
    match (happened.event, happened.reason) {
        (0, _) => "event nothing".into(),
        (1, _) => "event opened".into(),
        (2, _) => "event data".into(),
        (_, 0x20..=0x40) => format!("event closed, reason 20h to 40h{finally}"),
        (_, reason) => format!("event closed, reason {reason:02X}h{finally}"),
    }
}
