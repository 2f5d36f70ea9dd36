//! The second program's local clock: the state machine of SUBSET-056, 7.4.1.7, with its actions Synchronise (7.4.2) and Resynchronise (7.4.3), and what
//! docs/DECISIONS.md says where the paper is silent. What a message changes is said, and nothing else changes. It goes by rules that are given to it.

use crate::clock_rules::{distance, elapsed, Rules, TIME_FOR_LONG_TERM_DRIFT_CHECK};
use crate::library_clock::{LocalTime, Message, Pair};
use std::collections::VecDeque;

/// 7.4.1.7.2.
#[derive(Clone, Copy, PartialEq)]
pub enum State {
    Unsynchronised,
    Synchronised,
    Isolated,
}

/// What a message did, by its number in the interface. From 101 on it is the test that failed.
#[derive(Clone, Copy)]
pub enum Heard {
    Kept = 0,
    Paired = 1,
    NowSynchronised = 2,
    Resynchronised = 3,
    Dropped = 4,
    StaysIsolated = 5,
    NotAbove = 101,
    NoFactor = 102,
    TooLate = 103,
    ReferenceNotLater = 104,
    LocalNotLater = 105,
    ShortTerm = 106,
    TooFew = 107,
    LongTerm = 108,
}

/// The message received last (7.2.1.13).
#[derive(Clone, Copy)]
pub struct Received {
    pub number: i64,
    pub local_time: LocalTime,
}

/// The time frame of 7.4.3.6 and 7.4.3.7: its start, the factor that was valid there and the messages since.
#[derive(Clone, Copy)]
pub struct TimeFrame {
    pub start: i64,
    pub factor: i64,
    pub messages: i64,
}

pub struct LocalClock {
    pub state: State,
    /// All pairs that are kept, newest first, ..
    pub pairs: VecDeque<Pair>,
    /// .. of which so many count.
    pub count: usize,
    pub last: Option<Received>,
    /// When the Synchronised Timer was started last (7.4.1.7.4.3).
    pub resynchronised: i64,
    pub frame: TimeFrame,
}

/// What a message changes. Everything else stays as it was.
#[derive(Clone, Default)]
pub struct Change {
    pub state: Option<State>,
    pub pairs: Option<VecDeque<Pair>>,
    pub count: Option<usize>,
    pub last: Option<Received>,
    /// No message counts as received any more.
    pub forgets: bool,
    pub resynchronised: Option<LocalTime>,
    pub frame: Option<TimeFrame>,
}

impl Change {
    /// Only that the message is the one received last.
    fn keeping(message: Message, now: LocalTime) -> Change {
        let number = message.number.into();
        Change {
            last: Some(Received { number, local_time: now }),
            ..Change::default()
        }
    }
}

fn check(passes: bool, failed: Heard) -> Result<(), Heard> {
    match passes {
        true => Ok(()),
        false => Err(failed),
    }
}

/// The factor of these pairs (7.4.4.2).
fn factor_of(rules: &Rules, pairs: &VecDeque<Pair>) -> i64 {
    let differences: Vec<i64> = pairs.iter().map(|pair| (rules.difference)(*pair)).collect();
    (rules.factor)(&differences)
}

impl LocalClock {
    /// The event SyncAndRefTime (7.4.1.7.3.1).
    pub fn hears(&self, rules: &Rules, message: Message, now: LocalTime) -> (Heard, Change) {
        let lost_sync = Change {
            state: Some(State::Isolated),
            count: Some(0),
            ..Change::default()
        };
        match self.state {
            State::Isolated => (Heard::StaysIsolated, Change::default()),
            State::Unsynchronised => self.synchronise(rules, message, now),
            State::Synchronised => self.resynchronise(rules, message, now).unwrap_or_else(|failed| (failed, lost_sync)),
        }
    }

    /// The action Synchronise. Where a test fails, the pairs begin anew; where a number does not go on, all is forgotten.
    fn synchronise(&self, rules: &Rules, message: Message, now: LocalTime) -> (Heard, Change) {
        let kept = Change::keeping(message, now);
        let anew = Change {
            count: Some(0),
            ..kept.clone()
        };
        if !self.goes_on(rules, message) {
            let forgotten = Change {
                count: Some(0),
                forgets: true,
                ..Change::default()
            };
            return (Heard::NotAbove, forgotten);
        }
        let pair = match self.pair(rules, message) {
            None => return (Heard::Kept, kept),
            Some(pair) => pair,
        };
        if let Err(failed) = self.monotonic(rules, pair) {
            return (failed, anew);
        }
        let (pairs, count) = (self.pairs_with(pair), self.count.min(rules.pairs - 1) + 1);
        let paired = Change {
            pairs: Some(pairs.clone()),
            count: Some(count),
            ..kept
        };
        if count < rules.pairs {
            return (Heard::Paired, paired);
        }
        let frame = TimeFrame {
            start: now.ms.into(),
            factor: factor_of(rules, &pairs),
            messages: 1,
        };
        let synchronised = Change {
            state: Some(State::Synchronised),
            resynchronised: Some(now),
            frame: Some(frame),
            ..paired
        };
        (Heard::NowSynchronised, synchronised)
    }

    /// The action Resynchronise. A test that fails is the event LostSync (7.4.1.7.3.3).
    fn resynchronise(&self, rules: &Rules, message: Message, now: LocalTime) -> Result<(Heard, Change), Heard> {
        let factor = self.factor(rules).ok_or(Heard::NoFactor)?;
        check(self.timer_runs(rules, now), Heard::TooLate)?;
        if !self.goes_on(rules, message) {
            return Ok((Heard::Dropped, Change::default()));
        }
        let pair = self.pair(rules, message);
        if let Some(pair) = pair {
            self.monotonic(rules, pair)?;
            check((rules.near)(distance((rules.difference)(pair), factor)), Heard::ShortTerm)?;
        }
        let kept = Change {
            frame: Some(self.next_frame(rules, factor, now)?),
            ..Change::keeping(message, now)
        };
        Ok(match pair {
            None => (Heard::Kept, kept),
            Some(pair) => {
                let resynchronised = Change {
                    pairs: Some(self.pairs_with(pair)),
                    count: Some(rules.pairs),
                    resynchronised: Some(now),
                    ..kept
                };
                (Heard::Resynchronised, resynchronised)
            }
        })
    }

    /// The time frame with one message more. One that is over is judged by the factor in use, and the next starts with that where it ended.
    fn next_frame(&self, rules: &Rules, factor: i64, now: LocalTime) -> Result<TimeFrame, Heard> {
        let frame = self.frame;
        if !(rules.over)(elapsed(now.ms.into(), frame.start)) {
            let messages = frame.messages + 1;
            return Ok(TimeFrame { messages, ..frame });
        }
        check((rules.enough)(frame.messages), Heard::TooFew)?;
        check((rules.steady)(distance(factor, frame.factor)), Heard::LongTerm)?;
        let start = frame.start + TIME_FOR_LONG_TERM_DRIFT_CHECK;
        Ok(TimeFrame { start, factor, messages: 1 })
    }

    /// Whether the message's number goes on from the last one's. Where none was received, any number does.
    fn goes_on(&self, rules: &Rules, message: Message) -> bool {
        self.last.map_or(true, |last| (rules.above)(message.number.into(), last.number))
    }

    /// 7.2.1.15: the Reference Time that a message tells, with the local time of the message that it tells of, if that is the one received last.
    fn pair(&self, rules: &Rules, message: Message) -> Option<Pair> {
        let last = self.last.filter(|last| (rules.tells_of)(message.number.into(), last.number))?;
        Some(Pair {
            reference: message.reference,
            local: last.local_time,
        })
    }

    /// 7.4.2.2, 7.4.3.3 and 7.4.3.4, against the newest pair that counts.
    fn monotonic(&self, rules: &Rules, pair: Pair) -> Result<(), Heard> {
        match self.pairs.front().filter(|_| self.count > 0) {
            None => Ok(()),
            Some(newest) => {
                let reference_later = (rules.later)(pair.reference.ms.into(), newest.reference.ms.into());
                let local_later = (rules.later)(pair.local.ms.into(), newest.local.ms.into());
                check(reference_later, Heard::ReferenceNotLater)?;
                check(local_later, Heard::LocalNotLater)
            }
        }
    }

    /// The pairs with a new one. The oldest falls out.
    fn pairs_with(&self, pair: Pair) -> VecDeque<Pair> {
        let mut pairs = self.pairs.clone();
        pairs.push_front(pair);
        pairs.pop_back();
        pairs
    }

    /// 7.4.4.2.2: the factor, where enough pairs count.
    fn factor(&self, rules: &Rules) -> Option<i64> {
        (self.count >= rules.pairs).then(|| factor_of(rules, &self.pairs))
    }

    /// Whether the Synchronised Timer has not run out.
    fn timer_runs(&self, rules: &Rules, now: LocalTime) -> bool {
        (rules.in_time)(elapsed(now.ms.into(), self.resynchronised))
    }

    /// The factor that is valid at a moment (7.4.1.1, 7.4.1.5), also at one shortly before the last resynchronisation.
    pub fn factor_at(&self, rules: &Rules, now: LocalTime) -> Option<i64> {
        let away = distance(now.ms.into(), self.resynchronised).abs();
        let valid = self.state == State::Synchronised && (rules.in_time)(away);
        self.factor(rules).filter(|_| valid)
    }
}
