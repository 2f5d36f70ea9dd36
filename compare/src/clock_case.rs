//! A case of a local clock: a clock, a message, and the moments that it is asked about before the message and after it. It is put to the library and to the
//! second program, which must agree in the answer, in every field of the clock and in every factor and Reference Time, and keep what is demanded of all.

use crate::clock_border;
use crate::clock_rules::{Rules, PAPERS};
use crate::library_clock::{self, Clock, Factor, Last, LocalTime, Message, Pair, Period, RefTime, Reference, PAIRS};
use crate::shares::Shares;
use crate::tally::Tally;

/// A program that keeps a local clock: the library, the second program, or a wrong one. Also to be asked it is lent a clock that it could write into, so that
/// one that does is seen.
pub trait Program {
    fn message(&self, clock: &mut Clock, message: Message, local: LocalTime) -> u32;
    fn asked(&self, clock: &mut Clock, local: LocalTime) -> (Factor, Reference);
}

pub struct Library;

impl Program for Library {
    fn message(&self, clock: &mut Clock, message: Message, local: LocalTime) -> u32 {
        library_clock::message(clock, message, local)
    }

    fn asked(&self, clock: &mut Clock, local: LocalTime) -> (Factor, Reference) {
        (library_clock::factor(clock, local), library_clock::reference_time(clock, local))
    }
}

/// The second program's clock by any rules.
impl Program for Rules {
    fn message(&self, clock: &mut Clock, message: Message, local: LocalTime) -> u32 {
        clock_border::message(self, clock, message, local)
    }

    fn asked(&self, clock: &mut Clock, local: LocalTime) -> (Factor, Reference) {
        (clock_border::factor(self, clock, local), clock_border::reference_time(self, clock, local))
    }
}

pub const SECOND: &Rules = &PAPERS;

/// A time so far after another, on the circle; before it where `ms` is below 0.
pub fn after(local: LocalTime, ms: i64) -> LocalTime {
    LocalTime {
        ms: local.ms.wrapping_add(ms as u32),
    }
}

/// The factor of a clock's pairs, whether or not they count.
pub fn factor_of_pairs(clock: &Clock) -> u32 {
    let whole = Clock {
        count: 16,
        state: 2,
        ..*clock
    };
    clock_border::factor(SECOND, &whole, whole.resynchronised).factor
}

/// What stands before a clock and behind it, and stays.
const GUARD: Clock = {
    let (reference, local) = (RefTime { ms: 0xA5A5_A5A5 }, LocalTime { ms: 0xA5A5_A5A5 });
    Clock {
        pairs: [Pair { reference, local }; PAIRS],
        count: 0xA5A5_A5A5,
        state: 0xA5A5_A5A5,
        last: Last {
            received: 0xA5A5_A5A5,
            number: 0xA5A5_A5A5,
            local,
        },
        resynchronised: local,
        period: Period {
            begun: local,
            factor: 0xA5A5_A5A5,
            messages: 0xA5A5_A5A5,
        },
    }
};

#[derive(Clone)]
pub struct Case {
    pub clock: Clock,
    pub message: Message,
    pub local: LocalTime,
    /// Which moments the clock is asked about, before the message and again after it.
    pub moments: Vec<LocalTime>,
}

/// All that the interface shows of a case.
#[derive(Clone, PartialEq)]
pub struct Outcome {
    pub answer: u32,
    /// The clock after the message.
    pub after: Clock,
    /// What is answered about each moment before the message, and after it.
    pub asked: [Vec<(Factor, Reference)>; 2],
    /// The clock with its guards after it was asked, likewise.
    left: [[Clock; 3]; 2],
}

/// What one who asks can be answered, as it is counted.
pub const ASKED: [&str; 2] = ["asked: answer 0 at one of the moments", "asked: answer 9 at one of the moments"];

impl Outcome {
    /// Counts which answers one who asked got.
    pub fn count_asked(&self, order: u32, shares: &mut Shares) {
        for (answer, name) in [0, 9].iter().zip(ASKED) {
            if self.asked.iter().flatten().any(|(factor, _)| factor.answer == *answer) {
                shares.count(order, name);
            }
        }
    }
}

impl Case {
    pub fn outcome(&self, program: &dyn Program) -> Outcome {
        let mut guarded = [GUARD, self.clock, GUARD];
        let ask = |clock: &mut Clock| self.moments.iter().map(|moment| program.asked(clock, *moment)).collect();
        let asked_before = ask(&mut guarded[1]);
        let left_before = guarded;
        let answer = program.message(&mut guarded[1], self.message, self.local);
        let after = guarded[1];
        let asked_after = ask(&mut guarded[1]);
        Outcome {
            answer,
            after,
            asked: [asked_before, asked_after],
            left: [left_before, guarded],
        }
    }

    /// What is demanded of every message: nothing around the clock is touched, and asking touches nothing; a message that is dropped or left unread leaves the
    /// clock as it was; one that fails leaves no pair that counts, and a clock that was synchronised isolated; only the sixteenth pair synchronises.
    fn lawful(&self, outcome: &Outcome) -> bool {
        let Outcome { answer, after, left, .. } = outcome;
        let before = self.clock.state;
        let state = match (before, *answer) {
            (2, 100..) => 3,
            (1, 2) => 2,
            _ => before,
        };
        let guarded = *left == [self.clock, *after].map(|clock| [GUARD, clock, GUARD]);
        let untouched = ![4, 5].contains(answer) || *after == self.clock;
        let no_pair = *answer < 100 || after.count == 0;
        guarded && untouched && after.state == state && no_pair
    }

    /// Puts the case to both programs: one comparison for the message, and one for each time that the clock is asked. Gives the outcome by the library.
    pub fn compare(&self, tally: &mut Tally) -> Outcome {
        let library = self.outcome(&Library);
        let second = self.outcome(SECOND);
        let same = (library.answer, library.after, library.left) == (second.answer, second.after, second.left);
        tally.hold(same && self.lawful(&library), || {
            format!(
                "{:X?} at {:X?}\n  before: {:X?}\n  library: {} {:X?}\n  second program: {} {:X?}",
                self.message, self.local, self.clock, library.answer, library.after, second.answer, second.after
            )
        });
        for (when, clock) in [self.clock, library.after].iter().enumerate() {
            for (place, moment) in self.moments.iter().enumerate() {
                let (ours, theirs) = (library.asked[when][place], second.asked[when][place]);
                tally.hold(ours == theirs && lawfully_asked(clock, *moment, ours), || {
                    format!("asked at {moment:X?}: {clock:X?}\n  library: {ours:X?}\n  second program: {theirs:X?}")
                });
            }
        }
        library
    }
}

/// What is demanded of every answer to one who asks: factor and time there are both or neither, only of a synchronised clock, and the time is the factor
/// added to the local time.
fn lawfully_asked(clock: &Clock, moment: LocalTime, (factor, reference): (Factor, Reference)) -> bool {
    match (factor.answer, reference.answer) {
        (0, 0) => clock.state == 2 && reference.time.ms == factor.factor.wrapping_add(moment.ms),
        (9, 9) => factor.factor == 0 && reference.time.ms == 0,
        _ => false,
    }
}
