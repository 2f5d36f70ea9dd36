//! How a local clock is made wrong: by another rule, by leaving something else after a message, or by answering something else when it is asked. Where a wrong
//! one doesn't say otherwise, it is the second program.

use crate::clock_case::{after, Program, SECOND};
use crate::clock_rules::{Rules, PAPERS};
use crate::library_clock::{Clock, Factor, Last, LocalTime, Message, RefTime, Reference};

pub struct Wrong {
    pub what: &'static str,
    pub program: Box<dyn Program>,
    /// Whether messages bring its fault about, and not only once in many runs: then the random runs must see it too.
    pub by_messages: bool,
}

impl Wrong {
    fn new(what: &'static str, program: impl Program + 'static) -> Wrong {
        Wrong {
            what,
            program: Box::new(program),
            by_messages: true,
        }
    }

    /// The same, where clocks show the fault that messages bring about never or hardly ever.
    pub fn only_arbitrary(self) -> Wrong {
        Wrong { by_messages: false, ..self }
    }
}

/// A message and what the second program makes of it.
pub struct Taken {
    pub before: Clock,
    pub message: Message,
    pub local: LocalTime,
    pub after: Clock,
    pub answer: u32,
}

impl Taken {
    /// Has it taken by these rules, for this clock before it.
    pub fn again(&mut self, rules: &Rules, mut clock: Clock) {
        self.answer = rules.message(&mut clock, self.message, self.local);
        self.after = clock;
    }

    /// The same, only to look at the answer.
    pub fn answer_by(&self, rules: &Rules) -> u32 {
        rules.message(&mut self.before.clone(), self.message, self.local)
    }

    /// Has the clock isolated by it.
    pub fn isolates(&mut self, answer: u32) {
        self.answer = answer;
        self.after = Clock {
            state: 3,
            count: 0,
            ..self.before
        };
    }

    /// Leaves the clock as it was.
    pub fn untouched(&mut self, answer: u32) {
        self.answer = answer;
        self.after = self.before;
    }

    /// The message as the one received last.
    pub fn last(&self) -> Last {
        Last {
            received: 1,
            number: self.message.number,
            local: self.local,
        }
    }

    pub fn was_synchronised(&self) -> bool {
        self.before.state == 2
    }

    /// Whether a clock that was synchronised took it, with a pair or without.
    pub fn goes_on(&self) -> bool {
        self.was_synchronised() && [0, 3].contains(&self.answer)
    }

    /// Whether it showed the end of a period that passed.
    pub fn ended(&self) -> bool {
        self.goes_on() && self.after.period.begun != self.before.period.begun
    }

    /// Whether it made a pair.
    pub fn paired(&self) -> bool {
        [1, 2, 3].contains(&self.answer)
    }
}

struct Leaves(fn(&mut Taken));

impl Program for Leaves {
    fn message(&self, clock: &mut Clock, message: Message, local: LocalTime) -> u32 {
        let before = *clock;
        let answer = SECOND.message(clock, message, local);
        let mut taken = Taken {
            before,
            message,
            local,
            after: *clock,
            answer,
        };
        self.0(&mut taken);
        *clock = taken.after;
        taken.answer
    }

    fn asked(&self, clock: &mut Clock, local: LocalTime) -> (Factor, Reference) {
        SECOND.asked(clock, local)
    }
}

struct Answers(fn(&mut Clock, LocalTime) -> (Factor, Reference));

impl Program for Answers {
    fn message(&self, clock: &mut Clock, message: Message, local: LocalTime) -> u32 {
        SECOND.message(clock, message, local)
    }

    fn asked(&self, clock: &mut Clock, local: LocalTime) -> (Factor, Reference) {
        self.0(clock, local)
    }
}

/// Goes by other rules.
pub fn by(what: &'static str, rules: Rules) -> Wrong {
    Wrong::new(what, rules)
}

/// Leaves something else after a message.
pub fn leaves(what: &'static str, change: fn(&mut Taken)) -> Wrong {
    Wrong::new(what, Leaves(change))
}

/// Answers something else.
pub fn answers(what: &'static str, asked: fn(&mut Clock, LocalTime) -> (Factor, Reference)) -> Wrong {
    Wrong::new(what, Answers(asked))
}

/// What the second program answers of another clock at another moment, with the Reference Time of the moment that was asked about.
pub fn instead(other: Clock, moment: LocalTime, local: LocalTime) -> (Factor, Reference) {
    let (factor, mut reference) = SECOND.asked(&mut other.clone(), moment);
    if reference.answer == 0 {
        let ms = after(local, factor.factor.into()).ms;
        reference.time = RefTime { ms };
    }
    (factor, reference)
}

/// Clocks made so with nothing changed: no case may see them.
pub fn unchanged() -> Vec<Wrong> {
    vec![
        by("no other rule", PAPERS),
        leaves("nothing else left", |_| {}),
        leaves("the same message taken again for the same clock", |taken| {
            taken.again(SECOND, taken.before)
        }),
        answers("nothing else answered", |clock, local| instead(*clock, local, local)),
    ]
}
