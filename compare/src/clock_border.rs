//! Where the second program's clock meets the interface: its form made from the interface's clock, what a message changes put into that, and the functions that
//! the library has too. An Adjustment Factor of any size becomes a number of 32 bits here.

use crate::clock::{Change, LocalClock, Received, State, TimeFrame};
use crate::clock_rules::{Rules, CIRCLE};
use crate::library_clock::{Clock, Factor, Last, LocalTime, Message, Pair, Period, RefTime, Reference, PAIRS};

const STATES: [(u32, State); 3] = [(1, State::Unsynchronised), (2, State::Synchronised), (3, State::Isolated)];

/// The answer to one who asks for a time or a factor that there is not.
const TOO_FEW_PAIRS: u32 = 9;

/// The clock in the second program's form. A state of any other number is isolated.
fn read(clock: &Clock) -> LocalClock {
    let Clock { last, period, .. } = *clock;
    let received = Received {
        number: last.number.into(),
        local_time: last.local,
    };
    let state = STATES.iter().find(|(number, _)| *number == clock.state);
    LocalClock {
        state: state.map_or(State::Isolated, |(_, state)| *state),
        pairs: clock.pairs.iter().copied().collect(),
        count: clock.count as usize,
        last: Some(received).filter(|_| last.received != 0),
        resynchronised: clock.resynchronised.ms.into(),
        frame: TimeFrame {
            start: period.begun.ms.into(),
            factor: period.factor.into(),
            messages: period.messages.into(),
        },
    }
}

/// A place on the circle as a number of 32 bits.
fn place(number: i64) -> u32 {
    number.rem_euclid(CIRCLE) as u32
}

/// Puts what changes into the clock, and touches nothing else.
fn write(clock: &mut Clock, change: Change) {
    if let Some((number, _)) = STATES.iter().find(|(_, state)| Some(*state) == change.state) {
        clock.state = *number;
    }
    if let Some(pairs) = change.pairs {
        clock.pairs.iter_mut().zip(pairs).for_each(|(old, new)| *old = new);
    }
    if let Some(count) = change.count {
        clock.count = count as u32;
    }
    if let Some(last) = change.last {
        clock.last = Last {
            received: 1,
            number: last.number as u32,
            local: last.local_time,
        };
    }
    if change.forgets {
        clock.last.received = 0;
    }
    if let Some(now) = change.resynchronised {
        clock.resynchronised = now;
    }
    if let Some(frame) = change.frame {
        clock.period = Period {
            begun: LocalTime { ms: place(frame.start) },
            factor: place(frame.factor),
            // A number of messages that doesn't fit stays at the greatest.
            messages: frame.messages.min(CIRCLE - 1) as u32,
        };
    }
}

/// A clock that has received no message: unsynchronised, and everything else 0.
pub fn new() -> Clock {
    let (reference, local) = (RefTime { ms: 0 }, LocalTime { ms: 0 });
    Clock {
        pairs: [Pair { reference, local }; PAIRS],
        count: 0,
        state: 1,
        last: Last {
            received: 0,
            number: 0,
            local,
        },
        resynchronised: local,
        period: Period {
            begun: local,
            factor: 0,
            messages: 0,
        },
    }
}

/// Has a clock take a message that was received at a local time. Gives the number of what it did.
pub fn message(rules: &Rules, clock: &mut Clock, message: Message, local: LocalTime) -> u32 {
    let (heard, change) = read(clock).hears(rules, message, local);
    write(clock, change);
    heard as u32
}

/// The factor at a moment.
pub fn factor(rules: &Rules, clock: &Clock, local: LocalTime) -> Factor {
    let factor = read(clock).factor_at(rules, local).map(place);
    Factor {
        answer: factor.map_or(TOO_FEW_PAIRS, |_| 0),
        factor: factor.unwrap_or(0),
    }
}

/// 7.4.5.1: the Reference Time at a moment is the factor and the local time.
pub fn reference_time(rules: &Rules, clock: &Clock, local: LocalTime) -> Reference {
    let time = read(clock).factor_at(rules, local).map(|factor| place(factor + i64::from(local.ms)));
    Reference {
        answer: time.map_or(TOO_FEW_PAIRS, |_| 0),
        time: RefTime { ms: time.unwrap_or(0) },
    }
}
