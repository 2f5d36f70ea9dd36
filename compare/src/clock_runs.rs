//! Random runs of a local clock on a bus with a reference clock, from a fixed seed. Each message is put to both programs, and before and after it the clock
//! is asked about several moments. Wrong clocks are put to the same messages.

use crate::clock_border;
use crate::clock_bus::ClockBus;
use crate::clock_case::{after, factor_of_pairs, Case, Library, Outcome, ASKED};
use crate::clock_rules::{distance, elapsed};
use crate::library_clock::{self, Clock, LocalTime};
use crate::random::{once_in, Random};
use crate::shares::Shares;
use crate::tally::Tally;

const SEED: u64 = 0x636C_6F63_6B73_2035;
const MESSAGES: usize = 200_000;
const LONGEST_RUN: usize = 500;

/// Has clocks take messages. `put` has one take one and gives the outcome to go on with. Gives the number of messages.
fn drive(messages: usize, shares: &mut Shares, mut put: impl FnMut(&Case) -> Outcome) -> usize {
    let mut random = Random(SEED);
    let mut made = 0;
    while made < messages {
        let mut bus = ClockBus::new(&mut random);
        let mut clock = clock_border::new();
        shares.count(1, "runs");
        let until = messages.min(made + 20 + random.upto(LONGEST_RUN));
        while made < until {
            let (message, local) = bus.next(&mut random, shares);
            let moments = moments(&clock, local, &mut random);
            let case = Case {
                clock,
                message,
                local,
                moments,
            };
            let outcome = put(&case);
            count(&case, &outcome, shares);
            clock = outcome.after;
            made += 1;
            // An isolated clock hears some messages more, until its node is switched off and on.
            if clock.state == 3 && once_in(&mut random, 4) {
                clock = clock_border::new();
                shares.count(2, "restarts of a node");
            }
        }
    }
    made
}

/// The moments that a clock is asked about: around the reception, around the end of the 3 s that begin with it and of those before, and at any moment.
fn moments(clock: &Clock, local: LocalTime, random: &mut Random) -> Vec<LocalTime> {
    let (any, soon) = (random.next() as i64, random.upto(3500) as i64);
    let mut moments: Vec<LocalTime> = [-1, 0, soon, 3000, 3001, any].iter().map(|ms| after(local, *ms)).collect();
    moments.extend([-3001, -3000, 3000, 3001].iter().map(|ms| after(clock.resynchronised, *ms)));
    moments
}

fn state_name(state: u32) -> &'static str {
    match state {
        1 => "unsynchronised",
        2 => "synchronised",
        _ => "isolated",
    }
}

fn answer_name(state: u32, answer: u32) -> String {
    format!("{}: event {answer}", state_name(state))
}

fn count(case: &Case, outcome: &Outcome, shares: &mut Shares) {
    let (state, answer, after) = (case.clock.state, outcome.answer, &outcome.after);
    shares.count(10 + state, answer_name(state, answer));
    outcome.count_asked(20, shares);
    let [newest, before] = [after.pairs[0], after.pairs[1]];
    if [1, 2, 3].contains(&answer) && after.count > 1 {
        if newest.local.ms < before.local.ms {
            shares.count(40, "pairs across the end of the local clock's circle");
        }
        if newest.reference.ms < before.reference.ms {
            shares.count(40, "pairs across the end of the Reference Time's circle");
        }
    }
    if state == 2 {
        count_limits(case, outcome, shares);
    }
    if state == 2 && after.period.begun != case.clock.period.begun {
        let which = if answer == 0 { "no pair" } else { "a pair" };
        shares.count(45, format!("periods whose end is shown by a message that makes {which}"));
    }
}

/// Whether a synchronised clock was at one of its limits, where the tests before that one passed.
fn count_limits(case: &Case, outcome: &Outcome, shares: &mut Shares) {
    let (clock, now, answer) = (&case.clock, i64::from(case.local.ms), outcome.answer);
    let mut at_limit = |limits: [i64; 2], number: i64, what: &str, failed: u32| {
        if limits.contains(&number) {
            let passes = if answer == failed { "fails" } else { "passes" };
            shares.count(50, format!("{number} {what}: {passes}"));
        }
    };
    let since = elapsed(now, clock.resynchronised.ms.into());
    at_limit([3000, 3001], since, "ms since the last resynchronisation", 103);
    let factor = i64::from(factor_of_pairs(clock));
    let told = i64::from(case.message.reference.ms) - i64::from(clock.last.local.ms);
    if [3, 106, 107, 108].contains(&answer) {
        at_limit([99, 100], distance(told, factor).abs(), "ms from the factor", 106);
    }
    let ended = elapsed(now, clock.period.begun.ms.into()) >= 30_000;
    if ended && [0, 3, 107, 108].contains(&answer) {
        at_limit([17, 18], clock.period.messages.into(), "messages in a period", 107);
    }
    if ended && [0, 3, 108].contains(&answer) {
        let moved = distance(factor, clock.period.factor.into());
        at_limit([30, 31], moved.abs(), "ms in a period", 108);
    }
}

/// What the runs must have reached: each answer in each state that can have it, both answers to one who asks, each trouble, and each limit from both sides.
fn wanted() -> Vec<String> {
    let mut wanted: Vec<String> = Vec::new();
    wanted.extend([0, 1, 2, 101, 104, 105].map(|answer| answer_name(1, answer)));
    wanted.extend([0, 3, 4, 103, 104, 105, 106, 107, 108].map(|answer| answer_name(2, answer)));
    wanted.push(answer_name(3, 5));
    wanted.extend(ASKED.map(String::from));
    let others = [
        "bus: a message comes twice",
        "bus: a message is lost",
        "bus: an older message comes again",
        "bus: a long interval",
        "bus: two messages at one moment",
        "bus: numbers go back",
        "bus: numbers reach their end",
        "bus: numbers skip",
        "bus: the local clock jumps a little",
        "bus: the local clock jumps far",
        "bus: the local clock stands still",
        "bus: the reference clock jumps a little",
        "bus: the reference clock jumps far",
        "bus: the reference clock restarts",
        "bus: the reference clock stands still",
        "pairs across the end of the local clock's circle",
        "pairs across the end of the Reference Time's circle",
        "periods whose end is shown by a message that makes a pair",
        "periods whose end is shown by a message that makes no pair",
        "3000 ms since the last resynchronisation: passes",
        "3001 ms since the last resynchronisation: fails",
        "99 ms from the factor: passes",
        "100 ms from the factor: fails",
        "17 messages in a period: fails",
        "18 messages in a period: passes",
        "30 ms in a period: passes",
        "31 ms in a period: fails",
    ];
    wanted.extend(others.map(String::from));
    wanted
}

/// All messages by both programs, and a new clock by both.
pub fn random(tally: &mut Tally) {
    tally.hold(library_clock::new() == clock_border::new(), || "the new clock".into());
    let mut shares = Shares::default();
    let messages = drive(MESSAGES, &mut shares, |case| case.compare(tally));
    tally.drawn(messages);
    shares.demand(5, &wanted(), tally);
    let often = [answer_name(1, 1), answer_name(2, 3), answer_name(2, 0), ASKED[0].into()];
    shares.demand(1000, &often, tally);
    tally.told(&format!(
        "local clocks: {messages} random messages, and the clock asked about ten moments before and after each (seed {SEED:#x}); of these"
    ));
    shares.tell();
}

/// The outcomes of the first messages by the library, one by one, to see whether a wrong clock's are others.
pub fn each(messages: usize, mut see: impl FnMut(&Case, &Outcome)) {
    drive(messages, &mut Shares::default(), |case| {
        let outcome = case.outcome(&Library);
        see(case, &outcome);
        outcome
    });
}
