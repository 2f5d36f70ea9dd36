//! The local clock: the library against the second program in its bytes and factors, on arbitrary clocks, in random runs and over long steady ones, and the
//! cases against wrong clocks.

use crate::clock_case::{Case, Outcome};
use crate::tally::Tally;
use crate::wrong_clock::{unchanged, Wrong};
use crate::wrong_clocks::wrong_clocks;
use crate::{clock_bytes, clock_cases, clock_hours, clock_means, clock_runs};

/// How many of the arbitrary clocks, and of the messages of the runs, wrong clocks are put to.
const FOR_WRONG: usize = 100_000;
/// How many those are put to that are not wrong.
const FOR_UNCHANGED: usize = 10_000;

/// All comparisons of the local clock.
pub fn compare_all(tally: &mut Tally) {
    clock_bytes::compare_all(tally);
    clock_means::compare(tally);
    wrong_clocks_are_seen(tally);
    clock_cases::random(tally);
    clock_runs::random(tally);
    clock_hours::compare(tally);
}

/// Leaves those that a case doesn't tell from the library.
fn retain_unseen(unseen: &mut Vec<Wrong>, case: &Case, outcome: &Outcome) {
    unseen.retain(|wrong| case.outcome(&*wrong.program) == *outcome);
}

/// Each wrong clock is seen by an arbitrary clock, and by a message of the runs if messages bring its fault about: so the comparisons can fail. One that
/// is made in the same way and isn't wrong is seen by none.
fn wrong_clocks_are_seen(tally: &mut Tally) {
    let mut demand_seen = |what: &str, all: usize, unseen: Vec<Wrong>| {
        for number in 0..all {
            tally.hold(number >= unseen.len(), || format!("no {what} sees {}", unseen[number].what));
        }
        tally.told(&format!("wrong clocks: each is seen by one of the first {FOR_WRONG} {what}s below"));
    };
    let mut unseen = wrong_clocks();
    let all = unseen.len();
    clock_cases::each(FOR_WRONG, |case, outcome| retain_unseen(&mut unseen, case, outcome));
    demand_seen("arbitrary clock", all, unseen);

    let mut unseen: Vec<Wrong> = wrong_clocks().into_iter().filter(|wrong| wrong.by_messages).collect();
    let all = unseen.len();
    clock_runs::each(FOR_WRONG, |case, outcome| retain_unseen(&mut unseen, case, outcome));
    demand_seen("random message", all, unseen);

    let mut unseen = unchanged();
    let all = unseen.len();
    clock_cases::each(FOR_UNCHANGED, |case, outcome| retain_unseen(&mut unseen, case, outcome));
    clock_runs::each(FOR_UNCHANGED, |case, outcome| retain_unseen(&mut unseen, case, outcome));
    tally.hold(unseen.len() == all, || {
        "a clock is seen that is made like the wrong ones with nothing changed".into()
    });
    tally.told("clocks made like the wrong ones with nothing changed: none is seen");
}
