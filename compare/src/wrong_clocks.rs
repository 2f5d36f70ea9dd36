//! Local clocks that are wrong in the factor, in the pairs, in the numbers, in their state, and when they are asked. Each is seen by the arbitrary clocks, and
//! by the random runs if messages bring its fault about: so the comparisons can fail.

use crate::clock_border;
use crate::clock_case::{factor_of_pairs, Program, SECOND};
use crate::clock_rules::{distance, distances, elapsed, Rules, CIRCLE, PAPERS};
use crate::library_clock::{Clock, Factor, RefTime, Reference, PAIRS};
use crate::wrong_clock::*;
use crate::wrong_clock_tests;

pub fn wrong_clocks() -> Vec<Wrong> {
    let groups = [factors(), pairs(), numbers(), states(), asked(), whole()];
    groups.into_iter().flatten().chain(wrong_clock_tests::wrong_tests()).collect()
}

/// The newest difference with so much added.
fn added(differences: &[i64], mean: i64) -> i64 {
    (differences[0] + mean).rem_euclid(CIRCLE)
}

fn factors() -> Vec<Wrong> {
    let by_factor = |what, factor| by(what, Rules { factor, ..PAPERS });
    vec![
        by_factor("the factor rounded towards 0", |all| added(all, distances(all).sum::<i64>() / 16)),
        by_factor("the factor rounded up", |all| {
            added(all, (distances(all).sum::<i64>() + 15).div_euclid(16))
        }),
        by_factor("the factor rounded to the nearest", |all| {
            added(all, (distances(all).sum::<i64>() + 8).div_euclid(16))
        }),
        by_factor("the factor as a mean of numbers, without a circle", |all| all.iter().sum::<i64>() / 16),
        by_factor("distances without a sign", |all| {
            let sum: i64 = all.iter().map(|difference| elapsed(*difference, all[0])).sum();
            added(all, sum / 16)
        }),
        by_factor("distances from the oldest difference", |all| {
            let turned: Vec<i64> = all.iter().rev().copied().collect();
            (PAPERS.factor)(&turned)
        })
        .only_arbitrary(),
        by_factor("the mean of 15 pairs", |all| (PAPERS.factor)(&all[..15])),
        by_factor("the newest difference for the mean", |all| all[0]),
        by(
            "local and reference exchanged in the difference",
            Rules {
                difference: |pair| elapsed(pair.local.ms.into(), pair.reference.ms.into()),
                ..PAPERS
            },
        ),
    ]
}

fn pairs() -> Vec<Wrong> {
    vec![
        by(
            "a pair though the message before was lost",
            Rules {
                tells_of: |number, last| number > last,
                ..PAPERS
            },
        ),
        by(
            "message 0's Reference Time used after message 2^32 - 1",
            Rules {
                above: |number, last| number > last || number == (last + 1) % CIRCLE,
                tells_of: |number, last| number == (last + 1) % CIRCLE,
                ..PAPERS
            },
        ),
        leaves("a pair with the first message", |taken| {
            let mut clock = taken.before;
            clock.last.received = 1;
            taken.again(SECOND, clock);
            if taken.after.last == clock.last {
                taken.after.last = taken.before.last;
            }
        }),
        leaves("a pair with the local time of the message that tells the Reference Time", |taken| {
            if taken.paired() {
                taken.after.pairs[0].local = taken.local;
            }
        }),
        leaves("the oldest pair kept and the newest dropped", |taken| {
            if taken.answer == 3 {
                taken.after.pairs = taken.before.pairs;
            }
        }),
        leaves("the new pair put over the newest", |taken| {
            if taken.answer == 3 {
                let new = taken.after.pairs[0];
                taken.after.pairs = taken.before.pairs;
                taken.after.pairs[0] = new;
            }
        }),
        leaves("the new pair put behind the others", |taken| {
            if taken.paired() {
                taken.after.pairs.rotate_left(1);
            }
        }),
        leaves("pairs that don't count cleared", |taken| {
            let none = clock_border::new().pairs[0];
            let count = PAIRS.min(taken.after.count as usize);
            taken.after.pairs[count..].fill(none);
        }),
        by("15 pairs are enough", Rules { pairs: 15, ..PAPERS }),
        by("17 pairs are needed", Rules { pairs: 17, ..PAPERS }),
    ]
}

fn numbers() -> Vec<Wrong> {
    let by_above = |what, above| by(what, Rules { above, ..PAPERS });
    vec![
        by_above("a number that comes twice taken", |number, last| number >= last),
        by_above("every number taken", |_, _| true),
        by_above("numbers compared on a circle", |number, last| distance(number, last) > 0),
        leaves("a number not above the last isolates", |taken| {
            if taken.answer == 4 {
                taken.isolates(101);
            }
        }),
        leaves("a number not above the last dropped while unsynchronised", |taken| {
            if taken.answer == 101 {
                taken.untouched(4);
            }
        }),
        leaves("pairs go on after a number that is not above the last", |taken| {
            if taken.answer == 101 {
                taken.after.count = taken.before.count;
            }
        }),
        leaves("a number not above the last kept as the first of a new run", |taken| {
            if taken.answer == 101 {
                taken.after.last = taken.last();
            }
        }),
        leaves("a dropped message kept as the last", |taken| {
            if taken.answer == 4 {
                taken.after.last = taken.last();
            }
        }),
        leaves("a dropped message counted", |taken| {
            if taken.answer == 4 {
                taken.after.period.messages = taken.after.period.messages.saturating_add(1);
            }
        }),
    ]
}

fn states() -> Vec<Wrong> {
    vec![
        leaves("isolation left by a message", |taken| {
            if taken.answer == 5 {
                taken.again(SECOND, clock_border::new());
            }
        }),
        leaves("a message kept while isolated", |taken| {
            if taken.answer == 5 {
                taken.after.last = taken.last();
            }
        }),
        leaves("a failed test leaves the clock unsynchronised", |taken| {
            if taken.was_synchronised() && taken.answer >= 100 {
                taken.after.state = 1;
            }
        }),
        leaves("a failed test leaves the clock synchronised", |taken| {
            if taken.was_synchronised() && taken.answer >= 100 {
                taken.after = taken.before;
            }
        }),
        leaves("pairs count while isolated", |taken| {
            if taken.was_synchronised() && taken.answer >= 100 {
                taken.after.count = taken.before.count;
            }
        }),
        leaves("the message that isolates kept", |taken| {
            if taken.was_synchronised() && taken.answer >= 100 {
                taken.after.last = taken.last();
            }
        }),
        leaves("pairs go on after a failed test while unsynchronised", |taken| {
            if [104, 105].contains(&taken.answer) && !taken.was_synchronised() {
                taken.after.count = taken.before.count;
            }
        }),
        leaves("a message that fails forgotten while unsynchronised", |taken| {
            if [104, 105].contains(&taken.answer) && !taken.was_synchronised() {
                taken.after.last = taken.before.last;
            }
        }),
        leaves("a zeroed clock taken for a new one", |taken| {
            if taken.before.state == 0 {
                taken.again(SECOND, Clock { state: 1, ..taken.before });
            }
        })
        .only_arbitrary(),
    ]
}

/// What is answered where there is neither factor nor time.
const NOTHING: (Factor, Reference) = (
    Factor { answer: 9, factor: 0 },
    Reference {
        answer: 9,
        time: RefTime { ms: 0 },
    },
);

fn asked() -> Vec<Wrong> {
    vec![
        answers("a stale factor given", |clock, local| instead(*clock, clock.resynchronised, local)),
        answers("a time from long before the last resynchronisation given", |clock, local| {
            let before = distance(local.ms.into(), clock.resynchronised.ms.into()) < 0;
            let moment = if before { clock.resynchronised } else { local };
            instead(*clock, moment, local)
        }),
        answers("a time from just before the last resynchronisation refused", |clock, local| {
            let before = distance(local.ms.into(), clock.resynchronised.ms.into()) < 0;
            if before {
                NOTHING
            } else {
                SECOND.asked(clock, local)
            }
        }),
        answers("the Reference Time less by the factor", |clock, local| {
            let (factor, mut reference) = SECOND.asked(clock, local);
            if reference.answer == 0 {
                reference.time.ms = local.ms.wrapping_sub(factor.factor);
            }
            (factor, reference)
        }),
        answers("the factor given beside answer 9", |clock, local| {
            let (mut given, reference) = SECOND.asked(clock, local);
            given.factor = factor_of_pairs(clock);
            (given, reference)
        }),
        answers("a clock isolated by being asked too late", |clock, local| {
            let answered = SECOND.asked(clock, local);
            if answered == NOTHING && clock.state == 2 {
                clock.state = 3;
            }
            answered
        }),
        answers("the state not looked at", |clock, local| {
            instead(Clock { state: 2, ..*clock }, local, local)
        })
        .only_arbitrary(),
        answers("a factor of 15 pairs given", |clock, local| {
            let count = if clock.count == 15 { 16 } else { clock.count };
            instead(Clock { count, ..*clock }, local, local)
        })
        .only_arbitrary(),
        answers("a count over 16 taken for too few", |clock, local| {
            let count = if clock.count > 16 { 0 } else { clock.count };
            instead(Clock { count, ..*clock }, local, local)
        })
        .only_arbitrary(),
        answers("never a time given", |_, _| NOTHING),
    ]
}

fn whole() -> Vec<Wrong> {
    vec![
        leaves("a clock that does nothing", |taken| taken.untouched(0)),
        leaves("a clock that only answers", |taken| taken.untouched(taken.answer)),
        leaves("a clock that answers the same always", |taken| taken.answer = 0),
    ]
}
