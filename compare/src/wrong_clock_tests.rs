//! Local clocks that are wrong in a test of 7.4.2.2 or 7.4.3, in the period, or in the order of the tests.

use crate::clock_case::factor_of_pairs;
use crate::clock_rules::{distance, Rules, CIRCLE, PAPERS};
use crate::wrong_clock::*;

pub fn wrong_tests() -> Vec<Wrong> {
    let groups = [times(), timers(), short_term(), long_term(), periods(), orders()];
    groups.into_iter().flatten().collect()
}

fn times() -> Vec<Wrong> {
    let by_later = |what, later| by(what, Rules { later, ..PAPERS });
    vec![
        by_later("later taken without a sign, as numbers", |one, other| one > other),
        by_later("an equal time taken as later", |one, other| distance(one, other) >= 0),
        by_later("any other time taken as later", |one, other| one != other),
        by_later("half a circle taken as later", |one, other| {
            let way = distance(one, other);
            way > 0 || way == -CIRCLE / 2
        })
        .only_arbitrary(),
        by_later("any time taken as later", |_, _| true),
    ]
}

fn timers() -> Vec<Wrong> {
    let by_time = |what, in_time| by(what, Rules { in_time, ..PAPERS });
    vec![
        by_time("3001 ms pass", |time| time <= 3001),
        by_time("3000 ms fail", |time| time < 3000),
        by_time("a time before the last resynchronisation passes", |time| {
            time <= 3000 || time >= CIRCLE / 2
        }),
        by_time("the Synchronised Timer never runs out", |_| true),
        leaves("the Synchronised Timer restarted by every message", |taken| {
            if taken.goes_on() {
                taken.after.resynchronised = taken.local;
            }
        }),
        leaves("the Synchronised Timer not restarted", |taken| {
            if taken.answer == 3 {
                taken.after.resynchronised = taken.before.resynchronised;
            }
        }),
        leaves("the Synchronised Timer restarted at the message before", |taken| {
            if taken.answer == 3 {
                taken.after.resynchronised = taken.before.last.local;
            }
        }),
    ]
}

fn short_term() -> Vec<Wrong> {
    let by_distance = |what, near| by(what, Rules { near, ..PAPERS });
    vec![
        by_distance("100 passes", |distance| distance.abs() <= 100),
        by_distance("99 fails", |distance| distance.abs() < 99),
        by_distance("short term drift looked at on one side", |distance| distance < 100),
        by_distance("the size of -2^31 in 32 bits", |distance| (distance as i32).wrapping_abs() < 100).only_arbitrary(),
        by_distance("no short term test", |_| true),
        leaves("short term drift against the factor with the pair in it", |taken| {
            if taken.answer == 106 {
                let (before, without) = (taken.before, Rules { near: |_| true, ..PAPERS });
                taken.again(&without, before);
                let pair = taken.after.pairs[0];
                let near = distance((PAPERS.difference)(pair), factor_of_pairs(&taken.after).into()).abs() < 100;
                if taken.answer != 3 || !near {
                    taken.isolates(106);
                }
            }
        }),
    ]
}

fn long_term() -> Vec<Wrong> {
    let by_distance = |what, steady| by(what, Rules { steady, ..PAPERS });
    vec![
        by_distance("31 passes", |distance| distance.abs() <= 31),
        by_distance("30 fails", |distance| distance.abs() < 30),
        by_distance("long term drift looked at on one side", |distance| distance <= 30),
        by_distance("a thousand times the drift in 32 bits", |distance| {
            (1000 * distance.abs()).rem_euclid(CIRCLE) <= 30_000
        })
        .only_arbitrary(),
        by_distance("no long term test", |_| true),
        leaves("long term drift by the factor with the pair in it", |taken| {
            let begun = taken.before.period.factor.into();
            if taken.ended() && taken.answer == 3 && distance(factor_of_pairs(&taken.after).into(), begun).abs() > 30 {
                taken.isolates(108);
            }
        }),
    ]
}

fn periods() -> Vec<Wrong> {
    let by_messages = |what, enough| by(what, Rules { enough, ..PAPERS });
    vec![
        by_messages("17 messages pass", |messages| messages >= 17),
        by_messages("18 messages fail", |messages| messages > 18),
        by_messages("messages not counted", |_| true),
        by(
            "a message at the end of a period belongs to it",
            Rules {
                over: |time| time > 30_000,
                ..PAPERS
            },
        ),
        leaves("a floating period: the next begins with the message", |taken| {
            if taken.ended() {
                taken.after.period.begun = taken.local;
            }
        }),
        leaves("a floating period: it begins with each message", |taken| {
            if taken.goes_on() {
                taken.after.period.begun = taken.local;
            }
        }),
        leaves("only messages that make a pair counted", |taken| {
            if taken.goes_on() && taken.answer == 0 && !taken.ended() {
                taken.after.period.messages = taken.before.period.messages;
            }
        }),
        leaves("only a message that makes a pair shows the end of a period", |taken| {
            let never = Rules { over: |_| false, ..PAPERS };
            if taken.was_synchronised() && taken.answer_by(&never) == 0 {
                taken.again(&never, taken.before);
            }
        }),
        leaves("the message that shows the end of a period not counted", |taken| {
            if taken.ended() {
                taken.after.period.messages = 0;
            }
        }),
        leaves("messages counted over the end of a period", |taken| {
            if taken.ended() {
                taken.after.period.messages = taken.before.period.messages.saturating_add(1);
            }
        }),
        leaves("the message that synchronises not counted", |taken| {
            if taken.answer == 2 {
                taken.after.period.messages = 0;
            }
        }),
        leaves("a period that begins with the factor after the message", |taken| {
            if taken.ended() {
                taken.after.period.factor = factor_of_pairs(&taken.after);
            }
        }),
        leaves("the factor of the first period kept", |taken| {
            if taken.ended() {
                taken.after.period.factor = taken.before.period.factor;
            }
        }),
        leaves("the number of messages wraps", |taken| {
            if taken.goes_on() && !taken.ended() {
                taken.after.period.messages = taken.before.period.messages.wrapping_add(1);
            }
        })
        .only_arbitrary(),
    ]
}

/// A test that stands before another answers for it where both fail: the answer without the other one, if it is one of these.
fn before_it(taken: &mut Taken, answered: &[u32], rules: Rules, first: &[u32]) {
    if taken.was_synchronised() && answered.contains(&taken.answer) {
        let other = taken.answer_by(&rules);
        if first.contains(&other) {
            taken.answer = other;
        }
    }
}

fn orders() -> Vec<Wrong> {
    vec![
        leaves("the number before the 3 s", |taken| {
            let timeless = Rules { in_time: |_| true, ..PAPERS };
            if taken.answer == 103 && taken.answer_by(&timeless) == 4 {
                taken.untouched(4);
            }
        }),
        leaves("the 3 s before the factor", |taken| {
            let always = Rules { pairs: 0, ..PAPERS };
            before_it(taken, &[102], always, &[103]);
        })
        .only_arbitrary(),
        leaves("the local time before the Reference Time", |taken| {
            let (local, newest) = (taken.before.last.local, taken.before.pairs[0].local);
            if taken.answer == 104 && !(PAPERS.later)(local.ms.into(), newest.ms.into()) {
                taken.answer = 105;
            }
        }),
        leaves("short term drift before the times", |taken| {
            let timeless = Rules {
                later: |_, _| true,
                ..PAPERS
            };
            before_it(taken, &[104, 105], timeless, &[106]);
        }),
        leaves("the period before the pair", |taken| {
            let without = Rules {
                later: |_, _| true,
                near: |_| true,
                ..PAPERS
            };
            before_it(taken, &[104, 105, 106], without, &[107, 108]);
        })
        .only_arbitrary(),
        leaves("long term drift before the number of messages", |taken| {
            let without = Rules { enough: |_| true, ..PAPERS };
            before_it(taken, &[107], without, &[108]);
        }),
        leaves("the period before the 3 s", |taken| {
            let timeless = Rules { in_time: |_| true, ..PAPERS };
            before_it(taken, &[103], timeless, &[107, 108]);
        }),
    ]
}
