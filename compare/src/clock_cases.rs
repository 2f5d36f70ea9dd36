//! Arbitrary clocks, from a fixed seed: any values in every field, most of them at a limit or beside it, and one message for each. Many are clocks that no
//! message brings about; the library takes them all the same.

use crate::clock_border;
use crate::clock_case::{after, factor_of_pairs, Case, Library, Outcome, ASKED};
use crate::library_clock::{Clock, Last, LocalTime, Message, Pair, Period, RefTime, PAIRS};
use crate::random::{once_in, one_of, Random};
use crate::shares::Shares;
use crate::tally::Tally;

const SEED: u64 = 0x6172_6269_7472_6172;
const CASES: usize = 400_000;

/// Half the circle, where forwards becomes backwards.
const HALF: i64 = 1 << 31;

/// Numbers of messages and times at the ends of 32 bits and in their middle, and any others.
fn number(random: &mut Random) -> u32 {
    let any = random.next() as u32;
    one_of(random, &[any, any, any, 0, 1, 2, (1 << 31) - 1, 1 << 31, u32::MAX - 1, u32::MAX])
}

fn local(random: &mut Random) -> LocalTime {
    LocalTime { ms: number(random) }
}

/// One of the steps, or another one as far as `most` to either side, or any.
fn step(random: &mut Random, steps: &[i64], most: usize) -> i64 {
    let near = random.upto(2 * most) as i64 - most as i64;
    let any = random.next() as i64;
    match random.upto(9) {
        0 => near,
        1 => any,
        _ => one_of(random, steps),
    }
}

/// 16 pairs: any at all, or each a while before the one that is newer, with differences that lie near to one another.
fn pairs(random: &mut Random) -> [Pair; PAIRS] {
    let any = |random: &mut Random| Pair {
        reference: RefTime { ms: number(random) },
        local: local(random),
    };
    let mut pair = any(random);
    let (wild, spread) = (once_in(random, 6), one_of(random, &[0, 1, 3, 20, 200]));
    let mut older = || {
        let newer = pair;
        let (back, apart) = (1 + random.upto(1500) as i64, random.upto(2 * spread) as i64 - spread as i64);
        let reference = newer.reference.ms.wrapping_sub((back + apart) as u32);
        pair = match wild {
            true => any(random),
            false => Pair {
                reference: RefTime { ms: reference },
                local: after(newer.local, -back),
            },
        };
        newer
    };
    [(); PAIRS].map(|_| older())
}

/// The last message, mostly received, a while after the newest pair, at the limit of later, or at any time.
fn last(newest: Pair, random: &mut Random) -> Last {
    let gap = 1 + random.upto(1500) as i64;
    let steps = [gap, gap, gap, 1, 0, -1, HALF - 1, HALF, HALF + 1];
    Last {
        received: one_of(random, &[0, 1, 1, 1, 1, 1, 1, 2, u32::MAX]),
        number: number(random),
        local: after(newest.local, step(random, &steps, 5)),
    }
}

/// A message mostly with the number after the last one's. Its Reference Time lies beside the newest pair's, or so far from the factor as to be at a limit.
fn message(clock: &Clock, random: &mut Random) -> Message {
    let last = clock.last;
    let back = random.upto(20) as u32;
    let next = last.number.wrapping_add(1);
    let choices = [
        next,
        next,
        next,
        next,
        next.wrapping_add(1),
        last.number,
        last.number.wrapping_sub(back),
        0,
        u32::MAX,
    ];
    let by_factor = last.local.ms.wrapping_add(factor_of_pairs(clock));
    let ms = match once_in(random, 4) {
        true => {
            let beside = step(random, &[1, 0, -1, HALF - 1, HALF, HALF + 1], 5);
            clock.pairs[0].reference.ms.wrapping_add(beside as u32)
        }
        false => {
            let beside = step(random, &[0, 0, 0, 0, 0, 0, 98, 99, 100, 101, -98, -99, -100, -101, HALF - 1, HALF], 120);
            by_factor.wrapping_add(beside as u32)
        }
    };
    Message {
        number: one_of(random, &choices),
        reference: RefTime { ms },
    }
}

/// The period, about as long ago as it lasts, with a factor about as far away as is allowed. 4,294,968 times 1,000 is little more than 2^32.
fn period(clock: &Clock, now: LocalTime, random: &mut Random) -> Period {
    let ago = step(random, &[29_999, 30_000, 30_001, 0, 1, 15_000, 31_000, 60_000], 40_000);
    let moved = step(random, &[0, 0, 0, 29, 30, 31, -29, -30, -31, 4_294_968, -4_294_968, HALF - 1, HALF], 40);
    Period {
        begun: after(now, -ago),
        factor: factor_of_pairs(clock).wrapping_sub(moved as u32),
        messages: one_of(random, &[0, 1, 17, 18, 19, 60, 60, 60, u32::MAX - 1, u32::MAX]),
    }
}

fn arbitrary(random: &mut Random) -> Case {
    let mut clock = Clock {
        pairs: pairs(random),
        state: one_of(random, &[1, 1, 1, 1, 1, 2, 2, 2, 2, 2, 2, 2, 2, 2, 2, 0, 3, 4, u32::MAX]),
        ..clock_border::new()
    };
    clock.count = match clock.state {
        2 => one_of(random, &[16, 16, 16, 16, 16, 16, 16, 16, 17, 1 << 31, u32::MAX, 15, 1, 0]),
        _ => one_of(random, &[0, 1, 2, 8, 14, 15, 15, 16, 17, 1 << 31, u32::MAX]),
    };
    clock.last = last(clock.pairs[0], random);
    let soon = random.upto(3000) as i64;
    // Mostly the message comes soon after the last one.
    let now = match once_in(random, 5) {
        true => local(random),
        false => after(clock.last.local, soon),
    };
    let ago = step(
        random,
        &[0, 1, soon, soon, soon, soon, soon, 500, 2999, 3000, 3001, -1, HALF - 1, HALF],
        3500,
    );
    clock.resynchronised = after(now, -ago);
    clock.period = period(&clock, now, random);
    let mut moments: Vec<LocalTime> = [-3001, -3000, 0, 3000, 3001].iter().map(|ms| after(clock.resynchronised, *ms)).collect();
    moments.extend([0, 3000, 3001].iter().map(|ms| after(now, *ms)));
    moments.push(local(random));
    Case {
        message: message(&clock, random),
        clock,
        local: now,
        moments,
    }
}

/// All cases by both programs. Each answer must come from each state that can have it.
pub fn random(tally: &mut Tally) {
    let mut random = Random(SEED);
    let mut shares = Shares::default();
    let name = |state: u32, answer: u32| format!("state {state}: event {answer}");
    for _ in 0..CASES {
        let case = arbitrary(&mut random);
        let outcome = case.compare(tally);
        shares.count(case.clock.state.min(9), name(case.clock.state, outcome.answer));
        outcome.count_asked(10, &mut shares);
    }
    tally.drawn(CASES);
    let mut wanted: Vec<String> = ASKED.map(String::from).to_vec();
    wanted.extend([0, 1, 2, 101, 104, 105].map(|answer| name(1, answer)));
    wanted.extend([0, 3, 4, 102, 103, 104, 105, 106, 107, 108].map(|answer| name(2, answer)));
    wanted.extend([0, 3, 4, u32::MAX].map(|state| name(state, 5)));
    shares.demand(500, &wanted, tally);
    tally.told(&format!(
        "local clocks: {CASES} arbitrary ones, a message for each, and each asked about nine moments before and after it (seed {SEED:#x}); of these"
    ));
    shares.tell();
}

/// The outcomes of the first cases by the library, one by one, to see whether a wrong clock's are others.
pub fn each(cases: usize, mut see: impl FnMut(&Case, &Outcome)) {
    let mut random = Random(SEED);
    for _ in 0..cases {
        let case = arbitrary(&mut random);
        see(&case, &case.outcome(&Library));
    }
}
