//! The factor from 16 differences: the library against the second program, against the formula as it is printed where no difference goes round the circle, and
//! where rounding down is not rounding towards 0.

use crate::clock_border;
use crate::clock_case::SECOND;
use crate::clock_rules::{distances, CIRCLE};
use crate::library_clock::{self, Clock, LocalTime, Pair, RefTime, PAIRS};
use crate::random::{once_in, one_of, Random};
use crate::tally::Tally;

const SEED: u64 = 0x6D65_616E_7320_3136;
const SETS: usize = 100_000;

/// How far the differences of a set may lie from one another: from all alike to the whole circle.
const SPREADS: [usize; 10] = [0, 1, 2, 15, 16, 100, 70_000, (1 << 31) - 1, 1 << 31, (1 << 32) - 1];

/// Distances of a difference from the others at which the way round the circle changes, or numbers do.
#[rustfmt::skip]
const EDGES: [i64; 12] = [
    0, 1, -1, 15, 16, -16, -17, (1 << 31) - 1, -(1 << 31), (1 << 31) - 16, 1 << 30, -(1 << 30),
];

/// 16 differences, the newest first.
fn differences(random: &mut Random) -> Vec<i64> {
    let any = random.next() as u32;
    let few = random.upto(100) as u32;
    let middle = i64::from(one_of(random, &[any, any, few, few.wrapping_neg(), (1 << 31) - 50 + few]));
    let spread = one_of(random, &SPREADS);
    let edges = once_in(random, 3);
    let difference = |_| match edges {
        true => middle + one_of(random, &EDGES),
        false => middle + random.upto(spread) as i64 - spread as i64 / 2,
    };
    (0..PAIRS).map(difference).map(|difference| difference.rem_euclid(CIRCLE)).collect()
}

/// A synchronised clock with pairs of these differences, at whatever local times.
fn clock(differences: &[i64], random: &mut Random) -> Clock {
    let mut clock = clock_border::new();
    for (pair, difference) in clock.pairs.iter_mut().zip(differences) {
        let local = LocalTime { ms: random.next() as u32 };
        let reference = RefTime {
            ms: local.ms.wrapping_add(*difference as u32),
        };
        *pair = Pair { reference, local };
    }
    let resynchronised = LocalTime { ms: random.next() as u32 };
    Clock {
        count: 16,
        state: 2,
        resynchronised,
        ..clock
    }
}

/// The factor as 7.4.4.2 prints it, of differences that are numbers and nothing more.
fn as_printed(differences: &[i64]) -> i64 {
    differences.iter().sum::<i64>().div_euclid(16)
}

/// Each set: by both programs, and as printed where the differences lie within half a circle and on one side of its end.
pub fn compare(tally: &mut Tally) {
    let mut random = Random(SEED);
    let (mut rounded, mut printed, mut wide, mut around) = (0, 0, 0, 0);
    for _ in 0..SETS {
        let differences = differences(&mut random);
        let mut clock = clock(&differences, &mut random);
        let now = clock.resynchronised;
        let library = library_clock::factor(&mut clock, now);
        let second = clock_border::factor(SECOND, &clock, now);
        tally.hold(library == second && library.answer == 0, || {
            format!("{differences:X?}\n  library: {library:X?}\n  second program: {second:X?}")
        });
        let (least, greatest) = (differences.iter().min().unwrap(), differences.iter().max().unwrap());
        if greatest - least < CIRCLE / 2 {
            printed += 1;
            let factor = as_printed(&differences);
            tally.hold(i64::from(library.factor) == factor, || format!("{differences:X?} should give {factor:X}"));
        }
        let sum: i64 = distances(&differences).sum();
        let reach = distances(&differences).max().unwrap() - distances(&differences).min().unwrap();
        rounded += usize::from(sum < 0 && sum % 16 != 0);
        wide += usize::from(reach >= CIRCLE / 2);
        around += usize::from(reach < CIRCLE / 2 && greatest - least >= CIRCLE / 2);
    }
    tally.drawn(SETS);
    let reached = [
        (printed, "the formula as printed"),
        (rounded, "a sum below 0 that 16 doesn't divide"),
        (wide, "differences half a circle apart or more"),
        (around, "differences on both sides of the end of the circle"),
    ];
    for (sets, what) in reached {
        tally.hold(sets >= 1000, || format!("only {sets} sets with {what}"));
    }
    tally.told(&format!(
        "factors: {SETS} random sets of 16 differences by both programs (seed {SEED:#x}); of these"
    ));
    reached.iter().for_each(|(sets, what)| println!("{sets:>20}  {what}"));
}
