//! Damage within as many neighbouring bytes as the check word has, anywhere in a telegram of each level, kind and length: the check fails, under the same end
//! and the same expected number.

use crate::damage::{self, Place};
use crate::damage_telegrams::{shapes, tell, Shape, SEED};
use crate::library;
use crate::program::{FAILED, SECOND};
use crate::tally::Tally;
use crate::{damage_limits, damage_longer, wrong_checks};
use std::sync::atomic::{AtomicUsize, Ordering};
use std::thread;

/// Random bursts in each telegram.
const BURSTS: usize = 100_000;

/// How many telegrams are damaged at a time.
const THREADS: usize = 2;

/// What a run counts.
#[derive(Default)]
struct Counts {
    tally: Tally,
    /// Bursts before the check word, in it, and across its start.
    places: [usize; 3],
}

impl Counts {
    /// The sum of both.
    fn add(mut self, other: Counts) -> Counts {
        self.tally.add(other.tally);
        self.places.iter_mut().zip(other.places).for_each(|(sum, count)| *sum += count);
        self
    }
}

/// Runs each shape, on threads that take the next one that is left. What a shape counts depends on it alone, so the sum is the same in every run.
fn each(shapes: &[Shape], run: impl Fn(&Shape, &mut Counts) + Sync) -> Counts {
    let next = AtomicUsize::new(0);
    let work = || {
        let mut counts = Counts::default();
        while let Some(shape) = shapes.get(next.fetch_add(1, Ordering::Relaxed)) {
            run(shape, &mut counts);
        }
        counts
    };
    thread::scope(|scope| {
        let threads = [(); THREADS].map(|()| scope.spawn(&work));
        let counts = threads.map(|thread| thread.join().expect("a thread that comes to its end"));
        counts.into_iter().fold(Counts::default(), Counts::add)
    })
}

/// Every single bit of a telegram, by both programs. Before, the telegram passes.
fn single_bits(shape: &Shape, counts: &mut Counts) {
    let mut good = shape.drawn(&mut shape.random());
    good.hold_passes(&mut counts.tally);
    damage::single_bits(&mut good.telegram, |damaged| {
        let library = library::check(&good.end, good.expected, damaged);
        let second = (SECOND.check)(&good.end, good.expected, damaged);
        counts.tally.hold(library == FAILED && second == FAILED, || {
            format!("a bit flipped: {library}, {second}: {}", tell(&good.end, good.expected, damaged))
        });
    });
}

/// Every pair of bits of a telegram that lie within as many neighbouring bytes as its check word has.
fn pairs_of_bits(shape: &Shape, counts: &mut Counts) {
    let mut good = shape.drawn(&mut shape.random());
    damage::pairs_of_bits(shape.level, &mut good.telegram, |damaged| {
        let answer = library::check(&good.end, good.expected, damaged);
        counts.tally.hold(answer == FAILED, || {
            format!("two bits flipped: {answer}: {}", tell(&good.end, good.expected, damaged))
        });
    });
}

/// Random bursts in a telegram.
fn bursts(shape: &Shape, counts: &mut Counts) {
    let mut random = shape.random();
    let mut good = shape.drawn(&mut random);
    counts.tally.drawn(BURSTS);
    damage::bursts(shape.level, &mut good.telegram, BURSTS, &mut random, |place, damaged| {
        counts.places[place as usize] += 1;
        let answer = library::check(&good.end, good.expected, damaged);
        counts.tally.hold(answer == FAILED, || {
            format!("a burst: {answer}: {}", tell(&good.end, good.expected, damaged))
        });
    });
}

/// Single bits, in telegrams of all shapes.
fn compare_single_bits(tally: &mut Tally) {
    tally.add(each(&shapes(), single_bits).tally);
    tally.told("damage, single bits: every one but the command's, in each kind at each length, by both programs, all fail");
}

/// Pairs of bits, in telegrams of all shapes.
fn compare_pairs_of_bits(tally: &mut Tally) {
    tally.add(each(&shapes(), pairs_of_bits).tally);
    tally.told("damage, pairs of bits: every one within 6 neighbouring bytes (SL 4) or 4 (SL 2), in each kind at each length, all fail");
}

/// Random bursts, in telegrams of all shapes. Each of the three places has a fifth of them at least.
fn compare_bursts(tally: &mut Tally) {
    const PLACES: [(Place, &str); 3] = [
        (Place::BeforeWord, "before the check word"),
        (Place::InWord, "in the check word"),
        (Place::AcrossItsStart, "across the start of the check word"),
    ];
    let Counts { tally: counted, places } = each(&shapes(), bursts);
    tally.add(counted);
    for (place, what) in PLACES {
        tally.hold(places[place as usize] >= places.iter().sum::<usize>() / 5, || {
            format!("the run has too few bursts {what}")
        });
    }
    tally.told(&format!(
        "damage, bursts: {BURSTS} random ones within 6 or 4 neighbouring bytes in each kind at each length, all fail (seed {SEED:#x}); of these"
    ));
    PLACES
        .iter()
        .for_each(|(place, what)| println!("{:>20}  {what}", places[*place as usize]));
}

/// Wrong checks that damage shows, damage that is promised to be found, and damage that is not.
pub fn compare(tally: &mut Tally) {
    wrong_checks::are_seen(tally);
    compare_single_bits(tally);
    compare_pairs_of_bits(tally);
    compare_bursts(tally);
    damage_longer::compare(tally);
    damage_limits::compare(tally);
}
