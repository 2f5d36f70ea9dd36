//! What the papers ask of a local clock, each clause a rule of its own, so that a wrong clock is one that goes by another rule in one place. Clauses are those
//! of SUBSET-056, the values of its constants those of SUBSET-059, 4.3.1.2. Times and numbers are whole numbers of any size here; where a time goes round its
//! circle, it is said.

use crate::library_clock::Pair;

/// After so many milliseconds a clock is at 0 again.
pub const CIRCLE: i64 = 1 << 32;

const LOCAL_CLOCK_MAX_RESYNC_INTERVAL: i64 = 3_000;
const MAX_CLOCK_INACCURACY_AFTER_ADJUST_FACTOR: i64 = 100;
pub const TIME_FOR_LONG_TERM_DRIFT_CHECK: i64 = 30_000;
const MIN_NUMBER_OF_SYNC_AND_REF_MSG_RECEIVED: i64 = 18;

/// The way from one place of the circle forwards to another, less than once round.
pub fn elapsed(to: i64, from: i64) -> i64 {
    (to - from).rem_euclid(CIRCLE)
}

/// The shorter of the two ways: above 0 forwards, below 0 backwards. Just half the circle is backwards.
pub fn distance(to: i64, from: i64) -> i64 {
    elapsed(to + CIRCLE / 2, from) - CIRCLE / 2
}

#[derive(Clone, Copy)]
pub struct Rules {
    /// The difference of a pair (7.4.4.2).
    pub difference: fn(Pair) -> i64,
    /// The Adjustment Factor from the differences, of which the newest is the first (7.4.4.2).
    pub factor: fn(&[i64]) -> i64,
    /// The least number of pairs that make a factor (7.4.4.2.2).
    pub pairs: usize,
    /// Whether a message's number may come after the last one's (6.3.1.3, 6.3.1.5).
    pub above: fn(i64, i64) -> bool,
    /// Whether a message tells the Reference Time of the last one: numbers of both (6.3.1.7, 6.3.1.8).
    pub tells_of: fn(i64, i64) -> bool,
    /// Whether a time is later than another (7.4.2.2, 7.4.3.3, 7.4.3.4).
    pub later: fn(i64, i64) -> bool,
    /// Whether a time since the last resynchronisation is not too long (7.4.1.6.1).
    pub in_time: fn(i64) -> bool,
    /// Whether a pair is as near to the factor as the short term drift asks, from its difference's distance (7.4.3.5).
    pub near: fn(i64) -> bool,
    /// Whether a time since the start of the time frame lies at its end or behind it (7.4.3.6).
    pub over: fn(i64) -> bool,
    /// Whether so many messages in a time frame are enough (7.4.3.6).
    pub enough: fn(i64) -> bool,
    /// Whether the long term drift is allowed, from the distance of the factors at both ends of a time frame (7.4.3.7).
    pub steady: fn(i64) -> bool,
}

/// The rules as the papers have them.
pub const PAPERS: Rules = Rules {
    difference: |pair| elapsed(pair.reference.ms.into(), pair.local.ms.into()),
    factor: mean,
    pairs: 16,
    above: |number, last| number > last,
    tells_of: |number, last| number - 1 == last,
    later: |one, other| distance(one, other) > 0,
    in_time: |time| time <= LOCAL_CLOCK_MAX_RESYNC_INTERVAL,
    near: |distance| distance.abs() < MAX_CLOCK_INACCURACY_AFTER_ADJUST_FACTOR,
    over: |time| time >= TIME_FOR_LONG_TERM_DRIFT_CHECK,
    enough: |messages| messages >= MIN_NUMBER_OF_SYNC_AND_REF_MSG_RECEIVED,
    steady: |distance| 1000 * distance.abs() <= TIME_FOR_LONG_TERM_DRIFT_CHECK,
};

/// The mean of places on the circle: that of their distances from the first, rounded down, and added to the first.
fn mean(differences: &[i64]) -> i64 {
    let sum: i64 = distances(differences).sum();
    (differences[0] + sum.div_euclid(differences.len() as i64)).rem_euclid(CIRCLE)
}

/// The distances of all differences from the first.
pub fn distances(differences: &[i64]) -> impl Iterator<Item = i64> + '_ {
    differences.iter().map(|difference| distance(*difference, differences[0]))
}
