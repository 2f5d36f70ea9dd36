//! Long steady runs, told one by one: a message every 500 ms, read from its bytes, and a local clock that goes a little fast or slow. 0.05 % is compensated for
//! as long as the run lasts, 0.2 % is found out (SUBSET-056, 7.2.1.4). Each program has a clock of its own, and the two go side by side.

use crate::clock::Heard;
use crate::clock_border;
use crate::clock_bus::Running;
use crate::clock_case::{Library, Program, SECOND};
use crate::clock_message::{laid_out, read};
use crate::clock_rules::{distance, elapsed, TIME_FOR_LONG_TERM_DRIFT_CHECK};
use crate::library_clock::{self, Clock, LocalTime, Message, RefTime};
use crate::tally::Tally;

const HOURS: u32 = 24;
const MESSAGES: u32 = HOURS * 60 * 60 * 2;

/// The parts of the 500 ms from one message to the next, in microseconds. At the beginning of each the clocks are asked.
const PARTS: [i64; 3] = [250_000, 200_000, 50_000];

/// When the clocks start: each comes to its end within a run of 24 h.
const REFERENCE_START: u32 = (6 * 60 * 60 * 1000u32).wrapping_neg();
const LOCAL_START: u32 = (12 * 60 * 60 * 1000u32).wrapping_neg();

/// How a run went.
#[derive(Default)]
struct Went {
    /// The local time of synchronisation.
    synchronised: Option<LocalTime>,
    resynchronised: u32,
    /// The greatest distance of a Reference Time that was given from the true one.
    furthest: i64,
    /// The answer that ended it, and how long after synchronisation.
    lost: Option<(u32, i64)>,
}

/// Both programs, each with its clock.
struct Both {
    library: Clock,
    second: Clock,
}

impl Both {
    /// Has both take the bytes of a message.
    fn message(&mut self, bytes: &[u8], local: LocalTime, tally: &mut Tally) -> u32 {
        let ours = Library.message(&mut self.library, library_clock::read(bytes).message, local);
        let theirs = SECOND.message(&mut self.second, read(bytes).message, local);
        tally.hold(ours == theirs && self.library == self.second, || {
            format!("a steady run at {local:X?}: {ours} {:X?}, {theirs} {:X?}", self.library, self.second)
        });
        ours
    }

    /// Asks both for the Reference Time.
    fn asked(&mut self, local: LocalTime, tally: &mut Tally) -> Option<RefTime> {
        let ours = Library.asked(&mut self.library, local);
        let theirs = SECOND.asked(&mut self.second, local);
        tally.hold(ours == theirs, || format!("a steady run asked at {local:X?}: {ours:X?}, {theirs:X?}"));
        let (_, reference) = ours;
        Some(reference.time).filter(|_| reference.answer == 0)
    }
}

/// A run with a local clock that is so many millionths fast. It ends where synchronisation is lost.
fn run(rate: i64, tally: &mut Tally) -> Went {
    let (mut reference, mut local) = (Running::new(REFERENCE_START, 0), Running::new(LOCAL_START, rate));
    let mut both = Both {
        library: library_clock::new(),
        second: clock_border::new(),
    };
    let (mut went, mut captured) = (Went::default(), RefTime { ms: 0 });
    for number in 0..=MESSAGES {
        let message = Message { number, reference: captured };
        captured.ms = reference.shows();
        let now = LocalTime { ms: local.shows() };
        match (both.message(&laid_out(message), now, tally), went.synchronised) {
            (2, None) => went.synchronised = Some(now),
            (3, Some(_)) => went.resynchronised += 1,
            (0 | 1, None) => {}
            (answer, since) => {
                let since = since.unwrap_or(now);
                went.lost = Some((answer, elapsed(now.ms.into(), since.ms.into())));
                break;
            }
        }
        for part in PARTS {
            let given = both.asked(LocalTime { ms: local.shows() }, tally);
            tally.hold(given.is_some() == went.synchronised.is_some(), || {
                format!("a steady run of {rate} millionths: the time given is {given:?}")
            });
            let off = given.map_or(0, |given| distance(given.ms.into(), reference.shows().into()));
            went.furthest = went.furthest.max(off.abs());
            reference.pass(part);
            local.pass(part);
        }
    }
    went
}

fn name(rate: i64) -> String {
    let which = if rate > 0 { "fast" } else { "slow" };
    format!("a local clock {} % {which}", rate.abs() as f64 / 10_000.0)
}

/// A rate that is allowed: synchronised with the sixteenth pair, and resynchronised by every message from then on.
fn compensated(rate: i64, tally: &mut Tally) {
    let went = run(rate, tally);
    tally.hold(went.lost.is_none() && went.resynchronised == MESSAGES - 16, || {
        format!("{}: lost by {:?}", name(rate), went.lost)
    });
    let Went {
        resynchronised, furthest, ..
    } = went;
    println!(
        "{:<11}{}: {resynchronised} resynchronisations in {HOURS} h, the Reference Time at most {furthest} ms off",
        "run",
        name(rate)
    );
}

/// A rate that is not: found out by the long term drift, within two periods (7.4.3.7.2.1).
fn found_out(rate: i64, tally: &mut Tally) {
    let went = run(rate, tally);
    let (answer, after) = went.lost.unwrap_or_default();
    let failed = answer == Heard::LongTerm as u32 && after <= 2 * TIME_FOR_LONG_TERM_DRIFT_CHECK;
    tally.hold(failed, || format!("{}: not found out, {:?}", name(rate), went.lost));
    let Went { furthest, .. } = went;
    println!(
        "{:<11}{}: found out {after} ms after synchronisation, event {answer}, the Reference Time till then at most {furthest} ms off",
        "run",
        name(rate)
    );
}

pub fn compare(tally: &mut Tally) {
    for rate in [500, -500] {
        compensated(rate, tally);
    }
    for rate in [2000, -2000] {
        found_out(rate, tally);
    }
    tally.told("local clocks: steady runs by both programs; in those of 24 h both clocks come to their end and go on from 0");
}
