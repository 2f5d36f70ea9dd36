//! Systematic cases of a node's refusals: every set of them that can hold at once, buffers, times, record numbers and lengths of telegrams.

use crate::link_call::Call;
use crate::link_refusals::{answer, bad_telegrams, bad_values, out_of_range};
use crate::link_samples::{bytes, received, NOW};
use crate::link_step::{Record, CLOSED, FINALLY_CLOSED, OPEN};
use crate::node::REFUSALS;
use crate::node_call::{Asked, Frame, Head, Whose};
use crate::node_case::{Case, Demand};
use crate::node_samples::{ask, asks, table, HEAD, OTHER_ADDRESS};
use crate::samples::pattern;
use crate::telegram::{Kind, LONGEST};

/// A table with what is asked about it.
type Question = (Vec<Record>, Asked);

/// The demand that goes with an answer: done, about the record at this place, or refused.
fn demand(number: u32, place: usize) -> Demand {
    match number {
        0 => Demand::Done(place),
        number => Demand::Refused(number),
    }
}

/// Every set of refusals for every call, as far as they can hold at once: the first in the order is answered.
pub fn order() -> Vec<Case> {
    let mut cases = Vec::new();
    for set in 1u32..1 << REFUSALS.len() {
        let chosen: Vec<u32> = (0..REFUSALS.len()).filter(|k| set >> k & 1 == 1).map(|k| REFUSALS[k]).collect();
        cases.extend(all_holding(&chosen));
    }
    cases
}

/// The calls where all these refusals hold; nothing where they can't. What is about no record has no phase; a finally closed record is in the wrong
/// phase too.
fn all_holding(chosen: &[u32]) -> Vec<Case> {
    let has = |number: u32| chosen.contains(&number);
    if has(2) && (has(8) || has(3)) {
        return vec![];
    }
    let by_phase = [8, 3].into_iter().find(|number| has(*number)).unwrap_or(0);
    let good = table(6, 0);
    let mut questions: Vec<Question> = (0..good.len())
        .flat_map(|place| asks(&good, place).into_iter().map(move |asked| (place, asked)))
        .filter(|(place, asked)| answer(&asked.call, good[*place].phase) == by_phase)
        .map(|(_, asked)| (good.clone(), asked))
        .collect();
    let ways: [(u32, fn(Question) -> Vec<Question>); 5] = [
        (5, with_bad_values),
        (6, with_bad_telegrams),
        (2, about_none),
        (7, too_early),
        (1, with_bad_tables),
    ];
    for (_, way) in ways.into_iter().filter(|(number, _)| has(*number)) {
        questions = questions.into_iter().flat_map(way).collect();
    }
    let room = if has(4) { LONGEST - 1 } else { LONGEST };
    let case = |(table, asked): Question| Case::new(table, asked, Demand::Refused(chosen[0])).with_room(room);
    questions.into_iter().map(case).collect()
}

/// The question with other calls.
fn with_calls((table, asked): Question, calls: Vec<Call>) -> Vec<Question> {
    let with = |call: Call| (table.clone(), Asked { call, ..asked.clone() });
    calls.into_iter().map(with).collect()
}

fn with_bad_values(question: Question) -> Vec<Question> {
    let calls = bad_values(&question.1.call);
    with_calls(question, calls)
}

fn with_bad_telegrams(question: Question) -> Vec<Question> {
    let calls = bad_telegrams(&question.1.call);
    with_calls(question, calls)
}

/// The question about a record past the table, or in a frame that is for none.
fn about_none((table, asked): Question) -> Vec<Question> {
    let whose = match asked.whose {
        Whose::Place(_) => Whose::Place(table.len()),
        Whose::Frame(frame) => Whose::Frame(Frame {
            sender: OTHER_ADDRESS,
            ..frame
        }),
    };
    vec![(table, Asked { whose, ..asked })]
}

fn too_early((table, asked): Question) -> Vec<Question> {
    let time = asked.head.latest - 1;
    vec![(table, Asked { time, ..asked })]
}

/// The question with the own address, another record or the number of records out of range, or with two other records alike. The record that the call
/// is about stays good.
fn with_bad_tables((good, asked): Question) -> Vec<Question> {
    let spared = match asked.whose {
        Whose::Place(place) => place,
        Whose::Frame(frame) => good.iter().position(|record| Frame::to(record) == frame).unwrap_or(0),
    };
    let (broken, twin) = ((spared + 1) % good.len(), (spared + 2) % good.len());
    let head = Head { own: 127, ..asked.head };
    let mut questions = vec![(good.clone(), Asked { head, ..asked.clone() })];
    for (record, _) in out_of_range((good[broken], HEAD.own)).into_iter().skip(1) {
        let mut bad = good.clone();
        bad[broken] = record;
        questions.push((bad, asked.clone()));
    }
    let mut alike = good.clone();
    alike[twin] = good[broken];
    questions.push((alike, asked.clone()));
    let more = table(66, 0).into_iter().skip(good.len());
    questions.push((good.into_iter().chain(more).collect(), asked));
    questions
}

/// Every call in every phase into buffers of 0 to 300 bytes, and of more.
pub fn rooms() -> Vec<Case> {
    let table = table(6, 0);
    let mut cases = Vec::new();
    for place in 0..table.len() {
        for asked in asks(&table, place) {
            let number = answer(&asked.call, table[place].phase);
            for room in (0..=300).chain([1000, 0x1_0000 + 10]) {
                let demand = if room < LONGEST { Demand::Refused(4) } else { demand(number, place) };
                cases.push(Case::new(table.clone(), asked.clone(), demand).with_room(room));
            }
        }
    }
    cases
}

/// Every call in every phase before, at and after the latest time, from one end of 64 bits to the other. The timers of the record are those of the
/// latest time.
pub fn times() -> Vec<Case> {
    const LATEST: [u64; 9] = [0, 1, NOW, 0xFFFF_FFFF, 0x1_0000_0000, (1 << 63) - 1, 1 << 63, u64::MAX - 1, u64::MAX];
    let mut cases = Vec::new();
    for latest in LATEST {
        let mut table = table(6, 0);
        for record in table.iter_mut().filter(|record| ![CLOSED, FINALLY_CLOSED].contains(&record.phase)) {
            record.sent_at = latest;
            record.taken_at = latest;
        }
        for time in [0, latest.saturating_sub(1), latest, latest.saturating_add(1), latest | 1 << 32, u64::MAX] {
            for place in 0..table.len() {
                for asked in asks(&table, place) {
                    let number = answer(&asked.call, table[place].phase);
                    let demand = if time < latest { Demand::Refused(7) } else { demand(number, place) };
                    let head = Head { latest, ..HEAD };
                    cases.push(Case::new(table.clone(), Asked { head, time, ..asked }, demand));
                }
            }
        }
    }
    cases
}

/// Every call but received about records past the table, among these numbers that a narrower one would wrap into a good one.
pub fn places() -> Vec<Case> {
    let mut cases = Vec::new();
    for count in [1, 6, 64] {
        let table = table(count, 4);
        for asked in asks(&table, 0) {
            if let Call::Received { .. } = asked.call {
                continue;
            }
            for place in (count..=count + 70).chain([255, 256, 0x1_0000, 1 << 32, 1 << 63, usize::MAX]) {
                let number = if place < count { answer(&asked.call, table[place].phase) } else { 2 };
                let whose = Whose::Place(place);
                cases.push(Case::new(table.clone(), Asked { whose, ..asked.clone() }, demand(number, place)));
            }
        }
    }
    cases
}

/// Telegrams of every length up to 260, and of more that a narrower number would wrap, for a record in each phase and for none.
pub fn telegram_lengths() -> Vec<Case> {
    let table = table(6, 0);
    let mut cases = Vec::new();
    for (place, record) in table.iter().enumerate() {
        for length in (0..=260).chain([512, 0x1_0000 + 8]) {
            let asked = ask(received(NOW, pattern(length)), place, record);
            let (number, of_none) = match length {
                0..=5 | 245.. => (6, 6),
                _ => (answer(&asked.call, record.phase), 2),
            };
            let question = (table.clone(), asked.clone());
            cases.push(Case::new(table.clone(), asked, demand(number, place)));
            cases.extend(
                about_none(question)
                    .into_iter()
                    .map(|(table, asked)| Case::new(table, asked, Demand::Refused(of_none))),
            );
        }
    }
    cases
}

/// A telegram that is good, in a table where everything about it is: it is taken wherever its record stands.
pub fn taken_everywhere() -> Vec<Case> {
    let good = table(64, 4);
    let open = good.iter().position(|record| record.phase == OPEN).unwrap_or(0);
    let data = bytes(&good[open], HEAD.own, Kind::Data);
    let case = |place: usize| {
        let mut table = good.clone();
        table.swap(open, place);
        let asked = ask(received(NOW, data.clone()), place, &table[place]);
        Case::new(table, asked, Demand::Done(place))
    };
    (0..good.len()).map(case).collect()
}
