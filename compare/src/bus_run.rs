//! Random calls on busses of two to eight nodes, from a fixed seed, with good tables and spoilt ones. Each is put to both programs; and of all data
//! that come up it is asked whether the partner of just that record sent them. Wrong nodes are put to the same calls.

use crate::bus::Bus;
use crate::link_call::Call;
use crate::link_samples::PHASES;
use crate::node::place;
use crate::node_case::{Case, Demand, Outcome, SECOND};
use crate::node_spoils::{spoilt, GREATEST_ROOM};
use crate::random::{once_in, Random};
use crate::shares::{steps_name, Shares};
use crate::tally::Tally;
use crate::telegram::LONGEST;
use crate::wrong_node::{without_addresses, Wrong};
use crate::wrong_nodes::wrong_nodes;

const SEED: u64 = 0x6E6F_6465_7320_3537;
const CALLS: usize = 100_000;
const LONGEST_RUN: usize = 1500;
/// How many of the calls wrong nodes are put to.
const CALLS_FOR_WRONG: usize = 40_000;

/// Makes random calls. `put` does each and gives the outcome to go on with; `came_up` is told of data whether the partner of the record sent them.
/// Gives the number of calls.
fn drive(calls: usize, shares: &mut Shares, mut put: impl FnMut(&Case) -> Outcome, mut came_up: impl FnMut(bool)) -> usize {
    let mut random = Random(SEED);
    let mut made = 0;
    while made < calls {
        let mut bus = Bus::new(&mut random);
        shares.count(80, bus_name(bus.stations.len()));
        let until = calls.min(made + 50 + random.upto(LONGEST_RUN));
        while made < until {
            let (station, case) = next_case(&mut bus, &mut random, shares);
            let mut outcome_of = |case: &Case| {
                let outcome = put(case);
                count(case, &outcome, shares);
                bus.sent_by_partner(case, &outcome).into_iter().for_each(&mut came_up);
                made += 1;
                outcome
            };
            // A spoilt call comes before the good one, and what comes of it is left. A close, which is seldom, is spoilt more often.
            let times = if let Call::Close { .. } = case.asked.call { 2 } else { 6 };
            if once_in(&mut random, times) {
                outcome_of(&spoilt(case.clone(), &mut random));
            }
            let outcome = outcome_of(&case);
            bus.done(station, &case, &outcome, shares);
        }
    }
    made
}

/// The next call of a bus, and the station that it is for, with a buffer of random bytes.
fn next_case(bus: &mut Bus, random: &mut Random, shares: &mut Shares) -> (usize, Case) {
    let (station, asked) = bus.next(random, shares);
    let room = LONGEST + random.upto(GREATEST_ROOM - LONGEST);
    let case = Case {
        table: bus.stations[station].table.clone(),
        asked,
        before: random.bytes(room),
        demand: Demand::Agree,
    };
    (station, case)
}

const CALL_NAMES: [&str; 5] = ["open", "close", "send", "received", "tick"];

fn call_name(call: &Call) -> &'static str {
    let number = match call {
        Call::Open { .. } => 0,
        Call::Close { .. } => 1,
        Call::Send { .. } => 2,
        Call::Received { .. } => 3,
        Call::Tick { .. } => 4,
    };
    CALL_NAMES[number]
}

fn table_name(count: usize) -> &'static str {
    match count {
        0 => "calls with a table of 0 records",
        1 => "calls with a table of 1 record",
        2..=63 => "calls with a table of 2 to 63 records",
        64 => "calls with a table of 64 records",
        _ => "calls with a table of 65 or 66 records",
    }
}

fn bus_name(stations: usize) -> String {
    format!("busses of {stations} nodes")
}

fn count(case: &Case, outcome: &Outcome, shares: &mut Shares) {
    match place(&case.asked, &case.table) {
        Some(place) => shares.count_step(&case.table[place], &outcome.answered.stepped(outcome.table.run()[place])),
        None => {
            shares.count(6, "calls about no record");
            shares.count(10, format!("answer {}", outcome.number()));
        }
    }
    shares.count(60, format!("{} answered {}", call_name(&case.asked.call), outcome.number()));
    shares.count(70, table_name(case.table.len()));
    if case.before.len() < LONGEST {
        shares.count(70, "calls with a buffer of 0 to 243 bytes");
    }
}

/// What the run must have reached: each answer that a call can have, each telegram, event and phase, each fault of the bus, and tables and busses of
/// each size.
fn wanted() -> Vec<String> {
    let mut wanted: Vec<String> = Vec::new();
    for name in CALL_NAMES {
        let can = |number: &u32| match (name, number) {
            ("received", 3) | ("tick", 3 | 5) => false,
            (_, 6) => name == "received",
            _ => true,
        };
        let answers = [0, 1, 2, 3, 4, 5, 6, 7, 8].into_iter().filter(can);
        wanted.extend(answers.map(|number| format!("{name} answered {number}")));
    }
    let others = [
        "request written",
        "confirm written",
        "authentication written",
        "acknowledgement written",
        "disconnect written",
        "idle written",
        "data written",
        "event nothing",
        "event opened",
        "event data",
        "event closed, reason 02h",
        "event closed, reason 04h",
        "event closed, reason 05h",
        "event closed, reason 06h",
        "event closed, reason 20h to 40h",
        "event closed, reason 01h, finally",
        "event closed, reason 03h, finally",
        "event closed, reason 20h to 40h, finally",
        "connections open at both ends",
        "numbers sent that wrap to 0",
        "numbers expected that wrap to 0",
        "two records exchanged between places",
        "bus: a telegram arrives as it was sent",
        "bus: a telegram arrives once more, late",
        "bus: a telegram comes back to its sender",
        "bus: a telegram comes from another address",
        "bus: a telegram crosses into a closed connection",
        "bus: a telegram crosses into a connection that expects another number",
        "bus: a telegram crosses into a connection that expects its number",
        "bus: a telegram from or to an exchanged station",
        "bus: a telegram is damaged",
        "bus: a telegram is doubled",
        "bus: a telegram is lost",
        "bus: a telegram is of another version",
        "bus: a telegram overtakes another",
        "bus: a telegram reaches another station",
        "calls with a buffer of 0 to 243 bytes",
    ];
    wanted.extend(others.map(String::from));
    wanted.extend(PHASES.map(steps_name));
    wanted.extend([0, 1, 2, 64, 65].map(|count| table_name(count).into()));
    wanted.extend((2..=8).map(bus_name));
    wanted
}

/// All calls by both programs.
pub fn random(tally: &mut Tally) {
    let mut shares = Shares::default();
    let (mut own, mut foreign) = (0, 0);
    let calls = drive(
        CALLS,
        &mut shares,
        |case| case.compare(tally),
        |sent_by_partner| *if sent_by_partner { &mut own } else { &mut foreign } += 1,
    );
    tally.drawn(calls);
    tally.hold(foreign == 0, || format!("{foreign} data that the partner of their record didn't send"));
    shares.demand(5, &wanted(), tally);
    shares.demand(
        1000,
        &["event opened", "event data", "connections open at both ends"].map(String::from),
        tally,
    );
    tally.told(&format!(
        "nodes: {calls} random calls, and the {own} data that came up against those that the record's partner sent (seed {SEED:#x}); of these"
    ));
    shares.tell();
}

/// Each wrong node is seen by the same calls. Nodes whose check word leaves the addresses out, on both sides, hand data over under another's name.
pub fn wrong_nodes_are_seen(tally: &mut Tally) {
    let mut unseen: Vec<Wrong> = wrong_nodes();
    let count = unseen.len();
    let see = |case: &Case| {
        let outcome = case.outcome(SECOND);
        unseen.retain(|wrong| case.outcome(&*wrong.program) == outcome);
        outcome
    };
    drive(CALLS_FOR_WRONG, &mut Shares::default(), see, |_| {});
    let names: Vec<&str> = unseen.iter().map(|wrong| wrong.what).collect();
    (0..count).for_each(|number| tally.hold(number >= names.len(), || format!("no random call sees {}", names[number])));
    let wrong = without_addresses();
    let mut foreign = 0;
    let put = |case: &Case| case.outcome(&*wrong);
    drive(CALLS_FOR_WRONG, &mut Shares::default(), put, |sent_by_partner| {
        foreign += usize::from(!sent_by_partner)
    });
    tally.hold(foreign > 0, || {
        "no data came up under another's name without addresses in the check word".into()
    });
    tally.told(&format!("wrong nodes: each is seen by the first {CALLS_FOR_WRONG} random calls below"));
}
