//! The node: the library against the second program case by case and on random busses, the cases of the scope by name,
//! and the cases against wrong nodes.

use crate::node_case::Case;
use crate::tally::Tally;
use crate::wrong_node::{unchanged, Wrong};
use crate::wrong_nodes::wrong_nodes;
use crate::{both_open, bus_run, exchanged_cards, node_cases, node_refusals, node_runs};

/// All comparisons of the node.
pub fn compare_all(tally: &mut Tally) {
    node_runs::run(tally);
    node_runs::beginnings(tally);
    both_open::compare(tally);
    exchanged_cards::compare(tally);
    wrong_nodes_are_seen(tally);
    systematic(tally);
    bus_run::wrong_nodes_are_seen(tally);
    bus_run::random(tally);
}

/// Each wrong node is seen by the group named with it: so the comparisons can fail. One that is made in the same way
/// and isn't wrong is seen by none.
fn wrong_nodes_are_seen(tally: &mut Tally) {
    let sees = |wrong: &Wrong| (wrong.seen_by)().iter().any(|case| case.sees(&*wrong.program));
    for wrong in wrong_nodes() {
        tally.hold(sees(&wrong), || format!("no case sees {}", wrong.what));
    }
    tally.told("wrong nodes: each is seen by one of the systematic groups below");
    for right in [node_cases::counts, node_cases::frames, node_refusals::order]
        .into_iter()
        .flat_map(unchanged)
    {
        tally.hold(!sees(&right), || format!("a case sees {}", right.what));
    }
    tally.told("nodes made like the wrong ones with nothing changed: none is seen");
}

/// The systematic cases, group by group.
fn systematic(tally: &mut Tally) {
    let mut group = |what: &str, cases: Vec<Case>| {
        for case in cases {
            case.compare(tally);
        }
        tally.told(what);
    };
    group("table: every call about every record, in every phase", node_cases::every_record());
    group("table: 0 to 320 records", node_cases::counts());
    group("table: every field of every record out of range", node_cases::fields());
    group("table: own addresses at their limits and past them", node_cases::heads());
    group("table: two records alike at every pair of places", node_cases::pairs_alike());
    group(
        "table: records that differ in one number at every pair of places",
        node_cases::pairs_nearly_alike(),
    );
    group("received: frames that are for another record or none", node_cases::frames());
    group("received: data crossed between all open connections of a table", node_cases::crossed());
    group("received: a telegram finds its record at every place", node_refusals::taken_everywhere());
    group("every call with every two records exchanged", node_cases::exchanged_places());
    group("steps of one connection at the places of a table", node_cases::steps());
    group("refusals: every set of them that can hold at once", node_refusals::order());
    group("refusals: buffers of 0 to 65546 bytes", node_refusals::rooms());
    group("refusals: times before, at and after the latest", node_refusals::times());
    group("refusals: record numbers past the table", node_refusals::places());
    group("refusals: telegrams of every length up to 260", node_refusals::telegram_lengths());
}
