//! Compares the library of proved crates with a second program that is written from the papers. Prints what was
//! compared and how much of it, and fails where anything differs. With the word `vectors` it runs the published vectors
//! alone, with the word `damage` all cases of damage on the cable alone.

mod both_open;
mod bus;
mod bus_run;
mod case;
mod check;
mod check_cases;
mod clock;
mod clock_border;
mod clock_bus;
mod clock_bytes;
mod clock_case;
mod clock_cases;
mod clock_hours;
mod clock_means;
mod clock_message;
mod clock_rules;
mod clock_runs;
mod clocks;
mod conversations;
mod damage;
mod damage_limits;
mod damage_longer;
mod damage_runs;
mod damage_telegrams;
mod draft;
mod exchanged_cards;
mod library;
mod library_clock;
mod library_link;
mod library_node;
mod link;
mod link_call;
mod link_case;
mod link_cases;
mod link_demands;
mod link_refusals;
mod link_samples;
mod link_step;
mod link_times;
mod links;
mod node;
mod node_call;
mod node_case;
mod node_cases;
mod node_refusals;
mod node_runs;
mod node_samples;
mod node_spoils;
mod nodes;
mod program;
mod random;
mod random_calls;
mod random_cases;
mod samples;
mod shares;
mod stations;
mod tally;
mod telegram;
mod telegrams;
mod unseen;
mod vectors;
mod wire;
mod word;
mod words;
mod worked;
mod write_cases;
mod wrong;
mod wrong_calls;
mod wrong_checks;
mod wrong_clock;
mod wrong_clock_tests;
mod wrong_clocks;
mod wrong_link;
mod wrong_node;
mod wrong_nodes;
mod wrong_steps;

use std::process::ExitCode;
use tally::Tally;

/// What the papers print, by both programs.
fn vectors(tally: &mut Tally) {
    words::vectors(tally);
    telegrams::vectors(tally);
}

/// Everything that the gate compares.
fn all_comparisons(tally: &mut Tally) {
    vectors(tally);
    words::wrong_words_are_seen(tally);
    words::single_bytes(tally);
    words::by_bytes(tally);
    words::random_strings(tally);
    words::law(tally);
    words::burst(tally);
    words::whole_message(tally);
    telegrams::laid_out_by_hand(tally);
    telegrams::wrong_programs_are_seen(tally);
    telegrams::systematic(tally);
    telegrams::random(tally);
    damage_runs::compare(tally);
    links::compare_all(tally);
    nodes::compare_all(tally);
    clocks::compare_all(tally);
}

fn main() -> ExitCode {
    let mut tally = Tally::default();
    match std::env::args().nth(1).as_deref() {
        None => all_comparisons(&mut tally),
        Some("vectors") => vectors(&mut tally),
        Some("damage") => damage_runs::compare(&mut tally),
        Some(other) => {
            eprintln!(
                "compare: unknown word '{other}'; there are 'vectors' and 'damage', or nothing for all comparisons"
            );
            return ExitCode::from(2);
        }
    }
    tally.finish()
}
