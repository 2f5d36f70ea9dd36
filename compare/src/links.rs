//! One connection: the library against the set-up that SUBSET-057 prints, the library against the second program case by case and in conversations, and the
//! cases against wrong connections.

use crate::conversations;
use crate::link_call::{Call, Naming};
use crate::link_case::{Case, Program, LIBRARY, SECOND};
use crate::link_step::{Record, Step, Stepped, CLOSED, OPEN};
use crate::tally::Tally;
use crate::telegram::LONGEST;
use crate::words::hex;
use crate::worked::printed;
use crate::wrong_calls::wrong_calls;
use crate::wrong_link::{unchanged, Wrong};
use crate::wrong_steps::wrong_steps;
use crate::{link_cases, link_refusals, link_times};

const PROGRAMS: [(&str, &Program); 2] = [("library", LIBRARY), ("second program", SECOND)];

/// All comparisons of one connection.
pub fn compare_all(tally: &mut Tally) {
    printed_set_up(tally);
    wrong_links_are_seen(tally);
    systematic(tally);
    conversations::random(tally);
}

/// Both ends of a connection that a program sets up.
struct SetUp {
    nodes: [Step; 2],
    program: &'static Program,
}

impl SetUp {
    /// Has a node do a call. Gives what comes back, and the telegram that it writes.
    fn step(&mut self, who: usize, call: Call) -> (Stepped, Vec<u8>) {
        let mut out = vec![0xEE; LONGEST];
        let node = &mut self.nodes[who];
        node.call = call;
        let stepped = (self.program)(node, &mut out);
        node.record = stepped.record;
        out.truncate(stepped.answer.length as usize);
        (stepped, out)
    }
}

/// The set-up of 5.3.1.6 and 5.3.1.7: the first node begins with 01234567h, the second with 89ABCDEFh, and both select 500 ms. The authentication and its
/// acknowledgement come out as they are printed.
fn printed_set_up(tally: &mut Tally) {
    let printed = printed();
    let [authentication, acknowledgement] = [&printed[0], &printed[1]];
    let naming = Naming { named: 1, idle_time: 500 };
    let open = |random| Call::Open {
        time: 0,
        random,
        naming,
        net: vec![],
    };
    let received = |random, telegram: &[u8]| Call::Received {
        time: 1,
        random,
        naming,
        telegram: telegram.to_vec(),
        net: vec![],
    };
    println!("{:<11}{:<31}telegram", "clause", "");
    for (who, program) in PROGRAMS {
        let nodes = [authentication.sender, acknowledgement.sender].map(|end| Step {
            record: Record::closed(&end, CLOSED),
            own: end.own,
            call: open(0),
        });
        let mut set_up = SetUp { nodes, program };
        let (_, request) = set_up.step(0, open(0x0123_4567));
        let (_, confirm) = set_up.step(1, received(0x89AB_CDEF, &request));
        let (_, third) = set_up.step(0, received(0, &confirm));
        let (responder, fourth) = set_up.step(1, received(0, &third));
        let (opener, nothing) = set_up.step(0, received(0, &fourth));
        let telegrams = [
            ("request", &request),
            ("confirm", &confirm),
            ("authentication", &third),
            ("acknowledgement", &fourth),
        ];
        for (what, telegram) in telegrams {
            println!("{:<11}{what:<31}{}  {who}", "5.3.1.7", hex(telegram));
        }
        tally.hold(third == authentication.bytes, || format!("the {who} writes another authentication"));
        tally.hold(fourth == acknowledgement.bytes, || format!("the {who} writes another acknowledgement"));
        let both_open = [opener, responder]
            .iter()
            .all(|stepped| stepped.record.phase == OPEN && stepped.happened.event == 1);
        tally.hold(both_open && nothing.is_empty(), || format!("the {who} doesn't open at both ends"));
    }
    tally.told("set-up of 5.3.1.7: by both programs, from the request to open at both ends");
}

/// Each wrong connection is seen by the group named with it: so the comparisons can fail. One that is made in the same way and isn't wrong is seen by none.
fn wrong_links_are_seen(tally: &mut Tally) {
    let sees = |wrong: &Wrong| (wrong.seen_by)().iter().any(|case| case.sees(&*wrong.program));
    for wrong in wrong_steps().into_iter().chain(wrong_calls()) {
        tally.hold(sees(&wrong), || format!("no case sees {}", wrong.what));
    }
    tally.told("wrong connections: each is seen by one of the systematic groups below");
    for right in [link_cases::numbers, link_cases::versions, link_refusals::order]
        .into_iter()
        .flat_map(unchanged)
    {
        tally.hold(!sees(&right), || format!("a case sees {}", right.what));
    }
    tally.told("connections made like the wrong ones with nothing changed: none is seen");
}

/// The systematic cases, group by group.
fn systematic(tally: &mut Tally) {
    let mut group = |what: &str, cases: Vec<Case>| {
        for case in cases {
            case.compare(tally);
        }
        tally.told(what);
    };
    group(
        "received: every kind in every phase, before, at and past the wait or watch",
        link_cases::phases_and_telegrams(),
    );
    group(
        "received: the same with each clause of the check broken",
        link_cases::phases_and_failing_telegrams(),
    );
    group("received: each bit of each kind damaged, in every phase", link_cases::damaged_bits());
    group(
        "received: the longest and shortest telegrams, and data of every length",
        link_cases::net_lengths_received(),
    );
    group(
        "received: every command in the shape of idle and of data",
        link_cases::commands_received(),
    );
    group("received: every X and Y of the version", link_cases::versions());
    group("received: every idle time of the partner", link_cases::idle_times_received());
    group("received: authentication numbers, right and wrong", link_cases::authentication_numbers());
    group(
        "received: disconnects with every reason, final and not",
        link_cases::disconnects_received(),
    );
    group("received: 0 expected while a confirm is awaited", link_cases::confirm_awaited());
    group("received: telegrams for another end", link_cases::other_ends());
    group("numbers of every step, where they carry over and wrap", link_cases::numbers());
    group("tick: waits and watch before, at and past the limit", link_times::waits_and_watch());
    group("tick: idle before, at and past half of every time", link_times::idle_due());
    group("tick: watch and idle at once", link_times::watch_before_idle());
    group("send and close after the wait or watch", link_times::send_and_close_late());
    group("times and timers from 0 to the last, timers later than the time", link_times::far_times());
    group("refusals: every call in every phase", link_refusals::phases());
    group("refusals: every field of the record out of range", link_refusals::fields());
    group("refusals: every set of them that can hold at once", link_refusals::order());
    group("refusals: buffers of 0 to 65546 bytes", link_refusals::rooms());
    group("refusals: telegrams of every length up to 260", link_refusals::telegram_lengths());
    group("values: idle times named and not named", link_refusals::namings());
    group("values: net data and text around their limits", link_refusals::net_lengths());
    group("values: every command for send", link_refusals::commands());
    group("values: types and every reason for close", link_refusals::types_and_reasons());
}
