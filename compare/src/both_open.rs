//! Both ends of a connection open at once, though 3.3.1.8 gives it one master. Each has sent a request and awaits the
//! confirm, so that it ignores the other's request (5.5.1.5, ConReq_rcv in wConAck). The first whose wait runs out
//! closes with 02h. Its disconnect has its next number, and the other, which still expects 0, closes with 06h. Then one
//! of them opens alone, and the connection is open at both ends.

use crate::link_call::Call;
use crate::link_samples::{open, received, tick, RANDOM};
use crate::link_step::{kind_number, Event, Happened, Record};
use crate::link_step::{ACKNOWLEDGEMENT_AWAITED, AUTHENTICATION_AWAITED, CLOSED, CONFIRM_AWAITED, OPEN};
use crate::node_call::{Asked, Frame, Head, Whose};
use crate::node_case::{Case, Demand, Program, LIBRARY, SECOND};
use crate::samples::SENDERS;
use crate::tally::Tally;
use crate::telegram::{End, Kind};
use crate::wrong_node::{leaves, sees_table, unchanged, Wrong};

/// When the first end opens, how long a wait lasts (7.2), and how long a telegram is on its way. The first's request is
/// held back until the other has opened too.
const BEGIN: u64 = 1000;
const WAIT: u64 = 5000;
const WAY: u64 = 2;

/// The two ends, by number.
const FIRST: usize = 0;
const OTHER: usize = 1;

/// What is seen of a call: the telegram that it writes, what happened, and the phase in which it leaves the record.
type Seen = (u32, Happened, u32);

fn seen(written: Option<Kind>, event: Event, phase: u32) -> Seen {
    (written.map_or(0, kind_number), event.into(), phase)
}

/// Closed with a reason, not finally.
fn closed(reason: u32) -> Event {
    Event::Closed { reason, finally: false }
}

/// The end that opens first, its random number, and how much later the other opens.
#[derive(Clone, Copy, Debug)]
struct Course {
    end: End,
    random: u32,
    later: u64,
}

/// Both levels; a random number after which byte 1 is the lowest byte of 0 too, and the one after which comes 0; the
/// other end in the same millisecond, as late as the disconnect is on its way, and later.
fn courses() -> Vec<Course> {
    let mut courses = vec![];
    for end in SENDERS {
        for random in [0x0123_4567, 0x0123_45FF, u32::MAX] {
            courses.extend([0, 1, WAY, WAY + 1, WAY + 2, 40, 4000].map(|later| Course { end, random, later }));
        }
    }
    courses
}

impl Course {
    /// What the other end does when the disconnect comes, 5,001 ms and its way after the first request.
    fn other_closes(&self) -> Seen {
        let run_out = WAIT + 1 + WAY - self.later > WAIT;
        match self.random {
            // Its own wait has run out too: the telegram is not looked at.
            _ if run_out => seen(Some(Kind::Disconnect), closed(0x02), CLOSED),
            // After FFFFFFFFh comes 0, as is expected: the disconnect passes, and its reason is told.
            u32::MAX => seen(None, closed(0x02), CLOSED),
            _ => seen(Some(Kind::Disconnect), closed(0x06), CLOSED),
        }
    }

    /// What is demanded of each call, from the papers: of the opening by both, and then of the opening by one.
    fn demanded(&self) -> Vec<Seen> {
        let opens = seen(Some(Kind::Request), Event::Nothing, CONFIRM_AWAITED);
        let ignored = seen(None, Event::Nothing, CONFIRM_AWAITED);
        let too_late = seen(Some(Kind::Disconnect), closed(0x02), CLOSED);
        let mut demanded = vec![opens, opens, ignored, ignored, ignored, too_late, self.other_closes()];
        if self.other_closes().0 != 0 {
            demanded.push(seen(None, Event::Nothing, CLOSED));
        }
        demanded.extend([
            opens,
            seen(Some(Kind::Confirm), Event::Nothing, AUTHENTICATION_AWAITED),
            seen(Some(Kind::Authentication), Event::Nothing, ACKNOWLEDGEMENT_AWAITED),
            seen(Some(Kind::Acknowledgement), Event::Opened, OPEN),
            seen(None, Event::Opened, OPEN),
        ]);
        demanded
    }
}

/// Two nodes with one record each, done by one program.
struct Pair<'a> {
    program: &'a Program,
    heads: [Head; 2],
    records: [Record; 2],
    cases: Vec<Case>,
    seen: Vec<Seen>,
}

impl Pair<'_> {
    fn new(program: &Program, end: End) -> Pair<'_> {
        let ends = [end, end.mirrored()];
        Pair {
            program,
            heads: ends.map(|end| Head { own: end.own, latest: 0 }),
            records: ends.map(|end| Record::closed(&end, CLOSED)),
            cases: vec![],
            seen: vec![],
        }
    }

    /// Has an end do a call. Gives the telegram that it writes.
    fn call(&mut self, who: usize, time: u64, call: Call) -> Vec<u8> {
        let whose = match call {
            Call::Received { .. } => Whose::Frame(Frame::to(&self.records[who])),
            _ => Whose::Place(0),
        };
        let head = self.heads[who];
        let asked = Asked { head, time, whose, call };
        let case = Case::new(vec![self.records[who]], asked, Demand::Done(0));
        let outcome = case.outcome(self.program);
        let answered = outcome.answered;
        self.heads[who] = answered.head;
        self.records[who] = outcome.table.run()[0];
        self.seen.push((answered.answer.telegram, answered.happened, self.records[who].phase));
        self.cases.push(case);
        outcome.telegram().to_vec()
    }

    /// Telegrams go to and fro until one of the ends writes none, or there were four.
    fn exchange(&mut self, mut to: usize, mut time: u64, mut telegram: Vec<u8>) {
        for _ in 0..4 {
            if telegram.is_empty() {
                return;
            }
            time += WAY;
            telegram = self.call(to, time, received(0, telegram));
            to = 1 - to;
        }
    }

    fn run(&mut self, course: &Course) {
        let Course { random, later, .. } = *course;
        let first_request = self.call(FIRST, BEGIN, open(0).with_random(random));
        let other_request = self.call(OTHER, BEGIN + later, open(0));
        let met = BEGIN + later + WAY;
        self.call(OTHER, met, received(0, first_request));
        self.call(FIRST, met, received(0, other_request));
        self.call(FIRST, BEGIN + WAIT, tick(0));
        let too_late = BEGIN + WAIT + 1;
        let disconnect = self.call(FIRST, too_late, tick(0));
        self.exchange(OTHER, too_late, disconnect);
        let alone = too_late + 100;
        let request = self.call(FIRST, alone, open(0).with_random(random ^ RANDOM));
        self.exchange(OTHER, alone, request);
    }
}

fn run(program: &Program, course: &Course) -> (Vec<Case>, Vec<Seen>) {
    let mut pair = Pair::new(program, course.end);
    pair.run(course);
    (pair.cases, pair.seen)
}

/// The calls of all courses, as the second program does them.
fn cases() -> Vec<Case> {
    courses().iter().flat_map(|course| run(SECOND, course).0).collect()
}

fn awaits_confirm(record: &Record) -> bool {
    record.phase == CONFIRM_AWAITED
}

fn is_request(call: &Call) -> bool {
    call.telegram().get(1).map_or(false, |command| command % 0x40 == 0)
}

/// Nodes that do otherwise while they await a confirm.
fn wrong_nodes() -> Vec<Wrong> {
    vec![
        sees_table("a request answered while a confirm is awaited", cases, |table, asked| {
            if is_request(&asked.call) {
                let own = asked.head.own;
                let awaiting = table.iter_mut().filter(|record| awaits_confirm(record));
                awaiting.for_each(|record| *record = Record::closed(&record.end(own), CLOSED));
            }
        }),
        leaves("a request that closes the wait for a confirm", cases, |asked, place, table, answered| {
            let record = place.map(|place| &mut table[place]);
            if let Some(record) = record.filter(|record| awaits_confirm(record) && is_request(&asked.call)) {
                *record = Record::closed(&record.end(asked.head.own), CLOSED);
                answered.happened = closed(0x04).into();
            }
        }),
        leaves("a disconnect taken under any number", cases, |asked, _, _, answered| {
            let is_disconnect = asked.call.telegram().get(1).map_or(false, |command| command % 0x40 == 5);
            if is_disconnect && answered.happened.reason == 0x06 {
                answered.happened.reason = u32::from(asked.call.telegram()[3]);
            }
        }),
    ]
}

/// Each course by both programs, call by call, against what is demanded. Wrong nodes are told by it, and one that is
/// made like them with nothing changed is not.
pub fn compare(tally: &mut Tally) {
    let mut closings = [0; 3];
    for course in courses() {
        for program in [LIBRARY, SECOND] {
            let (cases, seen) = run(program, &course);
            for case in cases {
                case.compare(tally);
            }
            tally.hold(seen == course.demanded(), || format!("both ends open, {course:X?}: {seen:X?}"));
        }
        match course.other_closes() {
            (0, ..) => closings[2] += 1,
            (_, Happened { reason: 0x06, .. }, _) => closings[0] += 1,
            _ => closings[1] += 1,
        }
    }
    let [incorrect, run_out, numbered_0] = closings;
    println!(
        "{:<11}the first closes with 02h, the other with 06h: {incorrect}; 02h too, its wait has run out: {run_out}; \
         with the first's 02h, which is numbered 0: {numbered_0}",
        "both open"
    );
    let tells = |wrong: &Wrong| courses().iter().any(|course| run(&*wrong.program, course).1 != course.demanded());
    for wrong in wrong_nodes() {
        tally.hold(tells(&wrong), || format!("no case sees {}", wrong.what));
    }
    for right in unchanged(cases) {
        tally.hold(!tells(&right), || format!("a case sees {}", right.what));
    }
    tally.told("both ends open at once: neither request is answered, both ends close, and then one opens alone");
}
