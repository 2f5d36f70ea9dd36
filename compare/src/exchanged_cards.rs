//! The fault of the drawing: an on-board node has a connection at SL 4 to each of two modules, which use the same SAPs and the same numbers, and the
//! workshop exchanges the modules' cards. A card keeps its configuration, but what it sends comes from the other's address, and what is sent to the
//! other reaches it. No data may come up under the other's name.

use crate::link_call::{Call, Naming};
use crate::link_step::{Record, CLOSED};
use crate::node_call::{Asked, Frame, Head, Whose};
use crate::node_case::{Case, Demand, Program, LIBRARY, SECOND};
use crate::tally::Tally;
use crate::telegram::End;
use crate::wrong_node::without_addresses;
use std::collections::VecDeque;

/// The cards by number: the on-board node and the two modules. Each is configured with its address.
const ON_BOARD: usize = 0;
const MODULES: [usize; 2] = [1, 2];
const ADDRESSES: [u32; 3] = [1, 10, 20];
const ON_BOARD_SAP: u32 = 5;
const MODULE_SAP: u32 = 3;

/// The random number that an end is lent, whichever connection it is of.
const RANDOM: [u32; 3] = [0x0123_4567, 0x89AB_CDEF, 0x89AB_CDEF];

/// What is exchanged: what the modules' cards send, and what they receive. With both, the cards are exchanged.
#[derive(Clone, Copy, Debug)]
struct Exchanged {
    what: &'static str,
    sending: bool,
    receiving: bool,
}

/// The four ways.
#[rustfmt::skip]
const WAYS: [Exchanged; 4] = [
    Exchanged { what: "nothing",                               sending: false, receiving: false },
    Exchanged { what: "what the modules' cards send",          sending: true,  receiving: false },
    Exchanged { what: "what the modules' cards receive",       sending: false, receiving: true },
    Exchanged { what: "the cards: what they send and receive", sending: true,  receiving: true },
];

/// Who opens, what is exchanged, and whether that is done before the opening or on open connections.
#[derive(Clone, Copy, Debug)]
struct Course {
    modules_open: bool,
    before_opening: bool,
    exchanged: Exchanged,
}

impl Course {
    fn crosses(&self) -> bool {
        self.exchanged.sending || self.exchanged.receiving
    }

    /// How many data come up. Where nothing is exchanged all four do. Else no connection opens any more; an open one has at most one way left, which
    /// lasts until the other is used.
    fn data(&self) -> usize {
        match (self.exchanged.sending, self.exchanged.receiving) {
            (false, false) => 4,
            (true, false) if !self.before_opening && !self.modules_open => 2,
            (false, true) if !self.before_opening && self.modules_open => 2,
            _ => 0,
        }
    }
}

/// Each who can open, with each time at which something can be exchanged.
fn courses(exchanged: Exchanged) -> [Course; 4] {
    [(false, false), (false, true), (true, false), (true, true)].map(|(modules_open, before_opening)| Course {
        modules_open,
        before_opening,
        exchanged,
    })
}

/// Data that came up: on which card, under which partner's name, and who sent them, which the data tell themselves.
#[derive(PartialEq, Debug)]
struct Data {
    card: usize,
    partner: u32,
    sender: u32,
}

struct Card {
    head: Head,
    table: Vec<Record>,
}

struct Train<'a> {
    cards: Vec<Card>,
    exchanged: Exchanged,
    program: &'a Program,
    time: u64,
    /// The telegrams on the bus, each with the card that it reaches.
    flying: VecDeque<(usize, Frame, Vec<u8>)>,
    data: Vec<Data>,
    /// How many connections were closed because a telegram failed the check.
    closings: usize,
    cases: Vec<Case>,
}

/// The other module's card. The on-board node stays where it is.
fn exchange(card: usize) -> usize {
    [ON_BOARD, MODULES[1], MODULES[0]][card]
}

impl Train<'_> {
    fn new(program: &Program) -> Train<'_> {
        let ends = MODULES.map(|module| End {
            own: ADDRESSES[ON_BOARD],
            partner: ADDRESSES[module],
            partner_sap: MODULE_SAP,
            local_sap: ON_BOARD_SAP,
            level: 4,
        });
        let card = |ends: &[End]| Card {
            head: Head { own: ends[0].own, latest: 0 },
            table: ends.iter().map(|end| Record::closed(end, CLOSED)).collect(),
        };
        Train {
            cards: vec![card(&ends), card(&[ends[0].mirrored()]), card(&[ends[1].mirrored()])],
            exchanged: WAYS[0],
            program,
            time: 1000,
            flying: VecDeque::new(),
            data: vec![],
            closings: 0,
            cases: vec![],
        }
    }

    /// The ends of both connections on one side: the card, and the place of the record.
    fn ends(modules: bool) -> [(usize, usize); 2] {
        if modules {
            [(MODULES[0], 0), (MODULES[1], 0)]
        } else {
            [(ON_BOARD, 0), (ON_BOARD, 1)]
        }
    }

    /// Has a card do a call. The telegram that it writes goes on the bus, and data that come up are noted.
    fn call(&mut self, card: usize, whose: Whose, call: Call) {
        self.time += 1;
        let Card { head, table } = &self.cards[card];
        let (head, time) = (*head, self.time);
        let asked = Asked { head, time, whose, call };
        let case = Case::new(table.clone(), asked, Demand::Agree);
        let outcome = case.outcome(self.program);
        let changed = outcome.table.run().iter().zip(&case.table).position(|(after, before)| after != before);
        let record = changed.map(|place| case.table[place]);
        self.cards[card].head = outcome.answered.head;
        self.cards[card].table = outcome.table.run().to_vec();
        let happened = outcome.answered.happened;
        if let (Some(record), 2) = (record, happened.event) {
            let net = &case.asked.call.telegram()[happened.start as usize..];
            let (partner, sender) = (record.partner, u32::from(net[0]));
            self.data.push(Data { card, partner, sender });
        }
        if (happened.event, happened.reason) == (3, 0x06) && outcome.answered.answer.telegram != 0 {
            self.closings += 1;
        }
        if let (Some(record), true) = (record, outcome.answered.answer.telegram != 0) {
            self.fly(card, &record, outcome.telegram().to_vec());
        }
        self.cases.push(case);
    }

    /// Puts a telegram on the bus. It comes from the address at which the sender's card stands, and reaches the card that stands at the partner's.
    fn fly(&mut self, from: usize, record: &Record, telegram: Vec<u8>) {
        let partner = ADDRESSES.iter().position(|address| *address == record.partner).unwrap_or(ON_BOARD);
        let place = if self.exchanged.sending { exchange(from) } else { from };
        let to = if self.exchanged.receiving { exchange(partner) } else { partner };
        let frame = Frame {
            sender: ADDRESSES[place],
            destination_sap: record.partner_sap,
            source_sap: record.local_sap,
        };
        self.flying.push_back((to, frame, telegram));
    }

    /// Until the bus is silent.
    fn deliver(&mut self) {
        while let Some((to, frame, telegram)) = self.flying.pop_front() {
            let received = Call::Received {
                time: 0,
                random: RANDOM[to],
                naming: Naming { named: 1, idle_time: 0 },
                telegram,
                net: vec![],
            };
            self.call(to, Whose::Frame(frame), received);
        }
    }

    fn open(&mut self, modules: bool) {
        for (card, place) in Train::ends(modules) {
            let open = Call::Open {
                time: 0,
                random: RANDOM[card],
                naming: Naming { named: 1, idle_time: 0 },
                net: vec![],
            };
            self.call(card, Whose::Place(place), open);
        }
        self.deliver();
    }

    /// Both ends on one side send data, which begin with their card's address.
    fn send(&mut self, modules: bool) {
        for (card, place) in Train::ends(modules) {
            let send = Call::Send {
                time: 0,
                command: 0x20,
                net: vec![ADDRESSES[card] as u8, 0x55],
            };
            self.call(card, Whose::Place(place), send);
        }
        self.deliver();
    }

    /// How many data came up under the name of a partner that didn't send them.
    fn misnamed(&self) -> usize {
        self.data.iter().filter(|data| data.partner != data.sender).count()
    }

    /// What is demanded after a course: that both programs agree in each of its calls, that no data came up under another's name, and as many as can.
    /// Open connections that are exchanged close.
    fn hold(&self, course: Course, tally: &mut Tally) {
        for case in &self.cases {
            case.compare(tally);
        }
        let Train { data, closings, .. } = self;
        tally.hold(self.misnamed() == 0, || format!("{course:?}: {data:?}"));
        tally.hold(data.len() == course.data(), || format!("{course:?}: {data:?}"));
        let closes = course.before_opening || (*closings > 0) == course.crosses();
        tally.hold(closes, || format!("{course:?}: {closings} closings"));
    }

    /// A whole course. The cards try twice to open.
    fn run(&mut self, course: Course) {
        if course.before_opening {
            self.exchanged = course.exchanged;
        }
        self.open(course.modules_open);
        self.open(course.modules_open);
        self.exchanged = course.exchanged;
        self.send(course.modules_open);
        self.send(!course.modules_open);
    }
}

fn run(program: &Program, course: Course) -> Train<'_> {
    let mut train = Train::new(program);
    train.run(course);
    train
}

/// Each course by both programs, call by call; then by nodes whose check word leaves the addresses out, by which the cards would be taken for each
/// other.
pub fn compare(tally: &mut Tally) {
    let wrong = without_addresses();
    let mut misnamed_by_wrong = 0;
    for exchanged in WAYS {
        let (mut own, mut others, mut closings) = (0, 0, 0);
        for course in courses(exchanged) {
            for program in [LIBRARY, SECOND] {
                let train = run(program, course);
                train.hold(course, tally);
                others += train.misnamed();
                own += train.data.len() - train.misnamed();
                closings += train.closings;
            }
            misnamed_by_wrong += run(&*wrong, course).misnamed();
        }
        println!(
            "{:<11}{}: {own} data under their own names, {others} under the other's, {closings} closings with 06h",
            "exchanged", exchanged.what
        );
    }
    tally.hold(misnamed_by_wrong > 0, || {
        "no course sees nodes without addresses in the check word".into()
    });
    tally.told("two cards exchanged, SL 4: before the opening and after, by both programs; no data comes up under the other's name");
}
