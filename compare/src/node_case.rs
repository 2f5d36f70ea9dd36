//! A case of a node: a table, what the node is asked, and what the scope demands of it. It is put to the library and to the second program, which
//! must agree in head, answer, table and buffer, with the guards before and behind these two, and meet the demand.

use crate::library_node;
use crate::link_step::{Record, CLOSED};
use crate::node;
use crate::node_call::{Answered, Asked, Head};
use crate::samples::{pattern, SENDERS};
use crate::tally::Tally;
use crate::telegram::LONGEST;
use crate::words::hex;

/// A program that does the calls of a node: the library, the second program, or a wrong one.
pub type Program = dyn Fn(&Asked, &mut [Record], &mut [u8]) -> Answered;

pub const LIBRARY: &Program = &library_node::call;
pub const SECOND: &Program = &node::call;

/// How many guards stand before a run, and as many behind it.
const GUARDS: usize = 16;

/// A run with its guards.
#[derive(Clone, PartialEq)]
pub struct Guarded<T>(Vec<T>);

impl<T: Copy + PartialEq> Guarded<T> {
    fn new(run: &[T], guard: T) -> Guarded<T> {
        let guards = vec![guard; GUARDS];
        Guarded([&guards, run, &guards].concat())
    }

    pub fn run(&self) -> &[T] {
        &self.0[GUARDS..self.0.len() - GUARDS]
    }

    fn run_mut(&mut self) -> &mut [T] {
        let end = self.0.len() - GUARDS;
        &mut self.0[GUARDS..end]
    }
}

#[derive(Clone, Copy, Debug)]
pub enum Demand {
    /// Only what is demanded of every call.
    Agree,
    /// The number of a refusal.
    Refused(u32),
    /// Done, about the record at this place.
    Done(usize),
    /// The same, and no data come up.
    NoData(usize),
}

#[derive(Clone)]
pub struct Case {
    pub table: Vec<Record>,
    pub asked: Asked,
    /// What stands in the buffer before.
    pub before: Vec<u8>,
    pub demand: Demand,
}

/// All that the interface shows of a call.
#[derive(Clone, PartialEq)]
pub struct Outcome {
    pub answered: Answered,
    pub table: Guarded<Record>,
    pub buffer: Guarded<u8>,
}

impl Outcome {
    pub fn number(&self) -> u32 {
        self.answered.answer.number
    }

    /// The telegram that was written; nothing where none was.
    pub fn telegram(&self) -> &[u8] {
        let buffer = self.buffer.run();
        &buffer[..(self.answered.answer.length as usize).min(buffer.len())]
    }

    /// What is told of it: of the table only the records that differ from those before.
    fn tell(&self, before: &[Record]) -> String {
        let changed: Vec<(usize, &Record)> = self
            .table
            .run()
            .iter()
            .enumerate()
            .filter(|(place, record)| before[*place] != **record)
            .collect();
        format!("{:X?}, changed {changed:X?}, buffer {}", self.answered, hex(self.buffer.run()))
    }
}

impl Case {
    /// A call into a buffer with just enough room.
    pub fn new(table: Vec<Record>, asked: Asked, demand: Demand) -> Case {
        let before = pattern(LONGEST);
        Case {
            table,
            asked,
            before,
            demand,
        }
    }

    /// The same into a buffer of this many bytes.
    pub fn with_room(self, room: usize) -> Case {
        let before = pattern(room);
        Case { before, ..self }
    }

    pub fn outcome(&self, program: &Program) -> Outcome {
        let mut table = Guarded::new(&self.table, Record::closed(&SENDERS[0], CLOSED));
        let mut buffer = Guarded::new(&self.before, 0xA5);
        let answered = program(&self.asked, table.run_mut(), buffer.run_mut());
        Outcome { answered, table, buffer }
    }

    /// What is demanded of every call: refused, it leaves head, table and buffer as they were; done, it sets the latest time and leaves every record
    /// but the one at its place, and the buffer behind the telegram.
    fn lawful(&self, outcome: &Outcome) -> bool {
        let (asked, table, buffer) = (&self.asked, outcome.table.run(), outcome.buffer.run());
        match (outcome.number(), node::place(asked, &self.table)) {
            (0, Some(place)) => {
                let Head { own, .. } = asked.head;
                let after = Head { own, latest: asked.time };
                let others = (0..table.len()).all(|other| other == place || table[other] == self.table[other]);
                let length = outcome.answered.answer.length as usize;
                outcome.answered.head == after && others && buffer[length..] == self.before[length..]
            }
            (0, None) => false,
            (number, _) => outcome.answered == Answered::refused(asked.head, number) && table == self.table && buffer == self.before,
        }
    }

    /// Whether an outcome is what is demanded.
    fn met_by(&self, outcome: &Outcome) -> bool {
        let is_done = |at: usize| outcome.number() == 0 && node::place(&self.asked, &self.table) == Some(at);
        self.lawful(outcome)
            && match self.demand {
                Demand::Agree => true,
                Demand::Refused(number) => outcome.number() == number,
                Demand::Done(place) => is_done(place),
                Demand::NoData(place) => is_done(place) && outcome.answered.happened.event != 2,
            }
    }

    /// Puts the case to both programs. Gives the outcome by the second.
    pub fn compare(&self, tally: &mut Tally) -> Outcome {
        let library = self.outcome(LIBRARY);
        let second = self.outcome(SECOND);
        tally.hold(library == second && self.met_by(&second), || {
            let [library, second] = [&library, &second].map(|outcome| outcome.tell(&self.table));
            let Case { table, asked, demand, .. } = self;
            format!(
                "{asked:X?}, {} records\n  library: {library}\n  second program: {second}\n  demanded: {demand:?}",
                table.len()
            )
        });
        second
    }

    /// Whether the case tells a wrong program from the second.
    pub fn sees(&self, wrong: &Program) -> bool {
        self.outcome(wrong) != self.outcome(SECOND)
    }
}
