//! A case of one connection: a step, and what the papers demand of it. It is put to the library and to the second program, which must agree in the record, in
//! every part of the answer and in the whole buffer, and meet the demand.

use crate::library_link;
use crate::link;
use crate::link_call::Call;
use crate::link_step::{Event, Record, Step, Stepped};
use crate::samples::pattern;
use crate::tally::Tally;
use crate::telegram::{Kind, LONGEST};
use crate::words::hex;

/// A program that does steps: the library, the second program, or a wrong one.
pub type Program = dyn Fn(&Step, &mut [u8]) -> Stepped;

pub const LIBRARY: &Program = &library_link::step;
pub const SECOND: &Program = &link::step;

#[derive(Clone, Debug)]
pub enum Demand {
    /// Only that the programs agree.
    Agree,
    /// The number of a refusal.
    Refused(u32),
    /// No refusal.
    NotRefused,
    /// Done: the record afterwards, the kind of the telegram written, and the event.
    Done(Record, Option<Kind>, Event),
}

#[derive(Clone)]
pub struct Case {
    pub step: Step,
    /// What stands in the buffer before.
    pub before: Vec<u8>,
    pub demand: Demand,
}

/// All that the interface shows of a step.
#[derive(Clone, PartialEq)]
pub struct Outcome {
    pub stepped: Stepped,
    pub after: Vec<u8>,
}

impl Outcome {
    /// The telegram that was written; nothing where none was.
    pub fn telegram(&self) -> &[u8] {
        &self.after[..(self.stepped.answer.length as usize).min(self.after.len())]
    }

    fn tell(&self) -> String {
        format!("{:X?}, buffer {}", self.stepped, hex(&self.after))
    }
}

impl Case {
    /// A step into a buffer with just enough room.
    pub fn new(record: Record, own: u32, call: Call, demand: Demand) -> Case {
        let step = Step { record, own, call };
        let before = pattern(LONGEST);
        Case { step, before, demand }
    }

    /// The same into a buffer of this many bytes.
    pub fn with_room(self, room: usize) -> Case {
        let before = pattern(room);
        Case { before, ..self }
    }

    fn outcome(&self, program: &Program) -> Outcome {
        let mut after = self.before.clone();
        let stepped = program(&self.step, &mut after);
        Outcome { stepped, after }
    }

    /// Whether an outcome is what the papers demand. A refusal leaves record and buffer as they were; a telegram leaves what is behind it.
    fn met_by(&self, outcome: &Outcome) -> bool {
        let stepped = outcome.stepped;
        let length = stepped.answer.length as usize;
        match self.demand {
            Demand::Agree => true,
            Demand::Refused(answer) => stepped == Stepped::refused(self.step.record, answer) && outcome.after == self.before,
            Demand::NotRefused => stepped.answer.number == 0,
            Demand::Done(record, kind, event) => {
                let written = kind.map(|kind| (kind, length));
                stepped == Stepped::done(record, written, event) && kind.is_some() == (length > 0) && outcome.after[length..] == self.before[length..]
            }
        }
    }

    /// Puts the case to both programs. Gives the outcome by the second.
    pub fn compare(&self, tally: &mut Tally) -> Outcome {
        let library = self.outcome(LIBRARY);
        let second = self.outcome(SECOND);
        tally.hold(library == second && self.met_by(&second), || {
            let [library, second] = [library.tell(), second.tell()];
            format!(
                "{:X?}\n  library: {library}\n  second program: {second}\n  demanded: {:X?}",
                self.step, self.demand
            )
        });
        second
    }

    /// Whether the case tells a wrong program from the second.
    pub fn sees(&self, wrong: &Program) -> bool {
        self.outcome(wrong) != self.outcome(SECOND)
    }
}
