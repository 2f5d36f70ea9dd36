//! A case: one call, and what the papers demand of it. It is put to the library and to the second program, which must agree in everything that the
//! interface shows and meet the demand.

use crate::check::{check, check_by, Clause, Verdict, CLAUSES};
use crate::library::Part;
use crate::program::{Program, FAILED, LIBRARY, SECOND};
use crate::tally::Tally;
use crate::telegram::{End, Telegram};
use crate::words::hex;

pub enum Call {
    /// A writer, with the bytes that stand in the buffer before.
    Write { end: End, telegram: Telegram, before: Vec<u8> },
    /// The check, and the place of the net data.
    Check { end: End, expected: u32, telegram: Vec<u8> },
}

#[derive(Debug)]
pub enum Demand {
    /// Only that the programs agree.
    Agree,
    /// This answer.
    Answer(u32),
    /// The check fails at the first of these clauses, and no other clause is broken: without them it passes.
    Broken(Vec<Clause>),
    /// Net data from this index on, this many.
    NetData(usize, usize),
}

pub struct Case {
    pub call: Call,
    demand: Demand,
}

/// Everything that the interface shows of a call.
#[derive(PartialEq)]
pub enum Outcome {
    Written { answer: u32, length: u32, after: Vec<u8> },
    Checked { answer: u32, net: Part },
}

impl Outcome {
    pub fn answer(&self) -> u32 {
        match self {
            Outcome::Written { answer, .. } | Outcome::Checked { answer, .. } => *answer,
        }
    }

    fn tell(&self) -> String {
        match self {
            Outcome::Written { answer, length, after } => format!("answer {answer}, length {length}, buffer {}", hex(after)),
            Outcome::Checked { answer, net } => format!("answer {answer}, {} net data from {} on", net.count, net.start),
        }
    }
}

impl Case {
    pub fn write(end: End, telegram: Telegram, before: Vec<u8>, demand: Demand) -> Case {
        let call = Call::Write { end, telegram, before };
        Case { call, demand }
    }

    pub fn check(end: End, expected: u32, telegram: Vec<u8>, demand: Demand) -> Case {
        let call = Call::Check { end, expected, telegram };
        Case { call, demand }
    }

    fn outcome(&self, program: &Program) -> Outcome {
        match &self.call {
            Call::Write { end, telegram, before } => {
                let mut after = before.clone();
                let written = (program.write)(end, telegram, &mut after);
                let (answer, length) = (written.answer, written.length);
                Outcome::Written { answer, length, after }
            }
            Call::Check { end, expected, telegram } => {
                let answer = (program.check)(end, *expected, telegram).min(FAILED);
                let net = (program.net_data)(telegram);
                Outcome::Checked { answer, net }
            }
        }
    }

    /// Whether an outcome is what the papers demand.
    fn met_by(&self, outcome: &Outcome) -> bool {
        match (&self.demand, &self.call, outcome) {
            (Demand::Agree, _, _) => true,
            (Demand::Answer(answer), _, _) => outcome.answer() == *answer,
            (Demand::Broken(broken), Call::Check { end, expected, telegram }, _) => {
                let others: Vec<Clause> = CLAUSES.into_iter().filter(|clause| !broken.contains(clause)).collect();
                outcome.answer() == FAILED
                    && check(end, *expected, telegram) == Verdict::Fails(broken[0])
                    && check_by(&others, end, *expected, telegram) == Verdict::Passes
            }
            (Demand::NetData(start, count), _, Outcome::Checked { net, .. }) => (net.start as usize, net.count as usize) == (*start, *count),
            _ => false,
        }
    }

    fn tell(&self) -> String {
        match &self.call {
            Call::Write { end, telegram, before } => format!("{end:?} writes {telegram:X?} into {}", hex(before)),
            Call::Check { end, expected, telegram } => format!("{end:?}, which expects {expected:08X}, checks {}", hex(telegram)),
        }
    }

    /// Puts the case to both programs. Gives the outcome by the second.
    pub fn compare(&self, tally: &mut Tally) -> Outcome {
        let library = self.outcome(&LIBRARY);
        let second = self.outcome(&SECOND);
        tally.hold(library == second && self.met_by(&second), || {
            let [library, second] = [library.tell(), second.tell()];
            format!(
                "{}\n  library: {library}\n  second program: {second}\n  demanded: {:?}",
                self.tell(),
                self.demand
            )
        });
        second
    }

    /// Whether the case tells a wrong program from the second.
    pub fn sees(&self, wrong: &Program) -> bool {
        self.outcome(wrong) != self.outcome(&SECOND)
    }
}
