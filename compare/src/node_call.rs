//! A call of a node as the interface shows it: head, time, the record that it is about and the call to be made; and what comes back.

use crate::link_call::Call;
use crate::link_step::{Answer, Event, Happened, Record, Stepped};

/// What goes beside the table: the node's own address and the latest time seen.
#[repr(C)]
#[derive(Clone, Copy, PartialEq, Debug)]
pub struct Head {
    pub own: u32,
    pub latest: u64,
}

/// What is given with a telegram: the address that it came from, and its SAPs as it travels.
#[derive(Clone, Copy, PartialEq, Debug)]
pub struct Frame {
    pub sender: u32,
    pub destination_sap: u32,
    pub source_sap: u32,
}

impl Frame {
    /// The frame in which the partner of a record sends to it.
    pub fn to(record: &Record) -> Frame {
        Frame {
            sender: record.partner,
            destination_sap: record.local_sap,
            source_sap: record.partner_sap,
        }
    }
}

/// The record that a call is about: by its place in the table, which counts from 0, or, for a telegram received, by its frame.
#[derive(Clone, Copy, PartialEq, Debug)]
pub enum Whose {
    Place(usize),
    Frame(Frame),
}

/// What a node is asked, without table and buffer. The time is the node's; one inside the call does not count.
#[derive(Clone, Debug)]
pub struct Asked {
    pub head: Head,
    pub time: u64,
    pub whose: Whose,
    pub call: Call,
}

/// All that a call gives back but table and buffer.
#[repr(C)]
#[derive(Clone, Copy, PartialEq, Debug)]
pub struct Answered {
    pub head: Head,
    pub answer: Answer,
    pub happened: Happened,
}

impl Answered {
    /// The number of a refusal with the head as it was.
    pub fn refused(head: Head, number: u32) -> Answered {
        let answer = Answer::refused(number);
        let happened = Event::Nothing.into();
        Answered { head, answer, happened }
    }

    /// What a step gave, with the head after it.
    pub fn done(head: Head, stepped: &Stepped) -> Answered {
        let Stepped { answer, happened, .. } = *stepped;
        Answered { head, answer, happened }
    }

    /// The same as a step of the record that is left.
    pub fn stepped(&self, record: Record) -> Stepped {
        let Answered { answer, happened, .. } = *self;
        Stepped { record, answer, happened }
    }
}
