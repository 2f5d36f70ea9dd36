//! A step of one connection as the interface shows it: the record with the call that is made, and what comes back.

use crate::link_call::Call;
use crate::telegram::{End, Kind};

/// The phases of a record by their numbers, in the order of the states of 5.5.1.2.
pub const CLOSED: u32 = 1;
pub const CONFIRM_AWAITED: u32 = 2;
pub const AUTHENTICATION_AWAITED: u32 = 3;
pub const ACKNOWLEDGEMENT_AWAITED: u32 = 4;
pub const OPEN: u32 = 5;
pub const FINALLY_CLOSED: u32 = 6;

/// One connection, by plain numbers, which may be out of range. The idle times are the one that we declared and the partner's, which we watch.
#[repr(C)]
#[derive(Clone, Copy, PartialEq, Debug)]
pub struct Record {
    pub partner: u32,
    pub partner_sap: u32,
    pub local_sap: u32,
    pub level: u32,
    pub phase: u32,
    pub sending: u32,
    pub expected: u32,
    pub declared: u32,
    pub watched: u32,
    pub sent_at: u64,
    pub taken_at: u64,
}

impl Record {
    /// A closed record of the connection that the end names, finally closed or not.
    pub fn closed(end: &End, phase: u32) -> Record {
        Record {
            partner: end.partner,
            partner_sap: end.partner_sap,
            local_sap: end.local_sap,
            level: end.level,
            phase,
            sending: 0,
            expected: 0,
            declared: 0,
            watched: 0,
            sent_at: 0,
            taken_at: 0,
        }
    }

    /// The record with the numbers of another end.
    pub fn between(&self, end: &End) -> Record {
        Record {
            partner: end.partner,
            partner_sap: end.partner_sap,
            local_sap: end.local_sap,
            level: end.level,
            ..*self
        }
    }

    /// Whether the record waits for the next telegram of the set-up.
    pub fn waits(&self) -> bool {
        [CONFIRM_AWAITED, AUTHENTICATION_AWAITED, ACKNOWLEDGEMENT_AWAITED].contains(&self.phase)
    }

    /// The end that the record names on the node with this address.
    pub fn end(&self, own: u32) -> End {
        End {
            own,
            partner: self.partner,
            partner_sap: self.partner_sap,
            local_sap: self.local_sap,
            level: self.level,
        }
    }
}

/// What a step tells the layer above.
#[derive(Clone, Copy, PartialEq, Debug)]
pub enum Event {
    Nothing,
    Opened,
    /// The command's low six bits, and where in the lent telegram the net data lie.
    Data {
        command: u32,
        start: u32,
        count: u32,
    },
    Closed {
        reason: u32,
        finally: bool,
    },
}

/// A record, its node's address, and the call to be made.
#[derive(Clone, Debug)]
pub struct Step {
    pub record: Record,
    pub own: u32,
    pub call: Call,
}

impl Step {
    pub fn end(&self) -> End {
        self.record.end(self.own)
    }
}

/// The answer's number, and which telegram was written with its length; 0 and 0 where none was.
#[repr(C)]
#[derive(Clone, Copy, PartialEq, Debug, Default)]
pub struct Answer {
    pub number: u32,
    pub telegram: u32,
    pub length: u32,
}

impl Answer {
    /// The number of a refusal.
    pub fn refused(number: u32) -> Answer {
        Answer { number, ..Answer::default() }
    }

    /// Done, with the kind and the length of the telegram that was written, if any.
    fn done(written: Option<(Kind, usize)>) -> Answer {
        written.map_or(Answer::default(), |(kind, length)| Answer {
            number: 0,
            telegram: kind_number(kind),
            length: length as u32,
        })
    }
}

/// An event as plain numbers. What it doesn't name is 0.
#[repr(C)]
#[derive(Clone, Copy, PartialEq, Debug, Default)]
pub struct Happened {
    pub event: u32,
    pub command: u32,
    pub start: u32,
    pub count: u32,
    pub reason: u32,
    pub last: u32,
}

impl From<Event> for Happened {
    fn from(event: Event) -> Happened {
        let nothing = Happened::default();
        match event {
            Event::Nothing => nothing,
            Event::Opened => Happened { event: 1, ..nothing },
            Event::Data { command, start, count } => Happened {
                event: 2,
                command,
                start,
                count,
                ..nothing
            },
            Event::Closed { reason, finally } => Happened {
                event: 3,
                reason,
                last: u32::from(finally),
                ..nothing
            },
        }
    }
}

/// All that a step gives back but the buffer.
#[repr(C)]
#[derive(Clone, Copy, PartialEq, Debug)]
pub struct Stepped {
    pub record: Record,
    pub answer: Answer,
    pub happened: Happened,
}

impl Stepped {
    /// The number of a refusal with the record as it was.
    pub fn refused(record: Record, number: u32) -> Stepped {
        let answer = Answer::refused(number);
        let happened = Event::Nothing.into();
        Stepped { record, answer, happened }
    }

    /// A step that is done, with the kind and the length of the telegram that it wrote, if any.
    pub fn done(record: Record, written: Option<(Kind, usize)>, event: Event) -> Stepped {
        let answer = Answer::done(written);
        let happened = event.into();
        Stepped { record, answer, happened }
    }
}

/// The number by which the interface names a kind of telegram, in the order of 5.2.1 to 5.2.7.
pub fn kind_number(kind: Kind) -> u32 {
    match kind {
        Kind::Request => 1,
        Kind::Confirm => 2,
        Kind::Authentication => 3,
        Kind::Acknowledgement => 4,
        Kind::Disconnect => 5,
        Kind::Idle => 6,
        Kind::Data => 7,
    }
}
