//! A telegram to be checked whose check word isn't made yet, so that what is changed in it doesn't break the check word too.

use crate::case::{Case, Demand};
use crate::samples::{good_telegrams, longest_telegrams, pattern, SENDERS};
use crate::telegram::{sealed, End, Kind, Level, Telegram};

#[derive(Clone)]
pub struct Draft {
    /// The end that checks it.
    pub end: End,
    pub level: Level,
    pub kind: Kind,
    /// The number expected, which the check word covers.
    pub number: u32,
    /// The bytes before the check word.
    pub body: Vec<u8>,
    /// What is changed in the last byte of the check word after it is made.
    pub spoilt: u8,
}

impl Draft {
    /// A good telegram of this sender, as its partner checks it.
    pub fn new(sender: End, telegram: &Telegram) -> Draft {
        let level = if sender.level == 4 { Level::Sl4 } else { Level::Sl2 };
        Draft {
            end: sender.mirrored(),
            level,
            kind: telegram.kind(),
            number: telegram.number(),
            body: telegram.body(level),
            spoilt: 0,
        }
    }

    pub fn word_length(&self) -> usize {
        self.level.generator().bytes()
    }

    pub fn is_connect(&self) -> bool {
        self.kind == Kind::Request || self.kind == Kind::Confirm
    }

    pub fn telegram(&self) -> Vec<u8> {
        let mut telegram = sealed(self.level, self.end.receiving(), self.number, &self.body);
        *telegram.last_mut().unwrap() ^= self.spoilt;
        telegram
    }

    /// The same with the byte at an index replaced, if there is one.
    pub fn with(&self, index: usize, value: u8) -> Draft {
        let mut draft = self.clone();
        draft.body.get_mut(index).into_iter().for_each(|byte| *byte = value);
        draft
    }

    /// The same with this many bytes before the check word.
    pub fn of_length(&self, length: usize) -> Draft {
        let mut draft = self.clone();
        draft.body.truncate(length);
        draft.body.extend(pattern(length - draft.body.len()));
        draft
    }

    /// The same with another sequence number, which a request and a confirm carry as their random number too.
    pub fn numbered(&self, number: u32) -> Draft {
        let bytes = number.to_le_bytes();
        let mut draft = self.with(0, bytes[0]);
        draft.number = number;
        if self.is_connect() {
            draft.body[2..6].copy_from_slice(&bytes);
        }
        draft
    }

    /// The same with something changed in the last byte of the check word.
    pub fn spoilt(&self, spoilt: u8) -> Draft {
        Draft { spoilt, ..self.clone() }
    }

    /// Its check by its end, which expects its number.
    pub fn case(&self, demand: Demand) -> Case {
        self.case_by(self.end, self.number, demand)
    }

    /// Its check by any end, which expects any number.
    pub fn case_by(&self, end: End, expected: u32, demand: Demand) -> Case {
        Case::check(end, expected, self.telegram(), demand)
    }
}

/// Each kind of telegram at each level, all good.
pub fn drafts() -> Vec<Draft> {
    let of = |sender: End| good_telegrams().into_iter().map(move |telegram| Draft::new(sender, &telegram));
    SENDERS.into_iter().flat_map(of).collect()
}

/// The longest telegrams at each level, all good.
pub fn longest_drafts() -> Vec<Draft> {
    let of = |sender: End| {
        longest_telegrams(sender.level)
            .into_iter()
            .map(move |telegram| Draft::new(sender, &telegram))
    };
    SENDERS.into_iter().flat_map(of).collect()
}

/// The requests and confirms of `drafts`.
pub fn connect_drafts() -> Vec<Draft> {
    drafts().into_iter().filter(Draft::is_connect).collect()
}
