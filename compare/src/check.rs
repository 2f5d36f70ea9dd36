//! The check of a received telegram, in the six clauses of the scope, and where a telegram's net data lie.

use crate::telegram::{idle_time_allowed, new_setup_known, sealed, End, Kind, Level, Way, BAD_TELEGRAM, LONGEST, OUT_OF_RANGE};

/// The scope: a telegram to be checked has at least this many bytes, or it is refused.
pub const SHORTEST: usize = 6;

/// What the check asks, one question each.
#[derive(Clone, Copy, PartialEq, Debug)]
pub enum Clause {
    Level,
    Command,
    Length,
    Number,
    Fields,
    Word,
}

/// The clauses in the order in which they are asked.
pub const CLAUSES: [Clause; 6] = [
    Clause::Level,
    Clause::Command,
    Clause::Length,
    Clause::Number,
    Clause::Fields,
    Clause::Word,
];

#[derive(Clone, Copy, PartialEq, Debug)]
pub enum Verdict {
    Passes,
    Refused(u32),
    /// The first clause that doesn't hold.
    Fails(Clause),
}

/// The byte with this number in the tables of 5.2, which count from 1. Past the end it is 0: the clause about the length has failed then.
pub fn byte(telegram: &[u8], number: usize) -> u8 {
    telegram.get(number - 1).copied().unwrap_or(0)
}

/// 5.1.1.6: the number that stands in these bytes, lowest byte first.
pub fn field(telegram: &[u8], first: usize, last: usize) -> u32 {
    (first..=last).rev().fold(0, |number, k| number << 8 | u32::from(byte(telegram, k)))
}

/// A telegram, the way it came and the number expected of it. The way and the number never come from the frame.
struct Received<'a> {
    level: Level,
    way: Way,
    expected: u32,
    telegram: &'a [u8],
}

impl Received<'_> {
    fn byte(&self, number: usize) -> u8 {
        byte(self.telegram, number)
    }

    fn field(&self, first: usize, last: usize) -> u32 {
        field(self.telegram, first, last)
    }

    fn kind(&self) -> Option<Kind> {
        Kind::of_command(u32::from(self.byte(2) & 0x3F))
    }

    /// The number expected; of a request or confirm, its own random number.
    fn number_used(&self) -> u32 {
        match self.kind() {
            Some(Kind::Request | Kind::Confirm) => self.field(3, 6),
            _ => self.expected,
        }
    }

    /// 5.2.1.3 and 5.2.2.2, bytes 7..8 and 12; 5.2.5.9, byte 3. Byte 4 of a disconnect, the reason, may be any.
    fn fields_in_range(&self) -> bool {
        match self.kind() {
            Some(Kind::Request | Kind::Confirm) => idle_time_allowed(self.field(7, 8)) && self.byte(12) <= 1,
            Some(Kind::Disconnect) => new_setup_known(self.field(3, 3)),
            _ => true,
        }
    }

    fn word_agrees(&self) -> bool {
        let without_word = &self.telegram[..self.telegram.len() - self.level.generator().bytes()];
        sealed(self.level, self.way, self.number_used(), without_word) == self.telegram
    }

    fn holds(&self, clause: Clause) -> bool {
        match clause {
            Clause::Level => Level::of_command(self.byte(2)) == Some(self.level),
            Clause::Command => self.kind().is_some(),
            Clause::Length => self.kind().map_or(true, |kind| kind.lengths(self.level).contains(&self.telegram.len())),
            Clause::Number => self.byte(1) == self.number_used().to_le_bytes()[0],
            Clause::Fields => self.fields_in_range(),
            Clause::Word => self.word_agrees(),
        }
    }
}

/// The check under an end.
pub fn check(end: &End, expected: u32, telegram: &[u8]) -> Verdict {
    check_by(&CLAUSES, end, expected, telegram)
}

/// The check that asks these clauses and no others.
pub fn check_by(clauses: &[Clause], end: &End, expected: u32, telegram: &[u8]) -> Verdict {
    let level = match end.in_range() {
        Some(level) => level,
        None => return Verdict::Refused(OUT_OF_RANGE),
    };
    if !(SHORTEST..=LONGEST).contains(&telegram.len()) {
        return Verdict::Refused(BAD_TELEGRAM);
    }
    let way = end.receiving();
    let received = Received {
        level,
        way,
        expected,
        telegram,
    };
    match clauses.iter().find(|clause| !received.holds(**clause)) {
        Some(clause) => Verdict::Fails(*clause),
        None => Verdict::Passes,
    }
}

/// Where the net data start, and how many there are, by the telegram's own command. Nothing for bytes that have no telegram's level, command and length.
pub fn net_data(telegram: &[u8]) -> Option<(usize, usize)> {
    let command = *telegram.get(1)?;
    let level = Level::of_command(command)?;
    let kind = Kind::of_command(u32::from(command & 0x3F))?;
    let around = kind.header() + level.generator().bytes();
    kind.lengths(level)
        .contains(&telegram.len())
        .then(|| (kind.header(), telegram.len() - around))
}
