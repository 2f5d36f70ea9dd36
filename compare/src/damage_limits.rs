//! What is not promised of damage, run so that a reader sees what each condition is for: another expected number, changes before the check word and in it, a
//! changed command byte. And what the check word alone would not find: some bursts in a request or confirm.

use crate::check::{check, check_by, Clause, Verdict};
use crate::damage::{change, COMMAND};
use crate::damage_telegrams::{data_command, data_telegram, place_in_net, Good, Shape, LEVELS, SEED};
use crate::library;
use crate::program::FAILED;
use crate::random::Random;
use crate::tally::Tally;
use crate::telegram::{implicit, sealed, Kind, Level};
use crate::unseen::{rank, single_bits, unseen};
use crate::words::hex;

/// 5.1.3.4: how many implicit bytes stand before a telegram under its check word, and which of them the number gives.
const IMPLICIT: usize = 8;
const NUMBER: [usize; 3] = [5, 6, 7];

/// How many telegrams each limit is run with at each level, each a byte longer than the one before.
const TELEGRAMS: usize = 200;

/// A telegram that passes, and what comes of it and passes too.
struct Missed {
    sent: Good,
    taken: Good,
}

impl Missed {
    /// How many neighbouring bytes hold all that are changed.
    fn spread(&self) -> usize {
        let differs = |index: &usize| self.sent.telegram[*index] != self.taken.telegram[*index];
        let indices = 0..self.sent.telegram.len();
        match (indices.clone().find(differs), indices.rev().find(differs)) {
            (Some(first), Some(last)) => last + 1 - first,
            _ => 0,
        }
    }

    /// Which of the three conditions of the promise hold: changes within as many neighbouring bytes as the check word has, the same expected number, the same
    /// command.
    fn conditions(&self, level: Level) -> [bool; 3] {
        [
            (1..=level.generator().bytes()).contains(&self.spread()),
            self.sent.expected == self.taken.expected,
            self.sent.telegram[COMMAND] == self.taken.telegram[COMMAND],
        ]
    }

    /// Prints both telegrams, with the end and the numbers expected.
    fn print(&self, what: &str) {
        let [own, partner, partner_sap, local_sap, level] = self.sent.end.numbers();
        println!(
            "{:<11}SL {level}, {what}: two that pass under own {own}, partner {partner}, its SAP {partner_sap}, local SAP {local_sap}",
            "run"
        );
        for good in [&self.sent, &self.taken] {
            println!("{:<11}  expected {:08X}  {}", "", good.expected, hex(&good.telegram));
        }
    }
}

/// A case in which one condition of the promise doesn't hold, and damage is not found.
struct Limit {
    what: &'static str,
    /// A case of it, with so many bytes more than the shortest has.
    made: fn(Level, usize, &mut Random) -> Missed,
    /// Which conditions hold.
    conditions: [bool; 3],
}

/// One for each condition.
const LIMITS: [Limit; 3] = [
    Limit {
        what: "another expected number",
        made: other_number,
        conditions: [true, false, true],
    },
    Limit {
        what: "changed before the check word and in it",
        made: word_made_anew,
        conditions: [false, true, true],
    },
    Limit {
        what: "data that comes as a request",
        made: data_as_request,
        conditions: [true, true, false],
    },
];

/// Another expected number with the same lowest byte: a change of as many bytes as the check word has makes up for it.
fn other_number(level: Level, more: usize, random: &mut Random) -> Missed {
    let count = level.generator().bytes();
    let sent = data_telegram(level, count + more, random);
    let mut taken = sent.clone();
    taken.expected ^= (1 + random.upto(0xFF_FFFE) as u32) << 8;
    let (length, way) = (sent.telegram.len(), sent.end.receiving());
    let mut difference = implicit(length, way, sent.expected);
    change(&mut difference, 0, &implicit(length, way, taken.expected));
    difference.resize(IMPLICIT + length - count, 0);
    let start = IMPLICIT + place_in_net(level, &sent.telegram, count, random);
    let free: Vec<usize> = (start..start + count).collect();
    let difference = unseen(level.generator(), difference, &free).expect("a change that makes up for the number");
    change(&mut taken.telegram, 0, &difference[IMPLICIT..]);
    Missed { sent, taken }
}

/// One byte of net data changed, and the check word made anew.
fn word_made_anew(level: Level, more: usize, random: &mut Random) -> Missed {
    let sent = data_telegram(level, 1 + more, random);
    let place = place_in_net(level, &sent.telegram, 1, random);
    let mut body = sent.telegram[..sent.telegram.len() - level.generator().bytes()].to_vec();
    body[place] ^= 1 + random.upto(254) as u8;
    let telegram = sealed(level, sent.end.receiving(), sent.expected, &body);
    let taken = Good { telegram, ..sent };
    Missed { sent, taken }
}

/// Data that comes as a request, with the command among the first bytes, which are changed. A request is checked with its own random number, and so the upper
/// bytes of the number are free as well.
fn data_as_request(level: Level, more: usize, random: &mut Random) -> Missed {
    let (generator, kind) = (level.generator(), Kind::Request);
    let length = kind.lengths(level).start() + more;
    let mut taken = Shape { level, kind, length }.drawn(random);
    let window = (0..generator.bytes()).filter(|byte| *byte != COMMAND);
    let free: Vec<usize> = NUMBER.into_iter().chain(window.map(|byte| IMPLICIT + byte)).collect();
    let mut difference = vec![0; IMPLICIT + length - generator.bytes()];
    free.iter().for_each(|byte| difference[*byte] = random.next() as u8);
    difference[IMPLICIT + COMMAND] = data_command(random) as u8;
    let difference = unseen(generator, difference, &free).expect("data that comes as this request");
    let mut sent = taken.clone();
    change(&mut sent.telegram, 0, &difference[IMPLICIT..]);
    let upper = [0, 1, 2].map(|k| taken.telegram[3 + k] ^ difference[NUMBER[k]]);
    sent.expected = u32::from_le_bytes([sent.telegram[0], upper[0], upper[1], upper[2]]);
    taken.expected = sent.expected;
    Missed { sent, taken }
}

/// Runs a limit at a level, and prints its shortest case.
fn run(limit: &Limit, level: Level, random: &mut Random, tally: &mut Tally) {
    for more in 0..TELEGRAMS {
        let missed = (limit.made)(level, more, random);
        tally.drawn(1);
        missed.sent.hold_passes(tally);
        missed.taken.hold_passes(tally);
        tally.hold(missed.conditions(level) == limit.conditions, || {
            format!("{}: {:?} hold: {}", limit.what, missed.conditions(level), missed.taken.tell())
        });
        if more == 0 {
            missed.print(limit.what);
        }
    }
}

/// A change of a request or confirm that keeps its check word right, and the clause that finds it all the same.
struct Kept {
    level: Level,
    /// The index of the first byte.
    start: usize,
    bits: &'static [u8],
    found_by: Clause,
}

/// Those within as many neighbouring bytes as the check word has. Byte 3, the lowest of the random number, is byte 1 no more; or the idle time, bytes 7..8, is no
/// multiple of 100 any more.
#[rustfmt::skip]
const KEEP_THE_WORD: [Kept; 5] = [
    Kept { level: Level::Sl4, start: 2, bits: &[0x52, 0xEF, 0xDD, 0x8D, 0x3B, 0x69], found_by: Clause::Number },
    Kept { level: Level::Sl2, start: 2, bits: &[0x36, 0xAD, 0xEB, 0xA1], found_by: Clause::Number },
    Kept { level: Level::Sl2, start: 4, bits: &[0x06, 0x29, 0x5F, 0x72], found_by: Clause::Fields },
    Kept { level: Level::Sl2, start: 4, bits: &[0x0A, 0x7B, 0xE1, 0x96], found_by: Clause::Fields },
    Kept { level: Level::Sl2, start: 4, bits: &[0x0C, 0x52, 0xBE, 0xE4], found_by: Clause::Fields },
];

/// The places of the random number's upper bytes, which are implicit bytes too, among the twelve bytes of a request's header.
const ECHOED: [usize; 3] = [3, 4, 5];

/// How many changes there are in as many neighbouring bytes of a request's or confirm's header from this one on, its command left, that keep its check word right.
fn keeping_the_word(level: Level, start: usize) -> usize {
    let generator = level.generator();
    let window: Vec<usize> = (start..start + generator.bytes()).filter(|byte| *byte != COMMAND).collect();
    let changes = single_bits(Kind::Request.header(), &window).map(|change| [ECHOED.map(|byte| change[byte]).as_slice(), &change].concat());
    (1 << (8 * window.len() - rank(generator, changes))) - 1
}

/// There are just those that are named: each is as long as the window, and so lies in one window only.
fn hold_no_others(tally: &mut Tally) {
    for level in LEVELS {
        for start in 0..=Kind::Request.header() - level.generator().bytes() {
            let named = KEEP_THE_WORD.iter().filter(|kept| kept.level == level && kept.start == start).count();
            let counted = keeping_the_word(level, start);
            tally.hold(counted == named, || {
                format!("{level:?}: {counted} changes from byte {} on keep the word, {named} are named", start + 1)
            });
        }
    }
}

/// A telegram with such a change fails, and by that clause, while its check word agrees.
fn found_without_the_word(kept: &Kept, kind: Kind, length: usize, random: &mut Random, tally: &mut Tally) {
    let level = kept.level;
    let mut good = Shape { level, kind, length }.drawn(random);
    good.hold_passes(tally);
    change(&mut good.telegram, kept.start, kept.bits);
    let library = library::check(&good.end, good.expected, &good.telegram);
    let second = check(&good.end, good.expected, &good.telegram);
    let word_alone = check_by(&[Clause::Word], &good.end, good.expected, &good.telegram);
    tally.hold(
        (library, second, word_alone) == (FAILED, Verdict::Fails(kept.found_by), Verdict::Passes),
        || format!("{library}, {second:?}, by the word alone {word_alone:?}: {}", good.tell()),
    );
}

/// The limits at each level; then requests and confirms of each length.
pub fn compare(tally: &mut Tally) {
    let mut random = Random(SEED ^ 2 << 32);
    for limit in LIMITS {
        LEVELS.into_iter().for_each(|level| run(&limit, level, &mut random, tally));
    }
    tally.told("damage, not promised: another expected number, a check word made anew, another command; by both programs, which pass");
    hold_no_others(tally);
    for kept in KEEP_THE_WORD {
        for kind in [Kind::Request, Kind::Confirm] {
            for length in kind.lengths(kept.level) {
                found_without_the_word(&kept, kind, length, &mut random, tally);
            }
        }
    }
    tally.told("damage, request and confirm: the five changes, and no others, that keep the check word right fail by the number or the idle time");
}
