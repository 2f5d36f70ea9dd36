//! Checks that are wrong in their check word, each with the damage that must show it: so the runs of damage can fail. Each takes the telegrams that it would seal
//! itself.

use crate::check::Clause;
use crate::damage;
use crate::damage_telegrams::{data_telegram, Good, LEVELS, SEED};
use crate::random::Random;
use crate::tally::Tally;
use crate::telegram::{implicit, Level};
use crate::word::{word_bytes, Generator};
use crate::wrong::check_without;

/// How many net data the damaged telegrams have, and how many bursts they get.
const NET: usize = 20;
const BURSTS: usize = 5_000;

/// The sorts of damage that are run.
#[derive(Clone, Copy)]
enum Damage {
    SingleBits,
    PairsOfBits,
    Bursts,
}

/// A check that asks the clauses of the right one, but for its own check word.
struct Check {
    what: &'static str,
    seen_by: Damage,
    /// The check word of a level over the implicit bytes and the telegram before it.
    word: fn(Level, &[u8]) -> Vec<u8>,
    /// The bytes of the check word that are compared.
    compared: fn(&[u8]) -> &[u8],
}

/// The check word of section 10.
fn right_word(level: Level, covered: &[u8]) -> Vec<u8> {
    word_bytes(level.generator(), covered)
}

/// What a wrong check is where it doesn't say otherwise.
const RIGHT: Check = Check {
    what: "the right check",
    seen_by: Damage::SingleBits,
    word: right_word,
    compared: |word| word,
};

/// The generators of section 10 without their constant terms.
const WITHOUT_CONSTANT: [Generator; 2] = [
    Generator {
        width: 48,
        exponents: &[
            48, 47, 46, 44, 41, 39, 35, 34, 32, 31, 29, 28, 25, 24, 23, 22, 21, 20, 19, 17, 14, 11, 9, 7, 5, 3, 2,
        ],
    },
    Generator {
        width: 32,
        exponents: &[32, 30, 27, 25, 22, 20, 13, 12, 11, 10, 8, 7, 6, 5, 4],
    },
];

/// The wrong ones. The damage that shows one is single bits where it doesn't say otherwise.
const WRONG: [Check; 5] = [
    Check {
        what: "the last byte of the check word not compared",
        compared: |word| &word[..word.len() - 1],
        ..RIGHT
    },
    Check {
        what: "only the lowest 32 bits compared at SL 4",
        compared: |word| &word[word.len() - 4..],
        ..RIGHT
    },
    Check {
        what: "the last byte before the check word not covered",
        word: |level, covered| right_word(level, &covered[..covered.len() - 1]),
        ..RIGHT
    },
    Check {
        what: "the exclusive-or of all bytes as each byte of the check word",
        seen_by: Damage::PairsOfBits,
        word: |level, covered| vec![covered.iter().fold(0, |sum, byte| sum ^ byte); level.generator().bytes()],
        ..RIGHT
    },
    Check {
        what: "a generator without its constant term",
        seen_by: Damage::Bursts,
        word: |level, covered| word_bytes(WITHOUT_CONSTANT[level as usize], covered),
        ..RIGHT
    },
];

impl Check {
    /// The check word that it asks for behind this data telegram, and the one that stands there.
    fn words<'a>(&self, level: Level, good: &Good, telegram: &'a [u8]) -> (Vec<u8>, &'a [u8]) {
        let (before, word) = telegram.split_at(telegram.len() - level.generator().bytes());
        let implicit = implicit(telegram.len(), good.end.receiving(), good.expected);
        ((self.word)(level, &[&implicit, before].concat()), word)
    }

    /// Whether it passes this data telegram under the end and the expected number of the good one.
    fn passes(&self, level: Level, good: &Good, telegram: &[u8]) -> bool {
        let (asked, word) = self.words(level, good, telegram);
        (self.compared)(&asked) == (self.compared)(word) && check_without(Clause::Word, &good.end, good.expected, telegram) == 0
    }

    /// Whether it passes a telegram of its own with such damage at some level.
    fn misses(&self, damage: Damage) -> bool {
        let mut random = Random(SEED ^ 3 << 32);
        let mut missed = false;
        for level in LEVELS {
            let good = data_telegram(level, NET, &mut random);
            let (mut telegram, (asked, _)) = (good.telegram.clone(), self.words(level, &good, &good.telegram));
            let word = telegram.len() - asked.len();
            telegram[word..].copy_from_slice(&asked);
            let mut look = |damaged: &[u8]| missed |= self.passes(level, &good, damaged);
            match damage {
                Damage::SingleBits => damage::single_bits(&mut telegram, look),
                Damage::PairsOfBits => damage::pairs_of_bits(level, &mut telegram, look),
                Damage::Bursts => damage::bursts(level, &mut telegram, BURSTS, &mut random, |_, damaged| look(damaged)),
            }
        }
        missed
    }
}

/// Each wrong check misses damage of the sort that is named with it, and the right one none.
pub fn are_seen(tally: &mut Tally) {
    for wrong in WRONG {
        tally.hold(wrong.misses(wrong.seen_by), || format!("no case sees {}", wrong.what));
    }
    for damage in [Damage::SingleBits, Damage::PairsOfBits, Damage::Bursts] {
        tally.hold(!RIGHT.misses(damage), || format!("{} misses damage", RIGHT.what));
    }
    tally.told("wrong checks: each misses some damage of those below, and the right one none");
}
