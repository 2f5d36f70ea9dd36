//! Damage on the cable: bytes of a good telegram that come changed, while its length and its command byte stay. Damage is put into the telegram itself, looked
//! at, and taken out again.

use crate::random::Random;
use crate::telegram::Level;
use crate::word::Generator;
use std::ops::Range;

/// Byte 2 of every telegram, the command, by its index.
pub const COMMAND: usize = 1;

/// As many bytes as the longest check word has. Of a shorter change the last ones are 0.
type Change = [u8; 6];

/// Neighbouring bytes that come changed: the index of the first, and the bits that differ in each.
struct Burst {
    start: usize,
    change: Change,
}

/// Where the changed bytes of a burst lie.
#[derive(Clone, Copy)]
pub enum Place {
    BeforeWord,
    InWord,
    AcrossItsStart,
}

/// Changes bytes from an index on. The same once more takes it back.
pub fn change(telegram: &mut [u8], start: usize, bits: &[u8]) {
    telegram[start..].iter_mut().zip(bits).for_each(|(byte, bits)| *byte ^= bits);
}

/// Flips one bit, counted from the lowest of the first byte. The same once more takes it back.
fn flip(telegram: &mut [u8], bit: usize) {
    telegram[bit / 8] ^= 1 << (bit % 8);
}

/// The bits of these bytes, but for those of the command.
fn bits(bytes: Range<usize>) -> impl Iterator<Item = usize> {
    (bytes.start * 8..bytes.end * 8).filter(|bit| bit / 8 != COMMAND)
}

/// Looks at the telegram with each single bit flipped.
pub fn single_bits(telegram: &mut [u8], mut look: impl FnMut(&[u8])) {
    for bit in bits(0..telegram.len()) {
        flip(telegram, bit);
        look(telegram);
        flip(telegram, bit);
    }
}

/// Looks at the telegram with each two bits flipped that lie within as many neighbouring bytes as its check word has.
pub fn pairs_of_bits(level: Level, telegram: &mut [u8], mut look: impl FnMut(&[u8])) {
    for first in bits(0..telegram.len()) {
        let end = telegram.len().min(first / 8 + level.generator().bytes());
        flip(telegram, first);
        for second in bits(first / 8..end).filter(|second| *second > first) {
            flip(telegram, second);
            look(telegram);
            flip(telegram, second);
        }
        flip(telegram, first);
    }
}

/// Looks at the telegram with so many random bursts, one after the other.
pub fn bursts(level: Level, telegram: &mut [u8], times: usize, random: &mut Random, mut look: impl FnMut(Place, &[u8])) {
    let word = telegram.len() - level.generator().bytes();
    for _ in 0..times {
        let burst = drawn_burst(level.generator(), word, random);
        change(telegram, burst.start, &burst.change);
        look(burst.place(word), telegram);
        change(telegram, burst.start, &burst.change);
    }
}

/// A burst in a telegram whose check word starts at this index, by which at least one byte comes changed.
fn drawn_burst(generator: Generator, word: usize, random: &mut Random) -> Burst {
    loop {
        let (start, count) = drawn_window(generator.bytes(), word, random);
        let mut change = drawn_change(generator, count, random);
        if let Some(bits) = COMMAND.checked_sub(start).and_then(|command| change.get_mut(command)) {
            *bits = 0;
        }
        if change != [0; 6] {
            return Burst { start, change };
        }
    }
}

/// The index and the number of the neighbouring bytes: before the check word, the check word itself, or across its start, each as often.
fn drawn_window(most: usize, word: usize, random: &mut Random) -> (usize, usize) {
    match random.upto(2) {
        0 => (random.upto(word - most.min(word)), most.min(word)),
        1 => (word, most),
        _ => (word - 1 - random.upto(word.min(most - 1) - 1), most),
    }
}

/// What is changed in so many bytes: any bits; or few, so that some bytes stay whole; or as much of the generator's terms as has room, for the whole
/// generator is the shortest change that is missed.
fn drawn_change(generator: Generator, count: usize, random: &mut Random) -> Change {
    let any = random.next();
    let bits = match random.upto(15) {
        0 => generator.terms() >> (1 + random.upto(7)),
        1..=7 => any & random.next() & random.next(),
        _ => any,
    };
    let mut change = [0; 6];
    change[..count].copy_from_slice(&bits.to_be_bytes()[8 - count..]);
    change
}

impl Burst {
    /// The place of the bytes that do differ.
    fn place(&self, word: usize) -> Place {
        let (before, within) = self.change.split_at(word.saturating_sub(self.start).min(6));
        let differ = |bytes: &[u8]| bytes.iter().any(|bits| *bits != 0);
        match (differ(before), differ(within)) {
            (true, true) => Place::AcrossItsStart,
            (true, false) => Place::BeforeWord,
            _ => Place::InWord,
        }
    }
}
