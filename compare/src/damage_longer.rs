//! Bursts of one byte more than the check word has, in the net data of data. Nearly all are found, and just those are missed that the generator divides.

use crate::damage::change;
use crate::damage_telegrams::{data_telegram, place_in_net, LEVELS, SEED};
use crate::library;
use crate::program::FAILED;
use crate::random::Random;
use crate::tally::Tally;
use crate::telegram::Level;
use crate::unseen::{rank, single_bits};
use crate::word::{word, Generator};

/// How many telegrams are drawn at each level, and how many bursts in each.
const TELEGRAMS: usize = 100;
const BURSTS: usize = 1_000;
/// How many telegrams each burst that is missed is put into.
const MISSED_IN: usize = 10;
/// The most net data besides the changed bytes.
const MORE_NET: usize = 200;

/// A change of so many bytes by which the first and the last of them differ.
fn drawn_change(count: usize, random: &mut Random) -> Vec<u8> {
    let mut bits = random.bytes(count);
    for end in [0, count - 1] {
        bits[end] = 1 + random.upto(254) as u8;
    }
    bits
}

/// Random bursts: one is found unless the generator divides it. Gives how many are found.
fn drawn(level: Level, random: &mut Random, tally: &mut Tally) -> usize {
    let count = level.generator().bytes() + 1;
    let mut found = 0;
    for _ in 0..TELEGRAMS {
        let mut good = data_telegram(level, count + random.upto(MORE_NET), random);
        for _ in 0..BURSTS {
            let (start, bits) = (place_in_net(level, &good.telegram, count, random), drawn_change(count, random));
            change(&mut good.telegram, start, &bits);
            let answer = library::check(&good.end, good.expected, &good.telegram);
            let demanded = if word(level.generator(), &bits) == 0 { 0 } else { FAILED };
            tally.hold(answer == demanded, || format!("a longer burst: {answer}: {}", good.tell()));
            found += usize::from(answer == FAILED);
            change(&mut good.telegram, start, &bits);
        }
    }
    tally.drawn(TELEGRAMS * BURSTS);
    found
}

/// The products of the generator with each polynomial of degree 7 at most but 0, as changes of one byte more than the check word has.
fn products(generator: Generator) -> impl Iterator<Item = Vec<u8>> {
    (1..=255u8).map(move |factor| {
        let shifts = (0..8).filter(|shift| factor >> shift & 1 == 1);
        let product = shifts.fold(0, |sum, shift| sum ^ generator.terms() << shift);
        product.to_be_bytes()[7 - generator.bytes()..].to_vec()
    })
}

/// The products are missed, and nothing else is: as the words of the bits of a burst have the width of the check word for their rank, 8 bits are left, and 2^8
/// changes have the word 0, the products and no change at all.
fn missed(level: Level, random: &mut Random, tally: &mut Tally) {
    let (generator, count) = (level.generator(), level.generator().bytes() + 1);
    let all: Vec<usize> = (0..count).collect();
    tally.hold(rank(generator, single_bits(count, &all)) == generator.width as usize, || {
        format!("more than 255 changes of {count} bytes are missed")
    });
    for _ in 0..MISSED_IN {
        let mut good = data_telegram(level, count + random.upto(MORE_NET), random);
        for bits in products(generator) {
            let start = place_in_net(level, &good.telegram, count, random);
            change(&mut good.telegram, start, &bits);
            good.hold_passes(tally);
            change(&mut good.telegram, start, &bits);
        }
    }
}

/// Both at each level, with the share that is found.
pub fn compare(tally: &mut Tally) {
    let mut random = Random(SEED ^ 1 << 32);
    for level in LEVELS {
        let found = drawn(level, &mut random, tally);
        missed(level, &mut random, tally);
        let count = level.generator().bytes() + 1;
        let all = format!("2^{} - 1", 8 * count);
        println!(
            "{:<11}SL {}, bursts of {count} bytes: {found} found of {} drawn; of all {all} the generator's 255 products are missed, 1 - 255 / ({all}) found",
            "run",
            level.number(),
            TELEGRAMS * BURSTS
        );
    }
    tally.told("damage, one byte more: random bursts in net data; and the generator's products, by both programs, which pass");
}
