//! The check word: the library against the papers' vectors and against the second program, and the proved facts run on random strings, so that a reader
//! sees numbers.

use crate::library;
use crate::random::Random;
use crate::tally::Tally;
use crate::vectors::{vectors as published, Vector};
use crate::word::{word, word_bytes, ByBytes, Generator, SL2, SL4};
use std::thread;

const SEED: u64 = 0x5355_4253_4554_3537;
const LEVELS: [Generator; 2] = [SL4, SL2];

/// The random strings: a thread for each seed, so many strings of each, up to so many bytes. On the first ones of each seed the second program's word by
/// bytes is held to its word bit by bit.
const STRING_SEEDS: [u64; 2] = [SEED, SEED + 4];
const STRINGS_OF_A_SEED: usize = 500_000;
const LONGEST_STRING: usize = 4096;
const BIT_BY_BIT_OF_A_SEED: usize = 10_000;

/// The library's word at a level over two runs.
fn library_word(generator: Generator, first: &[u8], second: &[u8]) -> u64 {
    if generator.width == 48 {
        library::word48(first, second)
    } else {
        library::word32(first, second)
    }
}

/// The library's word of one string, cut at `cut`.
fn library_cut(generator: Generator, message: &[u8], cut: usize) -> u64 {
    library_word(generator, &message[..cut], &message[cut..])
}

pub fn hex(bytes: &[u8]) -> String {
    bytes.iter().map(|b| format!("{b:02X}")).collect::<Vec<_>>().join(" ")
}

fn low_bytes(number: u64, count: usize) -> Vec<u8> {
    number.to_be_bytes()[8 - count..].to_vec()
}

/// Each published vector: as printed, by the library, by the second program; then at every cut into two runs.
pub fn vectors(tally: &mut Tally) {
    println!("{:<11}{:<31}{:<19}{:<19}second program", "clause", "", "printed", "library");
    for v in published() {
        tally.printed();
        let message = [v.implicit, v.telegram].concat();
        let count = v.generator.bytes();
        let library = low_bytes(library_word(v.generator, v.implicit, v.telegram), count);
        let second = word_bytes(v.generator, &message);
        println!(
            "{:<11}{:<31}{:<19}{:<19}{}",
            v.clause,
            v.what,
            hex(v.printed),
            hex(&library),
            hex(&second)
        );
        tally.hold(library == v.printed, || format!("the library at {}, {}", v.clause, v.what));
        tally.hold(second == v.printed, || format!("the second program at {}, {}", v.clause, v.what));
        for cut in 0..=message.len() {
            let library = low_bytes(library_cut(v.generator, &message, cut), count);
            tally.hold(library == v.printed, || format!("the library at {}, cut at {cut}", v.clause));
        }
    }
    tally.told("published vectors: each by both programs, and by the library at every cut into two runs");
}

/// The vectors tell each of these wrong words from the right one: so the comparison above can fail.
pub fn wrong_words_are_seen(tally: &mut Tally) {
    const WITHOUT_47: Generator = Generator {
        width: 48,
        exponents: &[
            48, 46, 44, 41, 39, 35, 34, 32, 31, 29, 28, 25, 24, 23, 22, 21, 20, 19, 17, 14, 11, 9, 7, 5, 3, 2, 0,
        ],
    };
    let started_at_ones = |v: &Vector| {
        // A register of ones at the start is the exclusive-or of the message's first bytes with ones.
        let mut message = [v.implicit, v.telegram].concat();
        message.iter_mut().take(v.generator.bytes()).for_each(|b| *b ^= 0xFF);
        word_bytes(v.generator, &message)
    };
    let lowest_bit_first = |v: &Vector| {
        let message: Vec<u8> = [v.implicit, v.telegram].concat().iter().map(|b| b.reverse_bits()).collect();
        word_bytes(v.generator, &message)
    };
    let wrong: [(&str, &dyn Fn(&Vector) -> Vec<u8>); 5] = [
        ("a constant word", &|v| vec![0; v.generator.bytes()]),
        ("an exponent missing", &|v| {
            let generator = if v.generator.width == 48 { WITHOUT_47 } else { v.generator };
            word_bytes(generator, &[v.implicit, v.telegram].concat())
        }),
        ("the register started at all ones", &started_at_ones),
        ("lowest bit first", &lowest_bit_first),
        ("the second run left out", &|v| word_bytes(v.generator, v.implicit)),
    ];
    for (what, wrong) in wrong {
        let seen = published().iter().any(|v| wrong(v) != v.printed);
        tally.hold(seen, || format!("no vector sees {what}"));
    }
    tally.told("wrong words: each is seen by a vector");
}

/// Every byte value at every place of every length up to 64, the other bytes 0, in one run and cut in the middle; and the empty string, which gives 0.
pub fn single_bytes(tally: &mut Tally) {
    for generator in LEVELS {
        tally.hold(library_word(generator, &[], &[]) == 0, || "the word of nothing".to_string());
        for length in 1..=64 {
            for place in 0..length {
                for value in 0..=255 {
                    let mut message = vec![0u8; length];
                    message[place] = value;
                    let second = word(generator, &message);
                    for cut in [0, length / 2] {
                        tally.hold(library_cut(generator, &message, cut) == second, || {
                            format!("{} bits, cut at {cut}: {}", generator.width, hex(&message))
                        });
                    }
                }
            }
        }
    }
    tally.told("single bytes: every value at every place of every length up to 64, in one run and cut in the middle, both widths");
}

/// The second program's word by bytes is its word bit by bit: of each byte, and of each published vector, at both widths. Some of the random strings hold
/// it too.
pub fn by_bytes(tally: &mut Tally) {
    for generator in LEVELS {
        let by_bytes = ByBytes::new(generator);
        let mut hold = |message: &[u8]| {
            tally.hold(by_bytes.word(message) == word(generator, message), || {
                format!("{} bits, by bytes: {}", generator.width, hex(message))
            })
        };
        (0..=255).for_each(|byte| hold(&[byte]));
        published().iter().for_each(|v| hold(&[v.implicit, v.telegram].concat()));
    }
    tally.told("second program by bytes: its word bit by bit, of every byte and every published vector, both widths");
}

/// The random strings of a seed.
fn strings_of(seed: u64) -> Tally {
    let mut tally = Tally::default();
    let mut random = Random(seed);
    let levels = LEVELS.map(|generator| (generator, ByBytes::new(generator)));
    for n in 0..STRINGS_OF_A_SEED {
        let length = random.upto(LONGEST_STRING);
        let message = random.bytes(length);
        let cut = random.upto(length);
        tally.drawn(1);
        for (generator, by_bytes) in &levels {
            let second = by_bytes.word(&message);
            tally.hold(library_cut(*generator, &message, cut) == second, || {
                format!("{} bits, cut at {cut}: {}", generator.width, hex(&message))
            });
            if n < BIT_BY_BIT_OF_A_SEED {
                tally.hold(second == word(*generator, &message), || {
                    format!("{} bits, by bytes: {}", generator.width, hex(&message))
                });
            }
        }
    }
    tally
}

pub fn random_strings(tally: &mut Tally) {
    thread::scope(|scope| {
        let threads = STRING_SEEDS.map(|seed| scope.spawn(move || strings_of(seed)));
        threads
            .into_iter()
            .for_each(|thread| tally.add(thread.join().expect("a thread that comes to its end")));
    });
    let ([first, second], seeds) = (STRING_SEEDS, STRING_SEEDS.len());
    tally.told(&format!(
        "random strings: {} of 0 to {LONGEST_STRING} bytes, cut at random into two runs, both widths, {} bit by bit too (seeds {first:#x}, {second:#x})",
        seeds * STRINGS_OF_A_SEED,
        seeds * BIT_BY_BIT_OF_A_SEED
    ));
}

fn xor(a: &[u8], b: &[u8]) -> Vec<u8> {
    a.iter().zip(b).map(|(x, y)| x ^ y).collect()
}

/// The law, and what follows: the exclusive-or of two words depends only on the exclusive-or of the strings.
pub fn law(tally: &mut Tally) {
    let mut random = Random(SEED + 1);
    for _ in 0..10_000 {
        let length = random.upto(252);
        let [a, b, c] = [random.bytes(length), random.bytes(length), random.bytes(length)];
        let d = xor(&c, &xor(&a, &b));
        tally.drawn(1);
        for generator in LEVELS {
            let of = |s: &[u8]| library_cut(generator, s, length / 3);
            tally.hold(of(&a) ^ of(&b) == of(&xor(&a, &b)), || format!("the law at {} and {}", hex(&a), hex(&b)));
            tally.hold(of(&a) ^ of(&b) == of(&c) ^ of(&d), || {
                format!("equal exclusive-ors at {}, {}, {}, {}", hex(&a), hex(&b), hex(&c), hex(&d))
            });
        }
    }
    tally.told("law: 10000 random pairs, and pairs of pairs with equal exclusive-ors, both widths");
}

/// The burst fact: strings that differ only within as many neighbouring bytes as the word has differ in their words. One byte more is too many: a
/// difference that is the generator itself is not seen.
pub fn burst(tally: &mut Tally) {
    let mut random = Random(SEED + 2);
    for _ in 0..50_000 {
        for generator in LEVELS {
            let count = generator.bytes();
            let length = count + random.upto(252 - count);
            let start = random.upto(length - count);
            let mut difference = random.bytes(count);
            // Often few bytes differ, and at least one does.
            difference.iter_mut().for_each(|b| {
                if random.next() % 2 == 0 {
                    *b = 0
                }
            });
            difference[random.upto(count - 1)] |= 1 << random.upto(7);
            let a = random.bytes(length);
            let mut b = a.clone();
            (0..count).for_each(|k| b[start + k] ^= difference[k]);
            tally.drawn(1);
            tally.hold(library_cut(generator, &a, start) != library_cut(generator, &b, start), || {
                format!("{} bits: {} and {}", generator.width, hex(&a), hex(&b))
            });
        }
    }
    tally.told("burst: pairs that differ within 6 (48 bits) or 4 (32 bits) neighbouring bytes have different words");
    for generator in LEVELS {
        let a = random.bytes(252);
        let mut b = a.clone();
        let unseen = low_bytes(generator.terms(), generator.bytes() + 1);
        unseen.iter().enumerate().for_each(|(k, x)| b[100 + k] ^= x);
        tally.hold(a != b && library_cut(generator, &a, 8) == library_cut(generator, &b, 8), || {
            "the generator as a difference is seen".to_string()
        });
    }
    tally.told("burst, one byte more: pairs that differ by the generator itself have one word, so the bound is sharp");
}

/// 10.2.1.2: the message with its check word leaves 0, and with any other check word it doesn't.
pub fn whole_message(tally: &mut Tally) {
    let mut random = Random(SEED + 3);
    for _ in 0..10_000 {
        let length = random.upto(240);
        let message = random.bytes(length);
        tally.drawn(1);
        for generator in LEVELS {
            let check = low_bytes(library_cut(generator, &message, length / 2), generator.bytes());
            tally.hold(library_word(generator, &message, &check) == 0, || format!("not 0: {}", hex(&message)));
            let mut other = check.clone();
            other[random.upto(check.len() - 1)] ^= 1 << random.upto(7);
            tally.hold(library_word(generator, &message, &other) != 0, || {
                format!("0 with a changed word: {}", hex(&message))
            });
        }
    }
    tally.told("whole message: 10000 leave 0 with their check word, and not with a changed one, both widths");
}
