//! Differences of strings that their check words don't show. The exclusive-or of words is the word of the exclusive-or,
//! so the words of single bits tell those of all differences, and what is sought is found by elimination.

use crate::word::{word, Generator};

/// A difference of two strings, and its word.
type Difference = (u64, Vec<u8>);

/// Differences whose words no exclusive-or of the others gives. Each word has a highest bit that those behind it don't
/// have.
struct Independent {
    generator: Generator,
    kept: Vec<Difference>,
}

impl Independent {
    /// Those among these differences.
    fn among(generator: Generator, differences: impl Iterator<Item = Vec<u8>>) -> Independent {
        let mut independent = Independent { generator, kept: Vec::new() };
        for difference in differences {
            let rest = independent.rest(difference);
            if rest.0 != 0 {
                independent.kept.push(rest);
            }
        }
        independent
    }

    /// The difference with those that are kept taken into it, so that its word gets as short as it can.
    fn rest(&self, difference: Vec<u8>) -> Difference {
        let whole = (word(self.generator, &difference), difference);
        self.kept
            .iter()
            .fold(whole, |(word, difference), (other, bits)| match word & highest_bit(*other) {
                0 => (word, difference),
                _ => (word ^ other, difference.iter().zip(bits).map(|(a, b)| a ^ b).collect()),
            })
    }
}

/// The highest bit of a number that is not 0.
fn highest_bit(number: u64) -> u64 {
    1 << (63 - number.leading_zeros())
}

/// The single bits of these bytes in strings of this length.
pub fn single_bits(length: usize, bytes: &[usize]) -> impl Iterator<Item = Vec<u8>> + '_ {
    bytes.iter().flat_map(|byte| (0..8).map(move |bit| (*byte, bit))).map(move |(byte, bit)| {
        let mut single = vec![0; length];
        single[byte] = 1 << bit;
        single
    })
}

/// The difference changed in these bytes alone so that its word is 0, if there is such a one.
pub fn unseen(generator: Generator, difference: Vec<u8>, free: &[usize]) -> Option<Vec<u8>> {
    let (word, changed) = Independent::among(generator, single_bits(difference.len(), free)).rest(difference);
    Some(changed).filter(|_| word == 0)
}

/// How many of these differences have independent words. Each one more doubles the number of their exclusive-ors whose
/// word is 0.
pub fn rank(generator: Generator, differences: impl Iterator<Item = Vec<u8>>) -> usize {
    Independent::among(generator, differences).kept.len()
}
