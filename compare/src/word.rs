//! The check word of section 10, bit by bit, as the division that 10.2.1.3 speaks of: the message with as many zero bits behind it as the check word has
//! is divided by the generator, and the remainder is the word.

/// A generator: its width, which is its degree, and its exponents as section 10 prints them.
#[derive(Clone, Copy)]
pub struct Generator {
    pub width: u32,
    pub exponents: &'static [u32],
}

/// CRC_SL4, 10.1.3.2.
pub const SL4: Generator = Generator {
    width: 48,
    exponents: &[
        48, 47, 46, 44, 41, 39, 35, 34, 32, 31, 29, 28, 25, 24, 23, 22, 21, 20, 19, 17, 14, 11, 9, 7, 5, 3, 2, 0,
    ],
};

/// CRC_SL2, 10.1.2.1.
pub const SL2: Generator = Generator {
    width: 32,
    exponents: &[32, 30, 27, 25, 22, 20, 13, 12, 11, 10, 8, 7, 6, 5, 4, 0],
};

impl Generator {
    /// The generator's terms as bits of a number, the highest included.
    pub fn terms(self) -> u64 {
        self.exponents.iter().fold(0, |terms, e| terms | 1 << e)
    }

    /// How many bytes the check word has.
    pub fn bytes(self) -> usize {
        self.width as usize / 8
    }
}

/// The remainder of the message, its bits highest first, times x^width.
pub fn word(generator: Generator, message: &[u8]) -> u64 {
    let terms = generator.terms();
    let mut remainder: u64 = 0;
    let mut take = |bit: u64| {
        remainder = remainder << 1 | bit;
        if remainder >> generator.width & 1 == 1 {
            remainder ^= terms;
        }
    };
    for byte in message {
        for place in (0..8).rev() {
            take(u64::from(byte >> place & 1));
        }
    }
    for _ in 0..generator.width {
        take(0);
    }
    remainder
}

/// The same word byte by byte, where there are too many strings to go bit by bit. `word` is the definition: the table is made by it, and `words.rs`
/// holds to it what comes of the table.
pub struct ByBytes {
    generator: Generator,
    words: [u64; 256],
}

impl ByBytes {
    pub fn new(generator: Generator) -> ByBytes {
        let mut words = [0; 256];
        words.iter_mut().zip(0..).for_each(|(of_byte, byte)| *of_byte = word(generator, &[byte]));
        ByBytes { generator, words }
    }

    /// With a byte more, the highest byte of the word so far and the new byte leave together what the table has; the word's other bytes move one place
    /// higher.
    pub fn word(&self, message: &[u8]) -> u64 {
        let above = self.generator.width - 8;
        message.iter().fold(0, |word, byte| {
            let (highest, others) = (word >> above, word & ((1 << above) - 1));
            others << 8 ^ self.words[usize::from(highest as u8 ^ byte)]
        })
    }
}

/// The word's bytes, highest first, as they stand in a telegram.
pub fn word_bytes(generator: Generator, message: &[u8]) -> Vec<u8> {
    word(generator, message).to_be_bytes()[8 - generator.bytes()..].to_vec()
}
