//! The bytes of a Sync and Reference Time message: the library against the second program, and against a message that is laid out by hand.

use crate::clock_message::{laid_out, read, PREFIX};
use crate::library_clock::{self, Message, Reading, RefTime};
use crate::random::{one_of, Random};
use crate::tally::Tally;
use crate::words::hex;

const SEED: u64 = 0x7379_6E63_2035_3620;
const MESSAGES: usize = 20_000;

/// Both programs read the same from these bytes, and the answer is the one that is demanded.
fn compare(bytes: &[u8], answer: u32, tally: &mut Tally) -> Reading {
    let (library, second) = (library_clock::read(bytes), read(bytes));
    tally.hold(library == second && library.answer == answer, || {
        format!("{}\n  library: {library:X?}\n  second program: {second:X?}", hex(bytes))
    });
    library
}

fn any_message(random: &mut Random) -> Message {
    let mut number = || {
        let any = random.next() as u32;
        let byte = any >> 24 << (8 * (any % 4));
        one_of(random, &[any, any, byte, 0, u32::MAX])
    };
    Message {
        number: number(),
        reference: RefTime { ms: number() },
    }
}

/// One message as 6.3.1.9 and 6.1.1.1 have it, byte by byte: by the library, by the second program, and as that lays it out.
fn by_hand(tally: &mut Tally) {
    let bytes = [3, 0, 0, 0x04, 0x03, 0x02, 0x01, 0xDD, 0xCC, 0xBB, 0xAA];
    let message = Message {
        number: 0x0102_0304,
        reference: RefTime { ms: 0xAABB_CCDD },
    };
    println!("{:<11}{:<31}{}", "6.3.1.9", "Sync and Reference Time", hex(&bytes));
    let library = compare(&bytes, 0, tally);
    tally.hold(library.message == message, || "the message laid out by hand is read otherwise".into());
    tally.hold(laid_out(message) == bytes, || "the second program lays it out otherwise".into());
    tally.told("a Sync and Reference Time message laid out by hand: read by both programs, laid out by the second");
}

/// Runs of every length up to 40 and of lengths that are 11 in their lowest bits, with the prefix and without it.
fn lengths(random: &mut Random, tally: &mut Tally) {
    for length in (0..=40).chain([244, 256 + 11, 65_536 + 11]) {
        for _ in 0..20 {
            let mut bytes = random.bytes(length);
            let answers = if length == 11 { [202, 0] } else { [201, 201] };
            if length > 0 {
                bytes[0] |= 4;
            }
            compare(&bytes, answers[0], tally);
            bytes.iter_mut().zip(PREFIX).for_each(|(byte, prefix)| *byte = prefix);
            compare(&bytes, answers[1], tally);
        }
    }
    tally.told("bytes: runs of 0 to 40, 244, 267 and 65547 bytes, with the prefix 3, 0, 0 and without it");
}

/// Every value at every place of the prefix, the others as they should be; and the values 3 and 0 in every order.
fn prefixes(random: &mut Random, tally: &mut Tally) {
    for place in 0..PREFIX.len() {
        for value in 0..=255 {
            let mut bytes = laid_out(any_message(random));
            bytes[place] = value;
            compare(&bytes, if value == PREFIX[place] { 0 } else { 202 }, tally);
        }
    }
    for prefix in [[0, 0, 3], [0, 3, 0], [3, 3, 3], [0, 0, 0], [3, 0, 3], [3, 3, 0], [0, 3, 3]] {
        let mut bytes = laid_out(any_message(random));
        bytes[..3].copy_from_slice(&prefix);
        compare(&bytes, 202, tally);
    }
    tally.told("bytes: every value at every place of the prefix");
}

/// What the second program lays out, the library reads back; and every byte of it counts.
fn read_back(random: &mut Random, tally: &mut Tally) {
    for _ in 0..MESSAGES {
        let message = any_message(random);
        let mut bytes = laid_out(message);
        let library = compare(&bytes, 0, tally);
        tally.hold(library.message == message, || format!("{message:X?} is read back otherwise"));
        bytes[3 + random.upto(7)] ^= 1 << random.upto(7);
        let library = compare(&bytes, 0, tally);
        tally.hold(library.message != message, || format!("{message:X?} in spite of {}", hex(&bytes)));
    }
    tally.drawn(MESSAGES);
    tally.told(&format!(
        "bytes: {MESSAGES} random messages laid out by the second program are read back, and with a bit changed are others (seed {SEED:#x})"
    ));
}

pub fn compare_all(tally: &mut Tally) {
    let mut random = Random(SEED);
    by_hand(tally);
    lengths(&mut random, tally);
    prefixes(&mut random, tally);
    read_back(&mut random, tally);
}
