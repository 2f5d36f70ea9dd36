//! Random cases: calls of the writers with good and bad values, and telegrams to check that are good, damaged, of random bytes under a right check word, or
//! random throughout.

use crate::case::{Case, Demand};
use crate::program::FAILED;
use crate::random::Random;
use crate::telegram::{sealed, End, Kind, Level, Telegram};

/// Whether the values of a call are all good, or each is bad once in twenty times.
#[derive(Clone, Copy, PartialEq)]
enum Values {
    Good,
    Mixed,
}

impl Values {
    fn is_bad(self, random: &mut Random) -> bool {
        self == Values::Mixed && random.upto(19) == 0
    }
}

fn one_of(random: &mut Random, values: &[u32]) -> u32 {
    values[random.upto(values.len() - 1)]
}

/// A number from 0 to `most`, often at one of the two limits. A bad one is just over, or would wrap into a good one, or is any.
fn number_upto(random: &mut Random, values: Values, most: u32) -> u32 {
    let any = random.upto(most as usize) as u32;
    let good = one_of(random, &[0, most, any, any, any, any, any]);
    let over = (random.next() as u32).max(most + 1);
    match values.is_bad(random) {
        false => good,
        true => one_of(random, &[most + 1, most + 2, good + 0x100, good + 0x1_0000, over, u32::MAX]),
    }
}

fn level(random: &mut Random, values: Values) -> u32 {
    match values.is_bad(random) {
        false => one_of(random, &[2, 4]),
        true => one_of(random, &[0, 1, 3, 5, 8, 256, 258, 260, u32::MAX]),
    }
}

fn idle_time(random: &mut Random, values: Values) -> u32 {
    let good = 100 * number_upto(random, Values::Good, 655);
    match values.is_bad(random) {
        false => good,
        true => one_of(random, &[good + 1, good + 50, good + 99, good + 0x1_0000, 65535, 65600, u32::MAX]),
    }
}

fn reason(random: &mut Random, values: Values) -> u32 {
    let own = number_upto(random, Values::Good, 0x07);
    let upper = 0x1F + number_upto(random, Values::Good, 0x21);
    match values.is_bad(random) {
        false => one_of(random, &[own, upper]),
        true => one_of(random, &[0x08, 0x1E, 0x41, 0xFF, 0x100 + own, 0x100 + upper, u32::MAX]),
    }
}

fn data_command(random: &mut Random, values: Values) -> u32 {
    let upper = 0x20 + number_upto(random, Values::Good, 0x1F);
    match values.is_bad(random) {
        false => one_of(random, &[0x09, upper]),
        true => one_of(random, &[0x00, 0x06, 0x08, 0x0A, 0x0D, 0x1F, 0x40, upper + 0x80, upper + 0x100, u32::MAX]),
    }
}

/// Net data or text, mostly short, often of the greatest length or near it, and bad ones longer.
fn net(random: &mut Random, values: Values, most: usize) -> Vec<u8> {
    let short = random.upto(most.min(24));
    let any = random.upto(most);
    let length = match values.is_bad(random) {
        false => [most, most - 1, any, short, short, short, short, short][random.upto(7)],
        true => most + 1 + random.upto(60),
    };
    random.bytes(length)
}

/// A sequence number or a number received, often with a byte about to carry over.
fn sequence_number(random: &mut Random) -> u32 {
    let any = random.next() as u32;
    one_of(
        random,
        &[any, any, any, any | 0xFF, any & 0xFF, 0, 1, 0xFF, 0x100, u32::MAX - 1, u32::MAX],
    )
}

fn end(random: &mut Random, values: Values) -> End {
    End {
        own: number_upto(random, values, 126),
        partner: number_upto(random, values, 126),
        partner_sap: number_upto(random, values, 62),
        local_sap: number_upto(random, values, 62),
        level: level(random, values),
    }
}

fn telegram(random: &mut Random, values: Values, level: Level) -> Telegram {
    let number = sequence_number(random);
    let received = sequence_number(random);
    // What a telegram of 244 bytes leaves for the net data, behind 12 bytes and behind 2.
    let most = 244 - level.generator().bytes();
    match random.upto(6) {
        0 => Telegram::request(number, idle_time(random, values), net(random, values, most - 12)),
        1 => Telegram::confirm(number, idle_time(random, values), net(random, values, most - 12)),
        2 => Telegram::authentication(number, received),
        3 => Telegram::acknowledgement(number, received),
        4 => Telegram::disconnect(number, number_upto(random, values, 1), reason(random, values), net(random, values, 40)),
        5 => Telegram::idle(number),
        _ => Telegram::data(number, data_command(random, values), net(random, values, most - 2)),
    }
}

/// A call of a writer into a buffer of random bytes, which mostly has room.
pub fn write(random: &mut Random) -> Case {
    let end = end(random, Values::Mixed);
    let level = Level::named(end.level).unwrap_or(Level::Sl4);
    let telegram = telegram(random, Values::Mixed, level);
    let [small, large] = [random.upto(243), 244 + random.upto(56)];
    let room = [small, 243, 244, 244, 244, 244, large, large, large, large][random.upto(9)];
    Case::write(end, telegram, random.bytes(room), Demand::Agree)
}

/// A good telegram: the end that is to check it, the telegram, and its bytes.
fn good(random: &mut Random) -> (End, Telegram, Vec<u8>) {
    let end = end(random, Values::Good);
    let level = if end.level == 4 { Level::Sl4 } else { Level::Sl2 };
    let telegram = telegram(random, Values::Good, level);
    let bytes = sealed(level, end.receiving(), telegram.number(), &telegram.body(level));
    (end, telegram, bytes)
}

/// A good telegram with the right number expected, or a wrong one. That matters for all but requests and confirms.
pub fn right_or_wrong_number(random: &mut Random) -> Case {
    let (end, telegram, bytes) = good(random);
    let number = telegram.number();
    let any = random.next() as u32;
    let one_bit = number ^ 1 << random.upto(31);
    let expected = one_of(random, &[number, number, number, number.wrapping_add(256), one_bit, any]);
    let right = expected == number || matches!(telegram.kind(), Kind::Request | Kind::Confirm);
    Case::check(end, expected, bytes, Demand::Answer(if right { 0 } else { FAILED }))
}

/// A good telegram of which the end is cut off, or that goes on, or comes to another end, or of which some bytes are changed.
pub fn damaged(random: &mut Random) -> Case {
    let (mut receiver, telegram, mut bytes) = good(random);
    match random.upto(5) {
        0 => bytes.truncate(random.upto(bytes.len())),
        1 => bytes.extend(random.next().to_le_bytes()),
        2 => receiver = end(random, Values::Mixed),
        _ => {
            for _ in 0..=random.upto(5) {
                let place = random.upto(bytes.len() - 1);
                bytes[place] ^= random.next() as u8;
            }
        }
    }
    Case::check(receiver, telegram.number(), bytes, Demand::Agree)
}

/// Random bytes under a right check word. The command, byte 1, the fields and the length are often good.
pub fn random_under_word(random: &mut Random) -> Case {
    let end = end(random, Values::Mixed);
    let level = Level::named(end.level).unwrap_or(Level::Sl2);
    let expected = sequence_number(random);
    let length = [2, 4, 6, 12 + random.upto(8), 2 + random.upto(44), 2 + random.upto(238)][random.upto(5)];
    let mut body = random.bytes(length);
    if random.upto(7) > 0 {
        body[0] = expected as u8;
    }
    if random.upto(3) > 0 {
        let first = if level == Level::Sl4 { 0x80 } else { 0x00 };
        body[1] = first + one_of(random, &[0x00, 0x02, 0x03, 0x04, 0x05, 0x06, 0x09, 0x20, 0x3F]) as u8;
    }
    if length >= 12 && random.upto(3) > 0 {
        body[2..6].copy_from_slice(&expected.to_le_bytes());
        body[6..8].copy_from_slice(&idle_time(random, Values::Mixed).to_le_bytes()[..2]);
        body[11] = random.upto(2) as u8;
    } else if length >= 4 {
        body[2] = random.upto(2) as u8;
    }
    let telegram = sealed(level, end.receiving(), expected, &body);
    Case::check(end, expected, telegram, Demand::Agree)
}

/// Random bytes, often with a right byte 1 and one of a few commands.
pub fn random_bytes(random: &mut Random) -> Case {
    let end = end(random, Values::Mixed);
    let expected = sequence_number(random);
    let length = [random.upto(12), random.upto(60), random.upto(260)][random.upto(2)];
    let mut telegram = random.bytes(length);
    if length >= 2 && random.upto(1) == 0 {
        telegram[0] = expected as u8;
        telegram[1] &= 0x86;
    }
    Case::check(end, expected, telegram, Demand::Agree)
}
