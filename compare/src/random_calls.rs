//! What the random runs are made of: calls with random values, good and spoilt, times around a record's limits, and what a bus does to a telegram.

use crate::check::field;
use crate::link_call::{Call, Naming};
use crate::link_step::Record;
use crate::random::{once_in, one_of, Random};
use crate::telegram::{sealed, Level};

/// A random number to be lent, often just before the numbers wrap.
fn lent(random: &mut Random) -> u32 {
    let any = random.next() as u32;
    let last = u32::MAX - random.upto(20) as u32;
    one_of(random, &[any, any, any, any | 0xFF, last, last, 0])
}

fn idle_time(random: &mut Random) -> Naming {
    let any = 100 * random.upto(655) as u32;
    Naming {
        named: one_of(random, &[0, 1, 1, 1, 2, 256]),
        idle_time: one_of(random, &[0, 100, 200, 500, 1000, 3000, 65500, any]),
    }
}

/// Net data, mostly short, sometimes as long as may be.
pub fn net(most: usize, random: &mut Random) -> Vec<u8> {
    let length = match random.upto(19) {
        0 => most,
        1 => random.upto(most),
        _ => random.upto(12),
    };
    random.bytes(length)
}

/// The longest net data of request and confirm, and of data.
fn most_net(level: u32) -> (usize, usize) {
    if level == 4 {
        (226, 236)
    } else {
        (228, 238)
    }
}

pub fn open(time: u64, level: u32, random: &mut Random) -> Call {
    Call::Open {
        time,
        random: lent(random),
        naming: idle_time(random),
        net: net(most_net(level).0, random),
    }
}

pub fn send(time: u64, level: u32, random: &mut Random) -> Call {
    let upper = 0x20 + random.upto(0x1F) as u32;
    Call::Send {
        time,
        command: one_of(random, &[0x09, upper]),
        net: net(most_net(level).1, random),
    }
}

pub fn received(time: u64, level: u32, telegram: Vec<u8>, random: &mut Random) -> Call {
    Call::Received {
        time,
        random: lent(random),
        naming: idle_time(random),
        telegram,
        net: net(most_net(level).0, random),
    }
}

pub fn close(random: &mut Random) -> Call {
    let upper = 0x20 + random.upto(0x20) as u32;
    Call::Close {
        new_setup: one_of(random, &[0, 1, 1, 1]),
        reason: one_of(random, &[0x00, 0x07, 0x1F, upper]),
        text: net(40, random),
    }
}

/// A time around a limit of the record: one before the limit of a wait or watch, or of the time at which idle is due; at it; or one past.
pub fn around_limit(record: &Record, random: &mut Random) -> u64 {
    let (timer, limit) = match (record.waits(), once_in(random, 3)) {
        (true, _) => (record.sent_at, 5000),
        (false, true) => (record.sent_at, u64::from(record.declared / 2)),
        (false, false) => (record.taken_at, u64::from(record.watched)),
    };
    let near = limit.saturating_sub(1) + random.next() % 3;
    timer.saturating_add(near)
}

/// Each of the ten ways to spoil a record, by its number: mostly a field out of range.
pub const RECORD_SPOILS: usize = 10;

pub fn spoil_record(way: usize, beyond: u32, record: &mut Record, random: &mut Random) {
    match way {
        1 => record.partner = 127 + beyond,
        2 => record.partner_sap = 63 + beyond,
        3 => record.local_sap = 63 + beyond,
        4 => record.level = one_of(random, &[0, 1, 3, 5, 260]),
        5 => record.phase = one_of(random, &[7, 257, u32::MAX, 0]),
        6 => record.phase = 1 + random.upto(5) as u32,
        7 => record.declared = one_of(random, &[50, 150, 65535, 65600, 100]),
        8 => record.watched = one_of(random, &[50, 150, 65535, 65600, 100]),
        9 => record.sending = record.sending.wrapping_add(1),
        _ => record.taken_at = record.taken_at.wrapping_add(1),
    }
}

/// The call with a value that mostly is out of range.
pub fn spoilt_call(call: Call, random: &mut Random) -> Call {
    let length = 41 + random.upto(220);
    let long = random.bytes(length);
    let naming = Naming {
        named: 1,
        idle_time: one_of(random, &[50, 150, 65535, 65600]),
    };
    match random.upto(4) {
        0 => call.with_net(long.clone()).with_text(long),
        1 => call
            .with_naming(naming)
            .with_command(one_of(random, &[0x00, 0x06, 0x0D, 0x1F, 0x89, 0xA0, 0x120])),
        2 => call.with_telegram(long[..random.upto(5)].to_vec()),
        3 => call.with_telegram([long, vec![0; 204]].concat()),
        _ => match call {
            Call::Close { text, .. } => Call::Close {
                new_setup: one_of(random, &[0, 1, 2, 256, 257]),
                reason: one_of(random, &[0x08, 0x1E, 0x41, 0xFF, 0x100]),
                text,
            },
            other => other.with_time(random.next()),
        },
    }
}

/// A telegram cut, lengthened, with another command or with up to four bits changed.
pub fn damaged(mut telegram: Vec<u8>, random: &mut Random) -> Vec<u8> {
    match random.upto(7) {
        0 => telegram.truncate(random.upto(telegram.len())),
        1 => telegram.extend(random.next().to_le_bytes()),
        2 => telegram[1] ^= one_of(random, &[0x80, 0x40, 0xC0, 0x01, 0x04, 0x20]),
        _ => {
            for _ in 0..=random.upto(3) {
                let place = random.upto(telegram.len() - 1);
                telegram[place] ^= 1 << random.upto(7);
            }
        }
    }
    telegram
}

/// A request or confirm to this record as a partner of another version would have sent it; nothing for another telegram.
pub fn of_other_version(record: &Record, own: u32, mut telegram: Vec<u8>, random: &mut Random) -> Option<Vec<u8>> {
    let level = Level::named(record.level)?;
    if ![0x00, 0x02].contains(&(telegram[1] & 0x3F)) {
        return None;
    }
    let version = one_of(random, &[[2, 0, 0], [3, 0, 7], [3, 1, 0], [3, 5, 0], [4, 0, 0]]);
    telegram[8..11].copy_from_slice(&version);
    let number = field(&telegram, 3, 6);
    let body = &telegram[..telegram.len() - level.generator().bytes()];
    Some(sealed(level, record.end(own).receiving(), number, body))
}
