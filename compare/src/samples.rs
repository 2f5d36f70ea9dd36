//! What the systematic cases start from: good ends, good telegrams, and the limits of an end's numbers.

use crate::telegram::{End, Telegram};

/// A sender at each level. Addresses and SAPs all differ, so that a mix-up shows.
pub const SENDERS: [End; 2] = [
    End {
        own: 8,
        partner: 1,
        partner_sap: 3,
        local_sap: 5,
        level: 4,
    },
    End {
        own: 0,
        partner: 126,
        partner_sap: 62,
        local_sap: 7,
        level: 2,
    },
];

/// The number that the good telegrams are sent with.
pub const NUMBER: u32 = 0x0123_4568;

/// Each kind of telegram once, with values that are good at both levels.
pub fn good_telegrams() -> Vec<Telegram> {
    vec![
        Telegram::request(NUMBER, 500, pattern(3)),
        Telegram::confirm(NUMBER, 65500, vec![]),
        Telegram::authentication(NUMBER, 0x89AB_CDEF),
        Telegram::acknowledgement(NUMBER, 0x89AB_CDEF),
        Telegram::disconnect(NUMBER, 0, 0x20, pattern(3)),
        Telegram::idle(NUMBER),
        Telegram::data(NUMBER, 0x09, pattern(5)),
    ]
}

/// The telegrams of 244 bytes, and the disconnect with its longest text.
pub fn longest_telegrams(level: u32) -> Vec<Telegram> {
    let (request_most, data_most) = if level == 4 { (226, 236) } else { (228, 238) };
    vec![
        Telegram::request(NUMBER, 0, pattern(request_most)),
        Telegram::confirm(NUMBER, 100, pattern(request_most)),
        Telegram::disconnect(NUMBER, 1, 0x07, pattern(40)),
        Telegram::data(NUMBER, 0x3F, pattern(data_most)),
    ]
}

/// Bytes that are not alike.
pub fn pattern(count: usize) -> Vec<u8> {
    (0..count).map(|k| (k * 7 + 13) as u8).collect()
}

/// Numbers of an end, each with the answer that it brings where all else is good.
const ADDRESSES: [(u32, u32); 8] = [(0, 0), (1, 0), (126, 0), (127, 1), (128, 1), (255, 1), (256, 1), (u32::MAX, 1)];
const SAPS: [(u32, u32); 8] = [(0, 0), (1, 0), (62, 0), (63, 1), (64, 1), (255, 1), (256, 1), (u32::MAX, 1)];
const GOOD_LEVELS: [u32; 2] = [2, 4];
const BAD_LEVELS: [u32; 10] = [0, 1, 3, 5, 6, 255, 256, 258, 260, u32::MAX];

/// The end with each number in turn at its limits and past them, and the answer.
pub fn limits(end: End) -> Vec<(End, u32)> {
    let mut limits = Vec::new();
    for (value, answer) in ADDRESSES {
        limits.push((End { own: value, ..end }, answer));
        limits.push((End { partner: value, ..end }, answer));
    }
    for (value, answer) in SAPS {
        limits.push((End { partner_sap: value, ..end }, answer));
        limits.push((End { local_sap: value, ..end }, answer));
    }
    limits.extend(GOOD_LEVELS.map(|level| (End { level, ..end }, 0)));
    limits.extend(BAD_LEVELS.map(|level| (End { level, ..end }, 1)));
    limits
}

/// The ends of `limits` that are out of range.
pub fn out_of_range(end: End) -> Vec<End> {
    limits(end).into_iter().filter(|(_, answer)| *answer == 1).map(|(end, _)| end).collect()
}
