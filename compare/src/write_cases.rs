//! Systematic cases for the writers: each field at its limits and one past, each buffer, and the order of the refusals.

use crate::case::{Case, Demand};
use crate::samples::{good_telegrams, limits, longest_telegrams, out_of_range, pattern, NUMBER, SENDERS};
use crate::telegram::{End, Telegram, LONGEST};

/// A call of a writer with a buffer of `room` bytes, and the answer demanded.
fn write(end: End, telegram: &Telegram, room: usize, answer: u32) -> Case {
    Case::write(end, telegram.clone(), pattern(room), Demand::Answer(answer))
}

/// The answer where 5 is the only refusal that may hold.
fn answer(allowed: bool) -> u32 {
    if allowed {
        0
    } else {
        5
    }
}

/// Each kind from ends whose numbers are at their limits and past them.
pub fn ends() -> Vec<Case> {
    let mut cases = Vec::new();
    for telegram in good_telegrams() {
        for (end, answer) in SENDERS.into_iter().flat_map(limits) {
            cases.push(write(end, &telegram, LONGEST, answer));
        }
    }
    cases
}

/// Each kind into buffers with less room than 244 bytes, with just that, and with more.
pub fn rooms() -> Vec<Case> {
    let mut cases = Vec::new();
    for end in SENDERS {
        for telegram in good_telegrams().iter().chain(&longest_telegrams(end.level)) {
            for room in [0, 1, 5, 6, 8, 12, 20, 100, 242, 243] {
                cases.push(write(end, telegram, room, 4));
            }
            for room in [244, 245, 255, 256, 300, 1000] {
                cases.push(write(end, telegram, room, 0));
            }
        }
    }
    cases
}

/// Numbers at which bytes carry over and the number wraps.
pub const NUMBERS: [u32; 13] = [
    0x0000_0000,
    0x0000_0001,
    0x0000_00FF,
    0x0000_0100,
    0x0000_FFFF,
    0x0001_0000,
    0x00FF_FFFF,
    0x0100_0000,
    0x7FFF_FFFF,
    0x8000_0000,
    0x89AB_CDEF,
    0xFFFF_FFFE,
    0xFFFF_FFFF,
];

/// Each kind with those sequence numbers, and with those numbers received.
pub fn numbers() -> Vec<Case> {
    let mut telegrams = Vec::new();
    for number in NUMBERS {
        telegrams.push(Telegram::request(number, 100, pattern(9)));
        telegrams.push(Telegram::confirm(number, 100, pattern(9)));
        for received in NUMBERS {
            telegrams.push(Telegram::authentication(number, received));
            telegrams.push(Telegram::acknowledgement(number, received));
        }
        telegrams.push(Telegram::disconnect(number, 1, 0x06, vec![]));
        telegrams.push(Telegram::idle(number));
        telegrams.push(Telegram::data(number, 0x20, pattern(9)));
    }
    let by = |end: End| telegrams.iter().map(move |telegram| write(end, telegram, LONGEST, 0));
    SENDERS.into_iter().flat_map(by).collect()
}

/// Requests and confirms with every idle time up to 66000, and with greater ones that a narrower number would wrap into good ones.
pub fn idle_times() -> Vec<Case> {
    const GREATER: [u32; 5] = [0x1_0000 + 65500, 0x8000_0000, 0xFFFF_0000 + 500, u32::MAX - 95, u32::MAX];
    let mut cases = Vec::new();
    for idle_time in (0..=66000).chain(GREATER) {
        let answer = answer(idle_time <= 65500 && idle_time % 100 == 0);
        cases.push(write(SENDERS[0], &Telegram::request(NUMBER, idle_time, vec![]), LONGEST, answer));
        cases.push(write(SENDERS[1], &Telegram::confirm(NUMBER, idle_time, vec![]), LONGEST, answer));
    }
    cases
}

/// Net data and texts of every length up to 260, and of greater ones that a narrower number would wrap into short ones.
pub fn net_lengths() -> Vec<Case> {
    let mut cases = Vec::new();
    for end in SENDERS {
        // The longest net data of request and confirm, and of data, as the scope prints them.
        let (request_most, data_most) = if end.level == 4 { (226, 236) } else { (228, 238) };
        for length in (0..=260).chain([300, 512, 0x1_0000, 0x1_0000 + 5]) {
            let net = || pattern(length);
            let mut push = |telegram: Telegram, most: usize| cases.push(write(end, &telegram, LONGEST, answer(length <= most)));
            push(Telegram::request(NUMBER, 500, net()), request_most);
            push(Telegram::confirm(NUMBER, 500, net()), request_most);
            push(Telegram::disconnect(NUMBER, 0, 0x1F, net()), 40);
            push(Telegram::data(NUMBER, 0x09, net()), data_most);
        }
    }
    cases
}

/// Disconnects with every reason up to 260 and types around the two good ones, and with greater numbers that would wrap.
pub fn types_and_reasons() -> Vec<Case> {
    let mut cases = Vec::new();
    for end in SENDERS {
        for new_setup in [0, 1, 2, 3, 128, 255, 256, 257, 0x1_0000, 0x1_0001, u32::MAX] {
            for reason in (0..=260).chain([0x11F, 0x120, 0x1_0000, 0x1_0020, u32::MAX]) {
                let listed = reason <= 0x07 || (0x1F..=0x40).contains(&reason);
                let telegram = Telegram::disconnect(NUMBER, new_setup, reason, vec![]);
                cases.push(write(end, &telegram, LONGEST, answer(new_setup <= 1 && listed)));
            }
        }
    }
    cases
}

/// Data with every command up to 300, those with a level's bits included, and with greater numbers that would wrap.
pub fn data_commands() -> Vec<Case> {
    let mut cases = Vec::new();
    for end in SENDERS {
        for command in (0..=300).chain([0x13F, 0x1_0009, 0x1_0020, u32::MAX]) {
            let of_data = command == 0x09 || (0x20..=0x3F).contains(&command);
            let telegram = Telegram::data(NUMBER, command, pattern(4));
            cases.push(write(end, &telegram, LONGEST, answer(of_data)));
        }
    }
    cases
}

/// Telegrams that answer 5 turns away, each for another reason.
fn bad_values() -> Vec<Telegram> {
    vec![
        Telegram::request(NUMBER, 50, vec![]),
        Telegram::request(NUMBER, 0, pattern(229)),
        Telegram::confirm(NUMBER, 65535, vec![]),
        Telegram::confirm(NUMBER, 100, pattern(300)),
        Telegram::disconnect(NUMBER, 2, 0x00, vec![]),
        Telegram::disconnect(NUMBER, 0, 0x08, vec![]),
        Telegram::disconnect(NUMBER, 1, 0x40, pattern(41)),
        Telegram::data(NUMBER, 0x0D, vec![]),
        Telegram::data(NUMBER, 0x89, vec![]),
        Telegram::data(NUMBER, 0x3F, pattern(239)),
    ]
}

/// The refusals alone and together: 1 comes before 4, and 4 before 5.
pub fn refusals() -> Vec<Case> {
    let mut cases = Vec::new();
    for end in SENDERS {
        for telegram in bad_values() {
            for (room, answer) in [(0, 4), (8, 4), (243, 4), (244, 5), (300, 5)] {
                cases.push(write(end, &telegram, room, answer));
            }
        }
        for telegram in bad_values().iter().chain(&good_telegrams()) {
            for end in out_of_range(end) {
                for room in [0, 8, 243, 244, 300] {
                    cases.push(write(end, telegram, room, 1));
                }
            }
        }
    }
    cases
}
