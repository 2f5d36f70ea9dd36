//! Whole telegrams: those that SUBSET-057 prints, and some of each kind and level laid out by hand from the tables of 5.1.3.4 and 5.2.

use crate::telegram::{End, Telegram};

/// 5.3.1.7 and 5.3.1.8: node 8, which sends to node 1. Its partner's SAP and its own are the same there.
const fn node_8(partner_sap: u32, local_sap: u32, level: u32) -> End {
    End {
        own: 8,
        partner: 1,
        partner_sap,
        local_sap,
        level,
    }
}

/// A telegram that SUBSET-057 prints with its check word.
pub struct Printed {
    pub clause: &'static str,
    pub what: &'static str,
    pub sender: End,
    pub telegram: Telegram,
    pub bytes: &'static [u8],
}

pub fn printed() -> Vec<Printed> {
    vec![
        Printed {
            clause: "5.3.1.7",
            what: "authentication, SL 4",
            sender: node_8(3, 3, 4),
            telegram: Telegram::authentication(0x0123_4568, 0x89AB_CDEF),
            bytes: &[0x68, 0x83, 0xF0, 0xCD, 0xAB, 0x89, 0x20, 0x2A, 0x5D, 0xE9, 0xBA, 0x6D],
        },
        Printed {
            clause: "5.3.1.7",
            what: "its acknowledgement, SL 4",
            sender: node_8(3, 3, 4).mirrored(),
            telegram: Telegram::acknowledgement(0x89AB_CDF0, 0x0123_4567),
            bytes: &[0xF0, 0x84, 0x68, 0x45, 0x23, 0x01, 0xA6, 0x2A, 0x71, 0x97, 0xC5, 0x85],
        },
    ]
}

/// The idle telegram of 5.3.1.8. It is printed with the length 08h; a telegram of six bytes has the length 06h.
pub const IDLE_SENDER: End = node_8(9, 9, 2);
pub const IDLE_NUMBER: u32 = 0x6034_4931;
pub const IDLE_IMPLICIT: [u8; 8] = [0x06, 0x01, 0x08, 0x09, 0x09, 0x49, 0x34, 0x60];
pub const IDLE_PRINTED: [u8; 6] = [0x31, 0x06, 0x23, 0x67, 0x90, 0xC6];

/// A telegram with its implicit bytes and its bytes before the check word.
pub struct ByHand {
    pub sender: End,
    pub telegram: Telegram,
    pub implicit: [u8; 8],
    pub body: &'static [u8],
}

fn hand(level: u32, telegram: Telegram, implicit: [u8; 8], body: &'static [u8]) -> ByHand {
    ByHand {
        sender: node_8(3, 5, level),
        telegram,
        implicit,
        body,
    }
}

pub fn by_hand() -> Vec<ByHand> {
    vec![
        hand(
            4,
            Telegram::request(0x0123_4567, 500, vec![0xAA, 0xBB]),
            [0x14, 1, 8, 3, 5, 0x45, 0x23, 0x01],
            &[0x67, 0x80, 0x67, 0x45, 0x23, 0x01, 0xF4, 0x01, 3, 0, 0, 0, 0xAA, 0xBB],
        ),
        hand(
            2,
            Telegram::request(0x0123_4567, 0, vec![]),
            [0x10, 1, 8, 3, 5, 0x45, 0x23, 0x01],
            &[0x67, 0x00, 0x67, 0x45, 0x23, 0x01, 0x00, 0x00, 3, 0, 0, 0],
        ),
        hand(
            4,
            Telegram::confirm(0x89AB_CDEF, 65500, vec![]),
            [0x12, 1, 8, 3, 5, 0xCD, 0xAB, 0x89],
            &[0xEF, 0x82, 0xEF, 0xCD, 0xAB, 0x89, 0xDC, 0xFF, 3, 0, 0, 0],
        ),
        hand(
            2,
            Telegram::confirm(0x89AB_CDEF, 100, vec![0x01]),
            [0x11, 1, 8, 3, 5, 0xCD, 0xAB, 0x89],
            &[0xEF, 0x02, 0xEF, 0xCD, 0xAB, 0x89, 0x64, 0x00, 3, 0, 0, 0, 0x01],
        ),
        hand(
            4,
            Telegram::authentication(0x0123_4568, 0xFFFF_FFFF),
            [0x0C, 1, 8, 3, 5, 0x45, 0x23, 0x01],
            &[0x68, 0x83, 0x00, 0x00, 0x00, 0x00],
        ),
        hand(
            2,
            Telegram::authentication(0x0123_4568, 0x89AB_CDEF),
            [0x0A, 1, 8, 3, 5, 0x45, 0x23, 0x01],
            &[0x68, 0x03, 0xF1, 0xCD, 0xAB, 0x89],
        ),
        hand(
            4,
            Telegram::acknowledgement(0x89AB_CDF0, 0x0123_4567),
            [0x0C, 1, 8, 3, 5, 0xCD, 0xAB, 0x89],
            &[0xF0, 0x84, 0x68, 0x45, 0x23, 0x01],
        ),
        hand(
            2,
            Telegram::acknowledgement(0x0000_0000, 0xFFFF_FFFF),
            [0x0A, 1, 8, 3, 5, 0x00, 0x00, 0x00],
            &[0x00, 0x04, 0x01, 0x00, 0x00, 0x00],
        ),
        hand(
            4,
            Telegram::disconnect(0xFFFF_FFFF, 0, 0x07, b"end".to_vec()),
            [0x0D, 1, 8, 3, 5, 0xFF, 0xFF, 0xFF],
            &[0xFF, 0x85, 0x00, 0x07, 0x65, 0x6E, 0x64],
        ),
        hand(
            2,
            Telegram::disconnect(0x0000_0100, 1, 0x40, vec![]),
            [0x08, 1, 8, 3, 5, 0x01, 0x00, 0x00],
            &[0x00, 0x05, 0x01, 0x40],
        ),
        hand(4, Telegram::idle(0x6034_4931), [0x08, 1, 8, 3, 5, 0x49, 0x34, 0x60], &[0x31, 0x86]),
        hand(2, Telegram::idle(0x6034_4931), [0x06, 1, 8, 3, 5, 0x49, 0x34, 0x60], &[0x31, 0x06]),
        hand(
            4,
            Telegram::data(0xA0B0_C0D0, 0x09, vec![1, 2, 3]),
            [0x0B, 1, 8, 3, 5, 0xC0, 0xB0, 0xA0],
            &[0xD0, 0x89, 1, 2, 3],
        ),
        hand(
            4,
            Telegram::data(0x0000_00FF, 0x3F, vec![]),
            [0x08, 1, 8, 3, 5, 0x00, 0x00, 0x00],
            &[0xFF, 0xBF],
        ),
        hand(
            2,
            Telegram::data(0x0001_0000, 0x20, vec![9; 5]),
            [0x0B, 1, 8, 3, 5, 0x00, 0x01, 0x00],
            &[0x00, 0x20, 9, 9, 9, 9, 9],
        ),
    ]
}
