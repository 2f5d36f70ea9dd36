//! Every check word that SUBSET-057 prints.

use crate::word::{Generator, SL2, SL4};

pub struct Vector {
    pub clause: &'static str,
    pub what: &'static str,
    pub generator: Generator,
    pub implicit: &'static [u8],
    pub telegram: &'static [u8],
    pub printed: &'static [u8],
}

const MULTICAST_IMPLICIT: &[u8] = &[0x0E, 0x7F, 0x53, 0x21, 0x21];
const MULTICAST: &[u8] = &[0x03, 0x00, 0x0A, 0x8D, 0xEF, 0xCD, 0xAB, 0x89, 0x48, 0x96, 0x6F, 0x0C, 0x4A, 0xD9];

pub fn vectors() -> Vec<Vector> {
    vec![
        Vector {
            clause: "5.3.1.7",
            what: "authentication, SL 4",
            generator: SL4,
            implicit: &[0x0C, 0x01, 0x08, 0x03, 0x03, 0x45, 0x23, 0x01],
            telegram: &[0x68, 0x83, 0xF0, 0xCD, 0xAB, 0x89],
            printed: &[0x20, 0x2A, 0x5D, 0xE9, 0xBA, 0x6D],
        },
        Vector {
            clause: "5.3.1.7",
            what: "its acknowledgement, SL 4",
            generator: SL4,
            implicit: &[0x0C, 0x08, 0x01, 0x03, 0x03, 0xCD, 0xAB, 0x89],
            telegram: &[0xF0, 0x84, 0x68, 0x45, 0x23, 0x01],
            printed: &[0xA6, 0x2A, 0x71, 0x97, 0xC5, 0x85],
        },
        Vector {
            clause: "5.3.1.8",
            what: "idle, SL 2",
            generator: SL2,
            implicit: &[0x08, 0x01, 0x08, 0x09, 0x09, 0x49, 0x34, 0x60],
            telegram: &[0x31, 0x06],
            printed: &[0x23, 0x67, 0x90, 0xC6],
        },
        Vector {
            clause: "6.2.1.6",
            what: "multicast data, SL 4",
            generator: SL4,
            implicit: MULTICAST_IMPLICIT,
            telegram: &MULTICAST[..8],
            printed: &[0x48, 0x96, 0x6F, 0x0C, 0x4A, 0xD9],
        },
        Vector {
            clause: "10.2.1.2.1",
            what: "whole message, SL 4 to SL 4",
            generator: SL4,
            implicit: MULTICAST_IMPLICIT,
            telegram: MULTICAST,
            printed: &[0; 6],
        },
        Vector {
            clause: "10.2.1.2.2",
            what: "whole message, SL 4 to SL 2",
            generator: SL2,
            implicit: MULTICAST_IMPLICIT,
            telegram: MULTICAST,
            printed: &[0; 4],
        },
        Vector {
            clause: "10.2.1.3.2",
            what: "last 48 bits removed, to SL 4",
            generator: SL4,
            implicit: MULTICAST_IMPLICIT,
            telegram: &MULTICAST[..8],
            printed: &[0x48, 0x96, 0x6F, 0x0C, 0x4A, 0xD9],
        },
        Vector {
            clause: "10.2.1.3.3",
            what: "last 32 bits removed, to SL 2",
            generator: SL2,
            implicit: MULTICAST_IMPLICIT,
            telegram: &MULTICAST[..10],
            printed: &[0x6F, 0x0C, 0x4A, 0xD9],
        },
    ]
}
