//! The second program's Sync and Reference Time message (SUBSET-056, 6.3.1.9), written and read. Numbers go lowest byte first (6.1.1.1).

use crate::library_clock::{Message, Reading, RefTime};

/// What a run of bytes is that is no message, by its number in the interface.
#[derive(Clone, Copy)]
enum NoMessage {
    NotEleven = 201,
    OtherPrefix = 202,
}

/// The prefix X, Y and Z.
pub const PREFIX: [u8; 3] = [3, 0, 0];

pub fn laid_out(message: Message) -> Vec<u8> {
    let number = message.number.to_le_bytes();
    let reference = message.reference.ms.to_le_bytes();
    [&PREFIX[..], &number, &reference].concat()
}

fn message_in(bytes: &[u8]) -> Result<Message, NoMessage> {
    match *bytes {
        [3, 0, 0, n1, n2, n3, n4, r1, r2, r3, r4] => Ok(Message {
            number: u32::from_le_bytes([n1, n2, n3, n4]),
            reference: RefTime {
                ms: u32::from_le_bytes([r1, r2, r3, r4]),
            },
        }),
        [_, _, _, _, _, _, _, _, _, _, _] => Err(NoMessage::OtherPrefix),
        _ => Err(NoMessage::NotEleven),
    }
}

pub fn read(bytes: &[u8]) -> Reading {
    let nothing = Message {
        number: 0,
        reference: RefTime { ms: 0 },
    };
    match message_in(bytes) {
        Ok(message) => Reading { answer: 0, message },
        Err(why) => Reading {
            answer: why as u32,
            message: nothing,
        },
    }
}
