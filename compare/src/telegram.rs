//! The telegrams of sections 5.1 and 5.2: as values, as bytes, and the calls of a writer that are refused.

use crate::word::{word_bytes, Generator, SL2, SL4};
use std::ops::RangeInclusive;

/// 5.1.1.5: the longest telegram, check word included. Every output buffer needs this much room.
pub const LONGEST: usize = 244;
/// 5.2.5.9: the longest text of a disconnect.
const LONGEST_TEXT: usize = 40;
/// 5.2.1.3, bytes 9..11: the version that the scope has us write.
const VERSION: [u8; 3] = [3, 0, 0];
/// 5.2.1.3, byte 12: not equipped with dual busses.
const NO_DUAL_BUS: [u8; 1] = [0];
/// 5.1.3.4: the highest address and the highest service access point.
const HIGHEST_ADDRESS: u32 = 126;
const HIGHEST_SAP: u32 = 62;

/// The numbers of the refusals, in the order in which the first that holds is answered.
pub const OUT_OF_RANGE: u32 = 1;
pub const NO_ROOM: u32 = 4;
pub const BAD_TELEGRAM: u32 = 6;
pub const BAD_VALUE: u32 = 5;

/// The Safety Levels that have a check word.
#[derive(Clone, Copy, PartialEq, Debug)]
pub enum Level {
    Sl4,
    Sl2,
}

impl Level {
    /// The level that a plain number names.
    pub fn named(number: u32) -> Option<Level> {
        match number {
            4 => Some(Level::Sl4),
            2 => Some(Level::Sl2),
            _ => None,
        }
    }

    /// The plain number that names the level.
    pub fn number(self) -> u32 {
        match self {
            Level::Sl4 => 4,
            Level::Sl2 => 2,
        }
    }

    /// 5.1.1.5, byte 2: the level whose range the command lies in. C0h..FFh is SL 0 and 40h..7Fh is none.
    pub fn of_command(command: u8) -> Option<Level> {
        match command {
            0x80..=0xBF => Some(Level::Sl4),
            0x00..=0x3F => Some(Level::Sl2),
            _ => None,
        }
    }

    /// 5.1.1.5, byte 2: the first command of the level's range.
    fn first_command(self) -> u8 {
        match self {
            Level::Sl4 => 0x80,
            Level::Sl2 => 0x00,
        }
    }

    /// Section 10: the generator of the level's check word.
    pub fn generator(self) -> Generator {
        match self {
            Level::Sl4 => SL4,
            Level::Sl2 => SL2,
        }
    }

    /// 5.1.4.2.1 and 5.1.4.3.1: what is added to the random number received at set-up.
    pub fn increment(self) -> u32 {
        match self {
            Level::Sl4 => 1,
            Level::Sl2 => 2,
        }
    }
}

/// The seven kinds of telegram, in the order of 5.2.1 to 5.2.7.
#[derive(Clone, Copy, PartialEq, Debug)]
pub enum Kind {
    Request,
    Confirm,
    Authentication,
    Acknowledgement,
    Disconnect,
    Idle,
    Data,
}

/// Each of them.
pub const KINDS: [Kind; 7] = [
    Kind::Request,
    Kind::Confirm,
    Kind::Authentication,
    Kind::Acknowledgement,
    Kind::Disconnect,
    Kind::Idle,
    Kind::Data,
];

impl Kind {
    /// 5.1.1.5, byte 2: the kind that the low six bits of a command name. 0Dh is multicast data, which is not taken here.
    pub fn of_command(low_six: u32) -> Option<Kind> {
        match low_six {
            0x00 => Some(Kind::Request),
            0x02 => Some(Kind::Confirm),
            0x03 => Some(Kind::Authentication),
            0x04 => Some(Kind::Acknowledgement),
            0x05 => Some(Kind::Disconnect),
            0x06 => Some(Kind::Idle),
            0x09 | 0x20..=0x3F => Some(Kind::Data),
            _ => None,
        }
    }

    /// How many bytes stand before the net data, by the tables of 5.2.
    pub fn header(self) -> usize {
        match self {
            Kind::Request | Kind::Confirm => 12,
            Kind::Authentication | Kind::Acknowledgement => 6,
            Kind::Disconnect => 4,
            Kind::Idle | Kind::Data => 2,
        }
    }

    /// How many bytes of net data there may be; of a disconnect, of text.
    fn most_net(self, level: Level) -> usize {
        match self {
            Kind::Request | Kind::Confirm | Kind::Data => LONGEST - self.header() - level.generator().bytes(),
            Kind::Disconnect => LONGEST_TEXT,
            Kind::Authentication | Kind::Acknowledgement | Kind::Idle => 0,
        }
    }

    /// The lengths, check word included, that suit the kind.
    pub fn lengths(self, level: Level) -> RangeInclusive<usize> {
        let least = self.header() + level.generator().bytes();
        least..=least + self.most_net(level)
    }
}

/// One end of a connection, by the plain numbers of a call, which may be out of range.
#[derive(Clone, Copy, PartialEq, Debug)]
pub struct End {
    pub own: u32,
    pub partner: u32,
    pub partner_sap: u32,
    pub local_sap: u32,
    pub level: u32,
}

impl End {
    /// The numbers in the order of a call.
    pub fn numbers(&self) -> [u32; 5] {
        [self.own, self.partner, self.partner_sap, self.local_sap, self.level]
    }

    /// The level of an end whose numbers are all in range.
    pub fn in_range(&self) -> Option<Level> {
        let addresses = self.own <= HIGHEST_ADDRESS && self.partner <= HIGHEST_ADDRESS;
        let saps = self.partner_sap <= HIGHEST_SAP && self.local_sap <= HIGHEST_SAP;
        Level::named(self.level).filter(|_| addresses && saps)
    }

    /// The same connection as its partner names it.
    pub fn mirrored(&self) -> End {
        End {
            own: self.partner,
            partner: self.own,
            partner_sap: self.local_sap,
            local_sap: self.partner_sap,
            level: self.level,
        }
    }

    /// The way of a telegram that this end sends.
    pub fn sending(&self) -> Way {
        Way {
            receiver: self.partner as u8,
            sender: self.own as u8,
            dsap: self.partner_sap as u8,
            ssap: self.local_sap as u8,
        }
    }

    /// The way of a telegram that this end receives.
    pub fn receiving(&self) -> Way {
        Way {
            receiver: self.own as u8,
            sender: self.partner as u8,
            dsap: self.local_sap as u8,
            ssap: self.partner_sap as u8,
        }
    }
}

/// 5.1.3.4, bytes 2 to 5: from where to where a telegram travels. Both ends of a connection name it alike.
#[derive(Clone, Copy)]
pub struct Way {
    receiver: u8,
    sender: u8,
    dsap: u8,
    ssap: u8,
}

/// 5.1.3.4: the implicit data of a telegram of `length` bytes with its check word.
pub fn implicit(length: usize, way: Way, number: u32) -> Vec<u8> {
    let [_, upper @ ..] = number.to_le_bytes();
    [&[length as u8, way.receiver, way.sender, way.dsap, way.ssap][..], &upper].concat()
}

/// 5.1.3.2: the telegram with its check word behind it.
pub fn sealed(level: Level, way: Way, number: u32, telegram: &[u8]) -> Vec<u8> {
    let generator = level.generator();
    let covered = [&implicit(telegram.len() + generator.bytes(), way, number), telegram].concat();
    [telegram, &word_bytes(generator, &covered)].concat()
}

/// What a writer is asked to write. The numbers are those of the call and may be out of range.
#[derive(Clone, Debug)]
pub enum Telegram {
    Request {
        random: u32,
        idle_time: u32,
        net: Vec<u8>,
    },
    Confirm {
        random: u32,
        idle_time: u32,
        net: Vec<u8>,
    },
    Authentication {
        number: u32,
        received: u32,
    },
    Acknowledgement {
        number: u32,
        received: u32,
    },
    Disconnect {
        number: u32,
        new_setup: u32,
        reason: u32,
        text: Vec<u8>,
    },
    Idle {
        number: u32,
    },
    Data {
        number: u32,
        command: u32,
        net: Vec<u8>,
    },
}

/// One constructor for each kind, with the numbers in the order of the writer's call.
impl Telegram {
    pub fn request(random: u32, idle_time: u32, net: Vec<u8>) -> Telegram {
        Telegram::Request { random, idle_time, net }
    }

    pub fn confirm(random: u32, idle_time: u32, net: Vec<u8>) -> Telegram {
        Telegram::Confirm { random, idle_time, net }
    }

    pub fn authentication(number: u32, received: u32) -> Telegram {
        Telegram::Authentication { number, received }
    }

    pub fn acknowledgement(number: u32, received: u32) -> Telegram {
        Telegram::Acknowledgement { number, received }
    }

    pub fn disconnect(number: u32, new_setup: u32, reason: u32, text: Vec<u8>) -> Telegram {
        Telegram::Disconnect {
            number,
            new_setup,
            reason,
            text,
        }
    }

    pub fn idle(number: u32) -> Telegram {
        Telegram::Idle { number }
    }

    pub fn data(number: u32, command: u32, net: Vec<u8>) -> Telegram {
        Telegram::Data { number, command, net }
    }
}

impl Telegram {
    pub fn kind(&self) -> Kind {
        match self {
            Telegram::Request { .. } => Kind::Request,
            Telegram::Confirm { .. } => Kind::Confirm,
            Telegram::Authentication { .. } => Kind::Authentication,
            Telegram::Acknowledgement { .. } => Kind::Acknowledgement,
            Telegram::Disconnect { .. } => Kind::Disconnect,
            Telegram::Idle { .. } => Kind::Idle,
            Telegram::Data { .. } => Kind::Data,
        }
    }

    /// The sequence number. That of a request and of a confirm is its random number (5.2.1.3, 5.2.2.2).
    pub fn number(&self) -> u32 {
        match self {
            Telegram::Request { random, .. } | Telegram::Confirm { random, .. } => *random,
            Telegram::Authentication { number, .. } | Telegram::Acknowledgement { number, .. } => *number,
            Telegram::Disconnect { number, .. } | Telegram::Idle { number } | Telegram::Data { number, .. } => *number,
        }
    }

    /// Byte 2 of the tables of 5.2, without the level.
    fn low_six(&self) -> u8 {
        match self {
            Telegram::Request { .. } => 0x00,
            Telegram::Confirm { .. } => 0x02,
            Telegram::Authentication { .. } => 0x03,
            Telegram::Acknowledgement { .. } => 0x04,
            Telegram::Disconnect { .. } => 0x05,
            Telegram::Idle { .. } => 0x06,
            Telegram::Data { command, .. } => *command as u8,
        }
    }

    /// The bytes from byte 3 up to the net data, by the tables of 5.2. Numbers go lowest byte first (5.1.1.6).
    fn fields(&self, level: Level) -> Vec<u8> {
        match self {
            Telegram::Request { random, idle_time, .. } | Telegram::Confirm { random, idle_time, .. } => {
                let idle_cycle_timeout = (*idle_time as u16).to_le_bytes();
                [&random.to_le_bytes()[..], &idle_cycle_timeout, &VERSION, &NO_DUAL_BUS].concat()
            }
            Telegram::Authentication { received, .. } | Telegram::Acknowledgement { received, .. } => {
                received.wrapping_add(level.increment()).to_le_bytes().to_vec()
            }
            Telegram::Disconnect { new_setup, reason, .. } => vec![*new_setup as u8, *reason as u8],
            Telegram::Idle { .. } | Telegram::Data { .. } => vec![],
        }
    }

    /// The net data; of a disconnect, its text.
    fn net(&self) -> &[u8] {
        match self {
            Telegram::Request { net, .. } | Telegram::Confirm { net, .. } | Telegram::Data { net, .. } => net,
            Telegram::Disconnect { text, .. } => text,
            Telegram::Authentication { .. } | Telegram::Acknowledgement { .. } | Telegram::Idle { .. } => &[],
        }
    }

    /// The telegram without its check word.
    pub fn body(&self, level: Level) -> Vec<u8> {
        let [lowest, ..] = self.number().to_le_bytes();
        [&[lowest, level.first_command() | self.low_six()], &self.fields(level)[..], self.net()].concat()
    }

    /// Whether answer 5 lets the values through.
    pub fn allowed(&self, level: Level) -> bool {
        let values = match self {
            Telegram::Request { idle_time, .. } | Telegram::Confirm { idle_time, .. } => idle_time_allowed(*idle_time),
            Telegram::Disconnect { new_setup, reason, .. } => new_setup_known(*new_setup) && reason_listed(*reason),
            Telegram::Data { command, .. } => Kind::of_command(*command) == Some(Kind::Data),
            Telegram::Authentication { .. } | Telegram::Acknowledgement { .. } | Telegram::Idle { .. } => true,
        };
        values && self.net().len() <= self.kind().most_net(level)
    }
}

/// 5.2.1.3, bytes 7..8: no supervision, or steps of 100 ms.
pub fn idle_time_allowed(idle_time: u32) -> bool {
    idle_time == 0 || (100..=65500).contains(&idle_time) && idle_time % 100 == 0
}

/// 5.2.5.9, byte 3: final, or a new connection may be established.
pub fn new_setup_known(new_setup: u32) -> bool {
    new_setup == 0 || new_setup == 1
}

/// 5.2.5.9, byte 4: the reasons in use, and those that note 5.2.5.9.1 gives to the layer above.
pub fn reason_listed(reason: u32) -> bool {
    matches!(reason, 0x00..=0x07 | 0x1F | 0x20..=0x40)
}

/// The telegram that a writer writes into a buffer with this room, or the number of its refusal.
pub fn written(end: &End, telegram: &Telegram, room: usize) -> Result<Vec<u8>, u32> {
    let level = end.in_range().ok_or(OUT_OF_RANGE)?;
    if room < LONGEST {
        return Err(NO_ROOM);
    }
    if !telegram.allowed(level) {
        return Err(BAD_VALUE);
    }
    Ok(sealed(level, end.sending(), telegram.number(), &telegram.body(level)))
}
