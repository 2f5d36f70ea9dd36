//! The telegrams that are damaged: of each level, kind and length one of random contents, which passes before.

use crate::draft::Draft;
use crate::library;
use crate::program::SECOND;
use crate::random::Random;
use crate::tally::Tally;
use crate::telegram::{End, Kind, Level, Telegram, KINDS};
use crate::words::hex;

/// All random numbers of the runs of damage come from this seed.
pub const SEED: u64 = 0x6461_6D61_6765_0000;

/// In the order in which they are run.
pub const LEVELS: [Level; 2] = [Level::Sl4, Level::Sl2];

/// What a telegram is before its contents are drawn.
#[derive(Clone, Copy)]
pub struct Shape {
    pub level: Level,
    pub kind: Kind,
    /// With the check word.
    pub length: usize,
}

/// A telegram that passes, with the end and the expected number under which it does.
#[derive(Clone)]
pub struct Good {
    pub end: End,
    pub expected: u32,
    pub telegram: Vec<u8>,
}

/// Each level, kind and length.
pub fn shapes() -> Vec<Shape> {
    let of_kind = |level: Level, kind: Kind| kind.lengths(level).map(move |length| Shape { level, kind, length });
    let of_level = |level: Level| KINDS.into_iter().flat_map(move |kind| of_kind(level, kind));
    LEVELS.into_iter().flat_map(of_level).collect()
}

impl Shape {
    /// The random numbers of this shape, the same in every run.
    pub fn random(&self) -> Random {
        Random(SEED + ((self.level as u64) << 12 | (self.kind as u64) << 8 | self.length as u64))
    }

    /// A telegram of this shape with random contents, as the partner of a random sender checks it. A request or confirm passes whatever number is expected.
    pub fn drawn(&self, random: &mut Random) -> Good {
        let draft = self.draft(random);
        let expected = if draft.is_connect() { random.next() as u32 } else { draft.number };
        Good {
            end: draft.end,
            expected,
            telegram: draft.telegram(),
        }
    }

    /// The draft of it. The version and the dual bus byte that a writer fills in are drawn besides.
    fn draft(&self, random: &mut Random) -> Draft {
        let telegram = self.telegram(random);
        let draft = Draft::new(sender(self.level, random), &telegram);
        match draft.is_connect() {
            true => [8, 9, 10].iter().fold(draft.with(11, random.upto(1) as u8), |draft, version| {
                draft.with(*version, random.next() as u8)
            }),
            false => draft,
        }
    }

    /// What a writer is asked for, with any number, and any reason of a disconnect: the check lets all pass.
    fn telegram(&self, random: &mut Random) -> Telegram {
        let net = random.bytes(self.length - self.kind.lengths(self.level).start());
        let [number, received] = [random.next() as u32, random.next() as u32];
        let idle_time = 100 * random.upto(655) as u32;
        match self.kind {
            Kind::Request => Telegram::request(number, idle_time, net),
            Kind::Confirm => Telegram::confirm(number, idle_time, net),
            Kind::Authentication => Telegram::authentication(number, received),
            Kind::Acknowledgement => Telegram::acknowledgement(number, received),
            Kind::Disconnect => Telegram::disconnect(number, random.upto(1) as u32, random.upto(255) as u32, net),
            Kind::Idle => Telegram::idle(number),
            Kind::Data => Telegram::data(number, data_command(random), net),
        }
    }
}

/// 5.1.1.5, byte 2, without the level: 09h, or one of 20h..3Fh.
pub fn data_command(random: &mut Random) -> u32 {
    match random.upto(32) {
        32 => 0x09,
        upper => 0x20 + upper as u32,
    }
}

/// Any sender at the level, with its numbers in range.
fn sender(level: Level, random: &mut Random) -> End {
    End {
        own: random.upto(126) as u32,
        partner: random.upto(126) as u32,
        partner_sap: random.upto(62) as u32,
        local_sap: random.upto(62) as u32,
        level: level.number(),
    }
}

/// A data telegram of random contents with so many bytes of net data.
pub fn data_telegram(level: Level, net: usize, random: &mut Random) -> Good {
    let kind = Kind::Data;
    let length = kind.lengths(level).start() + net;
    Shape { level, kind, length }.drawn(random)
}

/// The index of so many neighbouring bytes in the net data of a data telegram.
pub fn place_in_net(level: Level, telegram: &[u8], count: usize, random: &mut Random) -> usize {
    let net = telegram.len() - Kind::Data.lengths(level).start();
    Kind::Data.header() + random.upto(net - count)
}

impl Good {
    /// It passes, by both programs.
    pub fn hold_passes(&self, tally: &mut Tally) {
        let library = library::check(&self.end, self.expected, &self.telegram);
        let second = (SECOND.check)(&self.end, self.expected, &self.telegram);
        tally.hold(library == 0 && second == 0, || {
            format!("{library}, {second}, not passed: {}", self.tell())
        });
    }

    /// Its check, for the reader of a comparison that fails.
    pub fn tell(&self) -> String {
        tell(&self.end, self.expected, &self.telegram)
    }
}

/// Any check, likewise.
pub fn tell(end: &End, expected: u32, telegram: &[u8]) -> String {
    format!("{end:?}, which expects {expected:08X}, checks {}", hex(telegram))
}
