//! A reference clock, a local clock that goes apart from it, and the bus between them: what the random runs of local clocks are made of. Both clocks go, drift,
//! jump and stand still; messages are lost, repeated and late; numbers go back and skip.

use crate::library_clock::{LocalTime, Message, RefTime};
use crate::random::{once_in, one_of, Random};
use crate::shares::Shares;

/// A clock that goes at a rate of its own. It counts microseconds, so that slow drift adds up.
pub struct Running {
    reading: i64,
    /// How much faster than time itself, in millionths.
    rate: i64,
    /// Whether it stands still until the next message.
    stands: bool,
}

impl Running {
    /// A clock that shows so many milliseconds.
    pub fn new(ms: u32, rate: i64) -> Running {
        let reading = i64::from(ms) * 1000;
        Running {
            reading,
            rate,
            stands: false,
        }
    }

    /// Microseconds pass.
    pub fn pass(&mut self, time: i64) {
        if !self.stands {
            self.reading += time * (1_000_000 + self.rate) / 1_000_000;
        }
    }

    /// What it shows, in milliseconds on the circle.
    pub fn shows(&self) -> u32 {
        self.reading.div_euclid(1000) as u32
    }

    fn jump(&mut self, ms: i64) {
        self.reading += ms * 1000;
    }
}

pub struct ClockBus {
    reference: Running,
    local: Running,
    /// The next message's number.
    number: u32,
    /// The Reference Time of the message before it; 0 before the first.
    captured: u32,
    /// All messages that were received.
    past: Vec<Message>,
    /// Between which lengths the intervals lie, in milliseconds.
    intervals: (usize, usize),
    /// How late a message may be received, in milliseconds.
    jitter: usize,
    /// One message in so many is lost; none on a good bus.
    lost: Option<usize>,
    /// One trouble in so many messages; none on a calm bus.
    trouble: Option<usize>,
}

/// A reading to start at, often a little before the end of the circle or its half.
fn start(random: &mut Random) -> u32 {
    let any = random.next() as u32;
    let little = random.upto(60_000) as u32;
    one_of(
        random,
        &[0, any, little, little.wrapping_neg(), little.wrapping_neg(), (1 << 31) - little],
    )
}

/// A rate: none, allowed, about as much as is just allowed, and more.
fn rate(random: &mut Random) -> i64 {
    let limit = 980 + random.upto(60) as i64;
    let rate = one_of(random, &[0, 0, 20, 50, 500, 900, limit, limit, 1100, 2000, 5000, 20_000]);
    one_of(random, &[rate, -rate])
}

/// Distances of a jump that is about as far as is just allowed.
const LITTLE: [i64; 8] = [1, 20, 50, 98, 99, 100, 101, 150];

/// Shortest and longest interval. At 1,764 ms 18 messages come in the first 30 s, at 1,765 ms 17.
#[rustfmt::skip]
const INTERVALS: [(usize, usize); 16] = [
    (20, 20), (100, 300), (250, 250), (500, 500), (500, 500), (400, 600), (1000, 1000), (1400, 1499), (1600, 1760), (1764, 1764), (1765, 1765), (1500, 3000),
    (2950, 3050), (3000, 3000), (3001, 3001), (20, 3200),
];

impl ClockBus {
    pub fn new(random: &mut Random) -> ClockBus {
        let reference = Running::new(start(random), 0);
        let local = Running::new(start(random), rate(random));
        let (any, last) = (random.next() as u32, u32::MAX - random.upto(60) as u32);
        let number = one_of(random, &[0, 0, 0, 1, any, last]);
        // Whoever is switched on later than the reference clock hears of a message that came before.
        let captured = if number == 0 { 0 } else { reference.shows() };
        ClockBus {
            reference,
            local,
            number,
            captured,
            past: Vec::new(),
            intervals: one_of(random, &INTERVALS),
            jitter: one_of(random, &[0, 0, 0, 1, 3, 10, 60, 110]),
            lost: one_of(random, &[None, None, None, Some(50), Some(10), Some(3)]),
            trouble: one_of(random, &[None, None, Some(300), Some(80), Some(20)]),
        }
    }

    /// The next message that is received, and the local time at its reception.
    pub fn next(&mut self, random: &mut Random, shares: &mut Shares) -> (Message, LocalTime) {
        loop {
            if self.trouble.map_or(false, |times| once_in(random, times)) {
                if let Some(again) = self.repeats(random, shares) {
                    return again;
                }
                self.troubles(random, shares);
            }
            let (shortest, longest) = self.intervals;
            self.pass(shortest + random.upto(longest - shortest));
            let message = self.sends();
            if self.lost.map_or(false, |times| once_in(random, times)) {
                shares.count(30, "bus: a message is lost");
                continue;
            }
            self.past.push(message);
            return self.received(message, random);
        }
    }

    /// Milliseconds pass, after which no clock stands still any more.
    fn pass(&mut self, ms: usize) {
        for clock in [&mut self.reference, &mut self.local] {
            clock.pass(ms as i64 * 1000);
            clock.stands = false;
        }
    }

    /// 6.3.1.3, 6.3.1.7: a message has the next number and tells when the one before was on the bus.
    fn sends(&mut self) -> Message {
        let message = Message {
            number: self.number,
            reference: RefTime { ms: self.captured },
        };
        self.number = self.number.wrapping_add(1);
        self.captured = self.reference.shows();
        message
    }

    fn received(&self, message: Message, random: &mut Random) -> (Message, LocalTime) {
        let late = random.upto(self.jitter) as u32;
        let ms = self.local.shows().wrapping_add(late);
        (message, LocalTime { ms })
    }

    /// Now and then a message comes again: the last one or an older one.
    fn repeats(&mut self, random: &mut Random, shares: &mut Shares) -> Option<(Message, LocalTime)> {
        let older = random.upto(20);
        let (what, back) = match random.upto(11) {
            0 => ("bus: a message comes twice", 0),
            1 => ("bus: an older message comes again", older),
            _ => return None,
        };
        let message = *self.past.iter().rev().nth(back)?;
        shares.count(30, what);
        self.pass(random.upto(30));
        Some(self.received(message, random))
    }

    /// Something happens to a clock, or to the numbers.
    fn troubles(&mut self, random: &mut Random, shares: &mut Shares) {
        let little = one_of(random, &LITTLE);
        let little = one_of(random, &[little, -little]);
        let far = i64::from(random.next() as u32);
        let what = match random.upto(12) {
            0 => {
                self.local.jump(little);
                "bus: the local clock jumps a little"
            }
            1 => {
                self.local.jump(far);
                "bus: the local clock jumps far"
            }
            2 => {
                self.reference.jump(little);
                "bus: the reference clock jumps a little"
            }
            3 => {
                self.reference.jump(far);
                "bus: the reference clock jumps far"
            }
            4 | 5 => {
                self.local.stands = true;
                "bus: the local clock stands still"
            }
            6 => {
                self.reference.stands = true;
                "bus: the reference clock stands still"
            }
            7 => {
                self.reference = Running::new(one_of(random, &[0, 0, far as u32]), 0);
                (self.number, self.captured) = (0, 0);
                "bus: the reference clock restarts"
            }
            8 => {
                self.number = self.number.wrapping_add(1 + random.upto(1000) as u32);
                "bus: numbers skip"
            }
            9 => {
                self.number = self.number.wrapping_sub(1 + random.upto(10) as u32);
                "bus: numbers go back"
            }
            10 => {
                self.number = u32::MAX - random.upto(3) as u32;
                "bus: numbers reach their end"
            }
            11 => {
                (self.local.stands, self.reference.stands) = (true, true);
                "bus: two messages at one moment"
            }
            _ => {
                self.pass(2000 + random.upto(1100));
                "bus: a long interval"
            }
        };
        shares.count(30, what);
    }
}
