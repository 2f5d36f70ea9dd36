//! The telegrams on a bus and what befalls them: they are lost, doubled, delayed, reordered, damaged and returned, cross into another connection,
//! reach another station or come from another address; and two stations may be exchanged for a while.

use crate::link_step::{Record, CLOSED, FINALLY_CLOSED};
use crate::node_call::Frame;
use crate::random::{once_in, one_of, Random};
use crate::random_calls::{damaged, of_other_version};
use crate::shares::Shares;
use crate::stations::{another, station_at, two_of, Station};
use std::collections::VecDeque;

/// A telegram on its way, and which station it goes to.
#[derive(Clone)]
pub struct Flying {
    pub to: usize,
    pub frame: Frame,
    pub telegram: Vec<u8>,
}

pub struct Wire {
    /// The telegrams on the way, the oldest first.
    flying: VecDeque<Flying>,
    /// Those that have arrived.
    past: Vec<Flying>,
    /// One fault in so many telegrams; none on a calm bus.
    faults: Option<usize>,
    exchanged: Option<(usize, usize)>,
}

impl Wire {
    pub fn new(random: &mut Random) -> Wire {
        Wire {
            flying: VecDeque::new(),
            past: Vec::new(),
            faults: one_of(random, &[None, Some(100), Some(30), Some(12), Some(6)]),
            exchanged: None,
        }
    }

    pub fn is_calm(&self) -> bool {
        self.faults.is_none()
    }

    pub fn is_empty(&self) -> bool {
        self.flying.is_empty()
    }

    pub fn send(&mut self, flying: Flying) {
        self.flying.push_back(flying);
    }

    /// Exchanges two stations now and then, for a while.
    pub fn exchange(&mut self, stations: &[Station], random: &mut Random) {
        let times = if self.exchanged.is_none() { 500 } else { 40 };
        if !self.is_calm() && once_in(random, times) {
            let pair = two_of(stations, random);
            self.exchanged = self.exchanged.is_none().then(|| pair);
        }
    }

    /// The telegram that arrives next; nothing where the bus is empty or loses it.
    pub fn arrival(&mut self, stations: &[Station], random: &mut Random, shares: &mut Shares) -> Option<Flying> {
        let fault = self.faults.map_or(false, |times| once_in(random, times));
        let (what, arrived) = if fault {
            self.faulty(stations, random)
        } else {
            ("arrives as it was sent", self.flying.pop_front())
        };
        if arrived.is_some() || what == "is lost" {
            shares.count(50, format!("bus: a telegram {what}"));
        }
        let arrived = arrived?;
        if !fault {
            self.past.push(arrived.clone());
        }
        let exchanged = self.through_exchange(stations, arrived.clone());
        if (exchanged.to, exchanged.frame) != (arrived.to, arrived.frame) {
            shares.count(50, "bus: a telegram from or to an exchanged station");
        }
        Some(exchanged)
    }

    /// The telegram as it arrives where two stations are exchanged: from the other's address, at the other.
    fn through_exchange(&self, stations: &[Station], flying: Flying) -> Flying {
        let other = |station: usize| match self.exchanged {
            Some((first, second)) if station == first => second,
            Some((first, second)) if station == second => first,
            _ => station,
        };
        let from = station_at(stations, flying.frame.sender);
        let sender = from.map_or(flying.frame.sender, |from| stations[other(from)].head.own);
        Flying {
            to: other(flying.to),
            frame: Frame { sender, ..flying.frame },
            telegram: flying.telegram,
        }
    }

    /// A telegram with which something happens on the bus, and what.
    fn faulty(&mut self, stations: &[Station], random: &mut Random) -> (&'static str, Option<Flying>) {
        let kind = random.upto(14);
        match kind {
            1 => return ("is doubled", self.flying.front().cloned()),
            2 => return ("overtakes another", self.flying.remove(1 + random.upto(1))),
            3 => return ("arrives once more, late", self.past.get(random.upto(self.past.len())).cloned()),
            _ => {}
        }
        let flying = match self.flying.pop_front() {
            Some(flying) => flying,
            None => return ("doesn't come", None),
        };
        match kind {
            0 => ("is lost", None),
            4 => ("comes back to its sender", returned(stations, flying)),
            5 => ("is of another version", other_version(stations, flying, random)),
            6 => ("reaches another station", Some(misled(stations, flying, random))),
            7 => ("comes from another address", disguised(stations, flying, random)),
            8..=12 => crossed(stations, flying, random),
            _ => ("is damaged", Some(damaged_on_way(flying, random))),
        }
    }
}

fn returned(stations: &[Station], flying: Flying) -> Option<Flying> {
    station_at(stations, flying.frame.sender).map(|to| Flying { to, ..flying })
}

/// A request or confirm is of another version; another telegram is lost.
fn other_version(stations: &[Station], flying: Flying, random: &mut Random) -> Option<Flying> {
    let Station { head, table, .. } = &stations[flying.to];
    let record = table.iter().find(|record| Frame::to(record) == flying.frame)?;
    let telegram = of_other_version(record, head.own, flying.telegram, random)?;
    Some(Flying { telegram, ..flying })
}

fn misled(stations: &[Station], flying: Flying, random: &mut Random) -> Flying {
    let to = another(stations, flying.to, random);
    Flying { to, ..flying }
}

fn disguised(stations: &[Station], flying: Flying, random: &mut Random) -> Option<Flying> {
    let from = station_at(stations, flying.frame.sender)?;
    let sender = stations[another(stations, from, random)].head.own;
    let frame = Frame { sender, ..flying.frame };
    Some(Flying { frame, ..flying })
}

fn damaged_on_way(flying: Flying, random: &mut Random) -> Flying {
    let telegram = damaged(flying.telegram, random);
    Flying { telegram, ..flying }
}

/// In the frame of another connection of the same station: of one that expects its number, or of one that isn't closed, where there is one.
fn crossed(stations: &[Station], flying: Flying, random: &mut Random) -> (&'static str, Option<Flying>) {
    let Station { table, .. } = &stations[flying.to];
    let others: Vec<&Record> = table.iter().filter(|record| Frame::to(record) != flying.frame).collect();
    let in_use: Vec<&Record> = among(&others, |record| ![CLOSED, FINALLY_CLOSED].contains(&record.phase));
    let expecting: Vec<&Record> = among(&in_use, |record| record.expected as u8 == flying.telegram[0]);
    let (what, records) = match (expecting.is_empty(), in_use.is_empty()) {
        (false, _) => ("crosses into a connection that expects its number", expecting),
        (true, false) => ("crosses into a connection that expects another number", in_use),
        (true, true) => ("crosses into a closed connection", others),
    };
    if records.is_empty() {
        return ("is lost", None);
    }
    let frame = Frame::to(one_of(random, &records));
    (what, Some(Flying { frame, ..flying }))
}

fn among<'a>(records: &[&'a Record], wanted: impl Fn(&Record) -> bool) -> Vec<&'a Record> {
    records.iter().copied().filter(|record| wanted(record)).collect()
}
