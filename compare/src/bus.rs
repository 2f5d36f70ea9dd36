//! A bus: its stations, the telegrams between them and its time. It gives the next call, takes over what the call brings, and knows who sent which
//! data.

use crate::link_call::Call;
use crate::link_step::{Record, CLOSED, FINALLY_CLOSED, OPEN};
use crate::node::place;
use crate::node_call::{Asked, Frame, Whose};
use crate::node_case::{Case, Outcome};
use crate::random::{once_in, one_of, Random};
use crate::random_calls::{around_limit, close, open, received, send};
use crate::shares::Shares;
use crate::stations::{connected, is_open, place_of, station_at, Station};
use crate::telegram::End;
use crate::wire::{Flying, Wire};
use std::collections::BTreeSet;

/// Data that were sent: the numbers of the end that they are for, the command and the net data.
type Sent = ([u32; 5], u32, Vec<u8>);

pub struct Bus {
    pub stations: Vec<Station>,
    wire: Wire,
    /// The ends that most calls are about, so that their connections get far.
    busy: Vec<End>,
    now: u64,
    /// Mostly less than so much time passes from one call to the next.
    pace: u64,
    /// An open connection sends data once in so many times that it could.
    silence: usize,
    /// The random number that all are lent, on some busses.
    lent: Option<u32>,
    sent: BTreeSet<Sent>,
}

impl Bus {
    pub fn new(random: &mut Random) -> Bus {
        let (stations, busy) = connected(random);
        let any = random.next() >> 1;
        let number = random.next() as u32;
        Bus {
            stations,
            wire: Wire::new(random),
            busy,
            now: one_of(random, &[0, 1_000_000, 0xFFFF_F000, any, 1 << 63, u64::MAX - 3_000_000]),
            pace: one_of(random, &[1, 4, 12]),
            silence: one_of(random, &[1, 1, 3, 10]),
            lent: one_of(random, &[None, Some(number), Some(number), Some(u32::MAX - 5)]),
            sent: BTreeSet::new(),
        }
    }

    /// A record that something is to happen to, mostly a busy one: its station and its place.
    fn one_record(&self, random: &mut Random) -> (usize, usize) {
        let end = one_of(random, &self.busy);
        match place_of(&self.stations, &end) {
            Some(busy) if !once_in(random, 15) => busy,
            _ => {
                let station = random.upto(self.stations.len() - 1);
                (station, random.upto(self.stations[station].table.len() - 1))
            }
        }
    }

    /// The same, rather one that waits for no telegram.
    fn one_ready(&self, random: &mut Random) -> (usize, usize) {
        let (station, place) = self.one_record(random);
        match self.stations[station].table[place].waits() {
            true => self.one_record(random),
            false => (station, place),
        }
    }

    /// The clock of a station. Now and then, but never on a calm bus, it is a little behind.
    fn time(&self, station: usize, random: &mut Random) -> u64 {
        let time = self.now.saturating_add(self.stations[station].ahead);
        match !self.wire.is_calm() && once_in(random, 60) {
            true => time.saturating_sub(random.next() % 100),
            false => time,
        }
    }

    /// Time passes: mostly little, sometimes up to a limit of one of the records, seldom far beyond. While a record waits in vain, it passes sooner.
    fn pass_time(&mut self, random: &mut Random) {
        let (station, place) = self.one_record(random);
        let Station { table, ahead, .. } = &self.stations[station];
        let record = table[place];
        let in_vain = self.wire.is_empty() && record.waits() && once_in(random, 6);
        let limit = around_limit(&record, random).saturating_sub(*ahead).max(self.now);
        self.now = match random.upto(1999) {
            _ if in_vain => limit,
            0..=1899 => self.now.saturating_add(random.next() % self.pace),
            1900..=1979 => self.now.saturating_add(random.next() % 100),
            1980..=1998 if record.phase != CLOSED => limit,
            _ => self.now.saturating_add(random.next() % 80_000),
        };
    }

    /// What happens beside the calls: after a final disconnection a node is restarted (5.2.5.5.1), records of a table are exchanged between places,
    /// and stations on the bus are exchanged.
    fn happen(&mut self, random: &mut Random, shares: &mut Shares) {
        let (station, place) = self.one_record(random);
        let Station { head, table, .. } = &mut self.stations[station];
        if table[place].phase == FINALLY_CLOSED && once_in(random, 2) {
            table[place] = Record::closed(&table[place].end(head.own), CLOSED);
        }
        if table.len() > 1 && once_in(random, 20) {
            let other = random.upto(table.len() - 1);
            table.swap(place, other);
            shares.count(50, "two records exchanged between places");
        }
        self.wire.exchange(&self.stations, random);
    }

    /// The next call, and the station that it is for.
    pub fn next(&mut self, random: &mut Random, shares: &mut Shares) -> (usize, Asked) {
        self.pass_time(random);
        self.happen(random, shares);
        let chance = random.upto(99);
        if chance < 50 {
            if let Some(Flying { to, frame, telegram }) = self.wire.arrival(&self.stations, random, shares) {
                // The net data suit both levels.
                let call = received(0, 4, telegram, random);
                return (to, self.ask(to, Whose::Frame(frame), call, random));
            }
        }
        let (station, place) = self.one_ready(random);
        let Station { head, table, .. } = &self.stations[station];
        let record = &table[place];
        let call = match chance {
            50..=59 => Call::Tick { time: 0 },
            // These come whether or not the phase has something for them to do.
            60 => open(0, record.level, random),
            61 => send(0, record.level, random),
            62 => close(random),
            _ => self.spontaneous(head.own, record, random),
        };
        (station, self.ask(station, Whose::Place(place), call, random))
    }

    fn ask(&self, station: usize, whose: Whose, call: Call, random: &mut Random) -> Asked {
        let head = self.stations[station].head;
        let time = self.time(station, random);
        let number = self.lent.unwrap_or(call.random());
        let call = call.with_random(number);
        Asked { head, time, whose, call }
    }

    /// What a node does by itself: a closed record opens, mostly that of the lower address; an open one sends; another one ticks.
    fn spontaneous(&self, own: u32, record: &Record, random: &mut Random) -> Call {
        match record.phase {
            CLOSED if own < record.partner || once_in(random, 40) => open(0, record.level, random),
            OPEN if once_in(random, self.silence) => send(0, record.level, random),
            _ => Call::Tick { time: 0 },
        }
    }

    /// Takes over what a call gave: head and table, the telegram for the bus, and the data sent.
    pub fn done(&mut self, station: usize, case: &Case, outcome: &Outcome, shares: &mut Shares) {
        let place = match place(&case.asked, &case.table) {
            Some(place) if outcome.number() == 0 => place,
            _ => return,
        };
        let answered = &outcome.answered;
        let mirrored = case.table[place].end(case.asked.head.own).mirrored();
        self.stations[station].head = answered.head;
        self.stations[station].table = outcome.table.run().to_vec();
        if let Some(to) = station_at(&self.stations, mirrored.own).filter(|_| answered.answer.telegram != 0) {
            let frame = Frame::to(&Record::closed(&mirrored, CLOSED));
            let telegram = outcome.telegram().to_vec();
            self.wire.send(Flying { to, frame, telegram });
        }
        if let Call::Send { command, net, .. } = &case.asked.call {
            self.sent.insert((mirrored.numbers(), *command, net.clone()));
        }
        if answered.happened.event == 1 && is_open(&self.stations, &mirrored) {
            shares.count(45, "connections open at both ends");
        }
    }

    /// Of a call by which data come up: whether the partner of just that record sent them.
    pub fn sent_by_partner(&self, case: &Case, outcome: &Outcome) -> Option<bool> {
        let happened = &outcome.answered.happened;
        let place = place(&case.asked, &case.table).filter(|_| happened.event == 2)?;
        let end = case.table[place].end(case.asked.head.own);
        let (start, count) = (happened.start as usize, happened.count as usize);
        let net = case.asked.call.telegram().get(start..start + count)?;
        Some(self.sent.contains(&(end.numbers(), happened.command, net.to_vec())))
    }
}
