//! Random conversations: two ends of a connection over a bus that loses, doubles, delays, reorders, damages and returns telegrams, with opens, closes, sends and
//! ticks on both sides. Each step is put to both programs, with a buffer of random bytes before it.

use crate::link_call::Call;
use crate::link_case::{Case, Demand, Outcome};
use crate::link_step::{Record, Step, Stepped, CLOSED, FINALLY_CLOSED, OPEN};
use crate::random::{once_in, one_of, Random};
use crate::random_calls::{around_limit, close, damaged, of_other_version, open, received, send, spoil_record, spoilt_call, RECORD_SPOILS};
use crate::shares::Shares;
use crate::tally::Tally;
use crate::telegram::{End, LONGEST};
use crate::words::hex;
use std::collections::VecDeque;

const SEED: u64 = 0x636F_6E76_6572_7365;
const STEPS: usize = 200_000;
const LONGEST_CONVERSATION: usize = 400;

/// One end, with its clock's distance from the conversation's time and the data that it sent and its partner hasn't handed over yet.
struct Node {
    own: u32,
    record: Record,
    ahead: u64,
    sent: VecDeque<Vec<u8>>,
}

/// A telegram on the bus, and which node it goes to.
type Flying = (usize, Vec<u8>);

struct Conversation {
    nodes: [Node; 2],
    now: u64,
    /// The telegrams on the bus, the oldest first.
    flying: VecDeque<Flying>,
    /// Those that have arrived.
    past: Vec<Flying>,
    /// One fault in so many telegrams; none on a calm bus.
    faults: Option<usize>,
    /// An open node sends data once in so many times that it could.
    silence: usize,
}

impl Conversation {
    fn new(random: &mut Random) -> Conversation {
        let end = End {
            own: random.upto(126) as u32,
            partner: random.upto(126) as u32,
            partner_sap: random.upto(62) as u32,
            local_sap: random.upto(62) as u32,
            level: one_of(random, &[4, 2]),
        };
        let mut node = |end: End| Node {
            own: end.own,
            record: Record::closed(&end, CLOSED),
            ahead: random.next() % 1_000_000,
            sent: VecDeque::new(),
        };
        let nodes = [node(end), node(end.mirrored())];
        let any = random.next() >> 1;
        Conversation {
            nodes,
            now: one_of(random, &[0, 1_000_000, 0xFFFF_F000, any, 1 << 63, u64::MAX - 2_000_000]),
            flying: VecDeque::new(),
            past: Vec::new(),
            faults: one_of(random, &[None, None, Some(60), Some(20), Some(6)]),
            silence: one_of(random, &[1, 3, 20]),
        }
    }

    /// The clock of a node. Now and then, but never on a calm bus, it is a little behind.
    fn time(&self, who: usize, random: &mut Random) -> u64 {
        let time = self.now.saturating_add(self.nodes[who].ahead);
        match self.faults.is_some() && once_in(random, 100) {
            true => time.saturating_sub(random.next() % 100),
            false => time,
        }
    }

    /// Time passes: mostly little, sometimes up to a limit of one of the records, seldom far beyond. While a record waits in vain, it passes sooner.
    fn pass_time(&mut self, random: &mut Random) {
        let who = random.upto(1);
        let record = &self.nodes[who].record;
        let in_vain = self.flying.is_empty() && record.waits() && once_in(random, 6);
        self.now = match random.upto(999) {
            _ if in_vain => self.limit(who, random).max(self.now),
            0..=899 => self.now.saturating_add(random.next() % 12),
            900..=969 => self.now.saturating_add(random.next() % 250),
            970..=997 if record.phase != CLOSED => self.limit(who, random).max(self.now),
            _ => self.now.saturating_add(random.next() % 80_000),
        };
    }

    /// When a node's clock is around a limit of its record.
    fn limit(&self, who: usize, random: &mut Random) -> u64 {
        let Node { record, ahead, .. } = &self.nodes[who];
        around_limit(record, random).saturating_sub(*ahead)
    }

    /// A step of one of the nodes, compared. Once in a while it has something wrong; what comes of it is left then.
    fn step(&mut self, random: &mut Random, tally: &mut Tally, shares: &mut Shares) {
        self.pass_time(random);
        self.restart(random);
        let (who, call) = self.call(random, shares);
        let Node { own, record, .. } = self.nodes[who];
        let step = Step { record, own, call };
        let room = LONGEST + one_of(random, &[0, 0, 0, 1, 12, 56]);
        let before = random.bytes(room);
        let demand = Demand::Agree;
        let case = Case { step, before, demand };
        let spoils = once_in(random, 25);
        let case = if spoils { spoilt(case, random) } else { case };
        tally.drawn(1);
        let outcome = case.compare(tally);
        shares.count_step(&case.step.record, &outcome.stepped);
        if !spoils {
            self.done(who, &case.step.call, &outcome, tally);
        }
    }

    /// Which node does what.
    fn call(&mut self, random: &mut Random, shares: &mut Shares) -> (usize, Call) {
        let who = random.upto(1);
        let (time, level) = (self.time(who, random), self.nodes[who].record.level);
        match random.upto(99) {
            0..=49 => match self.arrival(random, shares) {
                Some(arrival) => arrival,
                None => (who, self.spontaneous(who, random)),
            },
            50..=69 => (who, Call::Tick { time }),
            70..=96 => (who, self.spontaneous(who, random)),
            // These come whether or not the phase has something for them to do.
            97 => (who, open(time, level, random)),
            98 => (who, send(time, level, random)),
            _ => (who, close(random)),
        }
    }

    /// What a node does by itself: a closed one opens, mostly the first; an open one sends; another one ticks.
    fn spontaneous(&self, who: usize, random: &mut Random) -> Call {
        let time = self.time(who, random);
        let record = &self.nodes[who].record;
        match record.phase {
            CLOSED if who == 0 || once_in(random, 8) => open(time, record.level, random),
            OPEN if once_in(random, self.silence) => send(time, record.level, random),
            _ => Call::Tick { time },
        }
    }

    /// Takes over what a step gave: the record, the telegram for the bus, the data handed over. On a calm bus these are the partner's, in their order.
    fn done(&mut self, who: usize, call: &Call, outcome: &Outcome, tally: &mut Tally) {
        let partner = 1 - who;
        let Stepped { record, answer, happened } = outcome.stepped;
        self.nodes[who].record = record;
        if answer.telegram != 0 {
            self.flying.push_back((partner, outcome.telegram().to_vec()));
        }
        match (happened.event, call) {
            (1, _) => self.nodes[who].sent.clear(),
            (0, Call::Send { net, .. }) if answer.number == 0 => self.nodes[who].sent.push_back(net.clone()),
            (2, Call::Received { telegram, .. }) if self.faults.is_none() => {
                let (start, count) = (happened.start as usize, happened.count as usize);
                let sent = self.nodes[partner].sent.pop_front();
                tally.hold(sent.as_deref() == telegram.get(start..start + count), || {
                    format!("handed over {}, but sent {sent:X?}", hex(telegram))
                });
            }
            _ => {}
        }
    }

    /// 5.2.5.5.1: after a final disconnection a node is restarted.
    fn restart(&mut self, random: &mut Random) {
        for node in &mut self.nodes {
            if node.record.phase == FINALLY_CLOSED && once_in(random, 8) {
                node.record = Record::closed(&node.record.end(node.own), CLOSED);
            }
        }
    }

    /// The telegram that arrives next; nothing where the bus is empty or loses it.
    fn arrival(&mut self, random: &mut Random, shares: &mut Shares) -> Option<(usize, Call)> {
        let fault = self.faults.map_or(false, |times| once_in(random, times));
        let (what, arrived) = if fault {
            self.faulty(random)
        } else {
            ("arrives as it was sent", self.flying.pop_front())
        };
        let arrived = arrived.filter(|(_, telegram)| telegram.len() >= 2);
        if arrived.is_some() || what == "is lost" {
            shares.count(50, format!("bus: a telegram {what}"));
        }
        let (to, telegram) = arrived?;
        if !fault {
            self.past.push((to, telegram.clone()));
        }
        let time = self.time(to, random);
        Some((to, received(time, self.nodes[to].record.level, telegram, random)))
    }

    /// A telegram with which something happens on the bus, and what.
    fn faulty(&mut self, random: &mut Random) -> (&'static str, Option<Flying>) {
        match random.upto(7) {
            0 if !self.flying.is_empty() => ("is lost", self.flying.pop_front().and(None)),
            1 => ("is doubled", self.flying.front().cloned()),
            2 => ("overtakes another", self.flying.remove(1 + random.upto(1))),
            3 => ("arrives once more, late", self.past.get(random.upto(self.past.len())).cloned()),
            4 => (
                "comes back to its sender",
                self.flying.pop_front().map(|(to, telegram)| (1 - to, telegram)),
            ),
            5 => (
                "is of another version",
                self.flying.pop_front().and_then(|(to, telegram)| {
                    let Node { record, own, .. } = &self.nodes[to];
                    of_other_version(record, *own, telegram, random).map(|telegram| (to, telegram))
                }),
            ),
            _ => (
                "is damaged",
                self.flying.pop_front().map(|(to, telegram)| (to, damaged(telegram, random))),
            ),
        }
    }
}

/// The step with something else in the record, the own address, the buffer or the call. Mostly that is out of range.
fn spoilt(mut case: Case, random: &mut Random) -> Case {
    let Step { record, own, call } = &mut case.step;
    let beyond = random.next() as u32 % 300;
    match random.upto(14) {
        0 => *own = 127 + beyond,
        way @ 1..=RECORD_SPOILS => spoil_record(way, beyond, record, random),
        11 => case.before.truncate(random.upto(LONGEST - 1)),
        _ => *call = spoilt_call(call.clone(), random),
    }
    case
}

/// Conversations until there were enough steps.
pub fn random(tally: &mut Tally) {
    let mut random = Random(SEED);
    let mut shares = Shares::default();
    let (mut steps, mut conversations) = (0, 0);
    while steps < STEPS {
        let mut conversation = Conversation::new(&mut random);
        let length = (20 + random.upto(LONGEST_CONVERSATION)).min(STEPS - steps);
        (0..length).for_each(|_| conversation.step(&mut random, tally, &mut shares));
        steps += length;
        conversations += 1;
    }
    tally.told(&format!(
        "conversations: {STEPS} steps in {conversations}, and on a calm bus the data handed over against those sent (seed {SEED:#x}); of these"
    ));
    shares.tell();
}
