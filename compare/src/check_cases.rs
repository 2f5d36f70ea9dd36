//! Systematic cases for the check and for the place of the net data.

use crate::case::{Case, Demand};
use crate::check::{check_by, Clause, Verdict, CLAUSES};
use crate::draft::{connect_drafts, drafts, longest_drafts, Draft};
use crate::program::FAILED;
use crate::random::Random;
use crate::samples::{limits, out_of_range, pattern, NUMBER};
use crate::telegram::{End, Kind, Level};
use std::ops::RangeInclusive;

const PASSES: Demand = Demand::Answer(0);
const FAILS: Demand = Demand::Answer(FAILED);

/// The demand on a telegram in which this clause may be broken and no other is.
fn unless_broken(holds: bool, clause: Clause) -> Demand {
    if holds {
        PASSES
    } else {
        Demand::Broken(vec![clause])
    }
}

/// Every command in a telegram of each kind's shape. What isn't of the level, or is no command, must fail; a command of the kind must pass.
pub fn commands() -> Vec<Case> {
    let mut cases = Vec::new();
    for draft in drafts() {
        let first = if draft.level == Level::Sl4 { 0x80 } else { 0x00 };
        for command in 0..=255u8 {
            let of_level = (first..=first + 0x3F).contains(&command);
            let of_data = matches!(command & 0x3F, 0x09 | 0x20..=0x3F);
            let known = matches!(command & 0x3F, 0x00 | 0x02..=0x06) || of_data;
            let of_kind = command == draft.body[1] || draft.kind == Kind::Data && of_data;
            let demand = match (of_level && known, of_kind) {
                (false, _) => FAILS,
                (true, true) => PASSES,
                (true, false) => Demand::Agree,
            };
            let changed = draft.with(1, command);
            cases.push(changed.case(demand));
            cases.push(changed.spoilt(0x10).case(FAILS));
        }
    }
    cases
}

/// The lengths that suit a kind, by the tables of 5.2 and the scope.
fn suiting(kind: Kind, level: Level) -> RangeInclusive<usize> {
    match (kind, level) {
        (Kind::Request | Kind::Confirm, Level::Sl4) => 18..=244,
        (Kind::Request | Kind::Confirm, Level::Sl2) => 16..=244,
        (Kind::Authentication | Kind::Acknowledgement, Level::Sl4) => 12..=12,
        (Kind::Authentication | Kind::Acknowledgement, Level::Sl2) => 10..=10,
        (Kind::Disconnect, Level::Sl4) => 10..=50,
        (Kind::Disconnect, Level::Sl2) => 8..=48,
        (Kind::Idle, Level::Sl4) => 8..=8,
        (Kind::Idle, Level::Sl2) => 6..=6,
        (Kind::Data, Level::Sl4) => 8..=244,
        (Kind::Data, Level::Sl2) => 6..=244,
    }
}

/// Each kind with every length from 0 to 260 and some far greater, with the check word right where there is room for one.
pub fn lengths() -> Vec<Case> {
    let mut cases = Vec::new();
    for draft in drafts() {
        let suiting = suiting(draft.kind, draft.level);
        for length in (0..=260usize).chain([512, 520, 0x1_0000 + 6, 0x1_0000 + 12, 0x1_0000 + 18]) {
            let telegram = match length.checked_sub(draft.word_length()) {
                None | Some(0 | 1) => draft.telegram()[..length].to_vec(),
                Some(body) => draft.of_length(body).telegram(),
            };
            let answer = match length {
                0..=5 | 245.. => 6,
                _ if suiting.contains(&length) => 0,
                _ => FAILED,
            };
            // The least length has no net data, so it tells the header too.
            let place = match suiting.contains(&length) {
                true => Demand::NetData(suiting.start() - draft.word_length(), length - suiting.start()),
                false => Demand::NetData(0, 0),
            };
            cases.push(Case::check(draft.end, draft.number, telegram.clone(), Demand::Answer(answer)));
            cases.push(Case::check(draft.end, draft.number, telegram, place));
        }
    }
    cases
}

/// The draft with one clause broken, in several ways. Where a kind has nothing by which to break it alone, there are none.
pub fn broken(draft: &Draft, clause: Clause) -> Vec<Draft> {
    let [number, command] = [draft.body[0], draft.body[1]];
    match (clause, draft.kind) {
        (Clause::Level, _) => [0x40, 0x80, 0xC0].map(|bits| draft.with(1, command ^ bits)).to_vec(),
        (Clause::Command, _) => [0x01, 0x0D, 0x1F].map(|low_six| draft.with(1, command & 0xC0 | low_six)).to_vec(),
        (Clause::Length, Kind::Authentication | Kind::Acknowledgement) => vec![draft.of_length(5), draft.of_length(7)],
        (Clause::Length, Kind::Disconnect) => vec![draft.of_length(3), draft.of_length(45)],
        (Clause::Length, Kind::Idle) => vec![draft.of_length(3), draft.of_length(12)],
        (Clause::Number, _) => vec![draft.with(0, number ^ 0x01), draft.with(0, number ^ 0x80)],
        (Clause::Fields, Kind::Request | Kind::Confirm) => {
            let idle_times = [draft.with(6, 1), draft.with(6, 0xFF).with(7, 0xFF)];
            let dual_busses = [draft.with(11, 2), draft.with(11, 0xFF)];
            [idle_times, dual_busses].concat()
        }
        (Clause::Fields, Kind::Disconnect) => vec![draft.with(2, 2), draft.with(2, 0xFF)],
        (Clause::Word, _) => vec![draft.spoilt(0x01), draft.spoilt(0x80)],
        (Clause::Length | Clause::Fields, _) => vec![],
    }
}

/// Every set of clauses broken in each kind, the others right: alone, in pairs and more, with a check word made anew or a wrong one.
pub fn clauses() -> Vec<Case> {
    let mut cases = Vec::new();
    for set in 1..1 << CLAUSES.len() {
        let chosen: Vec<Clause> = (0..CLAUSES.len()).filter(|k| set >> k & 1 == 1).map(|k| CLAUSES[k]).collect();
        let broken_once_more = |drafts: Vec<Draft>, clause: &Clause| drafts.iter().flat_map(|draft| broken(draft, *clause)).collect();
        for draft in chosen.iter().fold(drafts(), broken_once_more) {
            cases.push(draft.case(Demand::Broken(chosen.clone())));
        }
    }
    cases
}

/// Telegrams too short for their command, so that the command or a field stands in the check word, and yet with every other clause right. They are found by
/// trying numbers.
pub fn too_short() -> Vec<Case> {
    let others: Vec<Clause> = CLAUSES.into_iter().filter(|clause| *clause != Clause::Length).collect();
    let mut cases = Vec::new();
    for draft in drafts() {
        let lengths = match (draft.kind, draft.level) {
            (Kind::Request | Kind::Confirm, _) => 11..12,
            (Kind::Disconnect, _) => 2..3,
            (Kind::Idle | Kind::Data, Level::Sl4) => 0..2,
            _ => 0..0,
        };
        for length in lengths {
            let fits = |short: &Draft| {
                let telegram = short.telegram();
                telegram[1] == draft.body[1] && check_by(&others, &short.end, short.number, &telegram) == Verdict::Passes
            };
            let found = (0..4_000_000).map(|number| draft.numbered(number).of_length(length)).find(fits);
            let short = found.expect("a number that makes the telegram fit");
            cases.push(short.case(Demand::Broken(vec![Clause::Length])));
        }
    }
    cases
}

/// Requests and confirms with every idle time, dual bus byte and version byte.
pub fn connect_fields() -> Vec<Case> {
    let mut cases = Vec::new();
    for (k, draft) in connect_drafts().iter().enumerate() {
        // Each of the four takes every fourth idle time, the good ones and their neighbours.
        for idle_time in (0..=0xFFFFu16).filter(|t| usize::from(*t) % 4 == k || matches!(t % 100, 0 | 1 | 99)) {
            let [low, high] = idle_time.to_le_bytes();
            let good = idle_time <= 65500 && idle_time % 100 == 0;
            cases.push(draft.with(6, low).with(7, high).case(unless_broken(good, Clause::Fields)));
        }
        for value in 0..=255 {
            cases.push(draft.with(11, value).case(unless_broken(value <= 1, Clause::Fields)));
            cases.extend([8, 9, 10].map(|version| draft.with(version, value).case(PASSES)));
        }
    }
    cases
}

/// Disconnects with every reason, listed or not, and types around the two good ones.
pub fn disconnect_fields() -> Vec<Case> {
    let mut cases = Vec::new();
    for draft in drafts().iter().filter(|draft| draft.kind == Kind::Disconnect) {
        for new_setup in [0, 1, 2, 3, 4, 0x7F, 0x80, 0x81, 0xFE, 0xFF] {
            for reason in 0..=255 {
                let changed = draft.with(2, new_setup).with(3, reason);
                cases.push(changed.case(unless_broken(new_setup <= 1, Clause::Fields)));
            }
        }
    }
    cases
}

/// A good telegram of each kind with each single bit damaged.
pub fn damaged_bits() -> Vec<Case> {
    let mut cases = Vec::new();
    for draft in drafts().iter().chain(&longest_drafts()) {
        let telegram = draft.telegram();
        cases.push(draft.case(PASSES));
        for bit in 0..telegram.len() * 8 {
            let mut damaged = telegram.clone();
            damaged[bit / 8] ^= 1 << (bit % 8);
            cases.push(Case::check(draft.end, draft.number, damaged, FAILS));
        }
    }
    cases
}

/// A good telegram of each kind damaged at each place within as many neighbouring bytes as its check word has.
pub fn damaged_bursts() -> Vec<Case> {
    let mut random = Random(0x6275_7273_7473);
    let mut cases = Vec::new();
    for draft in drafts().iter().chain(&longest_drafts()) {
        let telegram = draft.telegram();
        let count = draft.word_length();
        for start in (0..=telegram.len() - count).flat_map(|start| [start; 8]) {
            let mut damaged = telegram.clone();
            // Bits are damaged seldom enough that some bytes stay whole, and at least one bit is.
            damaged[start..start + count]
                .iter_mut()
                .for_each(|byte| *byte ^= (random.next() & random.next() & random.next()) as u8);
            if damaged == telegram {
                damaged[start + random.upto(count - 1)] ^= 0x01;
            }
            cases.push(Case::check(draft.end, draft.number, damaged, FAILS));
        }
    }
    cases
}

/// Good telegrams under another number expected: each bit differs in turn, and some distances, 256 older among them. A request and a confirm are checked with
/// their own random number, and so pass.
pub fn numbers() -> Vec<Case> {
    const SENT: [u32; 7] = [0, 1, 0xFF, 0x100, NUMBER, 0xFFFF_FF00, 0xFFFF_FFFF];
    const DISTANCES: [u32; 8] = [1, 2, 255, 256, 512, 0x1_0000, 0x100_0000, 0x8000_0000];
    let mut cases = Vec::new();
    for draft in drafts() {
        for sent in SENT {
            let draft = draft.numbered(sent);
            cases.push(draft.case(PASSES));
            let bits = (0..32).map(|bit| sent ^ 1 << bit);
            let older = DISTANCES.map(|distance| sent.wrapping_add(distance));
            let newer = DISTANCES.map(|distance| sent.wrapping_sub(distance));
            for expected in bits.chain(older).chain(newer) {
                let demand = if draft.is_connect() { PASSES } else { FAILS };
                cases.push(draft.case_by(draft.end, expected, demand));
            }
        }
    }
    cases
}

/// Requests and confirms with every byte 1: only the lowest byte of the random number passes, also where the number expected would fit another.
pub fn random_numbers() -> Vec<Case> {
    let mut cases = Vec::new();
    for draft in connect_drafts() {
        for lowest in 0..=255 {
            let changed = draft.with(0, lowest);
            let demand = || unless_broken(lowest == draft.body[2], Clause::Number);
            cases.push(changed.case(demand()));
            cases.push(changed.case_by(draft.end, draft.number & 0xFFFF_FF00 | u32::from(lowest), demand()));
        }
    }
    cases
}

/// The end, and all that differ from it in one address or SAP, in the order of the two addresses or of the two SAPs, or in the level; and its partner.
fn ends_around(end: End) -> Vec<End> {
    let [own, partner, partner_sap, local_sap, level] = end.numbers();
    let crossed = End {
        own: partner,
        partner: own,
        ..end
    };
    let saps_crossed = End {
        partner_sap: local_sap,
        local_sap: partner_sap,
        ..end
    };
    let mut ends = vec![end, end.mirrored(), crossed, saps_crossed, End { level: 6 - level, ..end }];
    for address in 0..=126 {
        ends.extend([End { own: address, ..end }, End { partner: address, ..end }]);
    }
    for sap in 0..=62 {
        ends.extend([End { partner_sap: sap, ..end }, End { local_sap: sap, ..end }]);
    }
    ends
}

/// Good telegrams under those ends: only the right one takes them.
pub fn other_ends() -> Vec<Case> {
    let mut cases = Vec::new();
    for draft in drafts().iter().chain(&longest_drafts()) {
        for end in ends_around(draft.end) {
            let demand = if end == draft.end { PASSES } else { FAILS };
            cases.push(draft.case_by(end, draft.number, demand));
        }
    }
    cases
}

/// Ends at their limits and past them, with a telegram made for just that end; and the order of the refusals: 1 comes before 6.
pub fn refusals() -> Vec<Case> {
    let mut cases = Vec::new();
    for draft in drafts() {
        for (end, answer) in limits(draft.end) {
            let level = Level::named(end.level).unwrap_or(draft.level);
            let first = if level == Level::Sl4 { 0x80 } else { 0x00 };
            let draft = draft.with(1, first | draft.body[1] & 0x3F);
            cases.push(Draft { end, level, ..draft }.case(Demand::Answer(answer)));
        }
        for length in [0, 1, 2, 5, 245, 256, 300, 0x1_0000 + 8] {
            let refused = |end, answer| Case::check(end, draft.number, pattern(length), Demand::Answer(answer));
            cases.push(refused(draft.end, 6));
            cases.extend(out_of_range(draft.end).into_iter().map(|end| refused(end, 1)));
        }
    }
    cases
}
