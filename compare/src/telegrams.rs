//! The telegrams: the library against the printed ones, the library against the second program case by case, and the cases against wrong programs.

use crate::case::{Call, Case, Demand, Outcome};
use crate::program::{Program, FAILED, LIBRARY, SECOND};
use crate::random::Random;
use crate::tally::Tally;
use crate::telegram::{End, Telegram, LONGEST};
use crate::word::{word_bytes, SL2, SL4};
use crate::words::hex;
use crate::worked::{by_hand, printed, IDLE_IMPLICIT, IDLE_NUMBER, IDLE_PRINTED, IDLE_SENDER};
use crate::wrong::wrong_programs;
use crate::{check_cases, random_cases, write_cases};
use std::collections::BTreeMap;

const SEED: u64 = 0x7465_6C65_6772_616D;
const RANDOM_CASES: usize = 200_000;
const PROGRAMS: [(&str, Program); 2] = [("library", LIBRARY), ("second program", SECOND)];

/// The telegram that a program writes; nothing where it refuses.
fn telegram_by(program: &Program, sender: &End, telegram: &Telegram) -> Vec<u8> {
    let mut out = vec![0xEE; LONGEST];
    let written = (program.write)(sender, telegram, &mut out);
    out.truncate(if written.answer == 0 { written.length as usize } else { 0 });
    out
}

/// Each printed telegram as a whole: written by both programs, and checked by both at the other end.
pub fn vectors(tally: &mut Tally) {
    println!("{:<11}{:<31}whole telegram", "clause", "");
    for p in printed() {
        tally.printed();
        println!("{:<11}{:<31}{}  printed", p.clause, p.what, hex(p.bytes));
        for (who, program) in PROGRAMS {
            let bytes = telegram_by(&program, &p.sender, &p.telegram);
            let answer = (program.check)(&p.sender.mirrored(), p.telegram.number(), p.bytes);
            println!("{:<42}{}  {who}; its check answers {answer}", "", hex(&bytes));
            tally.hold(bytes == p.bytes, || format!("the {who} at {}, {}", p.clause, p.what));
            tally.hold(answer == 0, || format!("the check of the {who} at {}, {}", p.clause, p.what));
        }
    }
    idle_vector(tally);
    tally.told("printed telegrams: each written and checked by both programs");
}

/// 5.3.1.8 prints the length 08h for a telegram of six bytes. What is written differs from it in the check word, and what is printed doesn't pass.
fn idle_vector(tally: &mut Tally) {
    let (clause, what) = ("5.3.1.8", "idle, SL 2");
    tally.printed();
    println!("{clause:<11}{what:<31}{}  printed, for the length 08h", hex(&IDLE_PRINTED));
    let without_word = &IDLE_PRINTED[..2];
    let word = word_bytes(SL2, &[&IDLE_IMPLICIT, without_word].concat());
    let right = [without_word, &word].concat();
    for (who, program) in PROGRAMS {
        let bytes = telegram_by(&program, &IDLE_SENDER, &Telegram::idle(IDLE_NUMBER));
        let check = |telegram: &[u8]| (program.check)(&IDLE_SENDER.mirrored(), IDLE_NUMBER, telegram);
        println!("{:<42}{}  {who}, for the length 06h", "", hex(&bytes));
        tally.hold(bytes == right, || format!("the {who} at {clause}, {what}"));
        tally.hold(check(&right) == 0, || format!("the check of the {who} at {clause}, {what}"));
        tally.hold(check(&IDLE_PRINTED) >= FAILED, || format!("the {who} passes the misprint at {clause}"));
    }
}

/// The telegrams laid out by hand: written by both programs, and checked by both at the other end.
pub fn laid_out_by_hand(tally: &mut Tally) {
    for hand in by_hand() {
        let generator = if hand.sender.level == 4 { SL4 } else { SL2 };
        let word = word_bytes(generator, &[&hand.implicit, hand.body].concat());
        let bytes = [hand.body, &word].concat();
        for (who, program) in PROGRAMS {
            let (sender, telegram) = (&hand.sender, &hand.telegram);
            let answer = (program.check)(&sender.mirrored(), telegram.number(), &bytes);
            tally.hold(telegram_by(&program, sender, telegram) == bytes, || {
                format!("the {who} writes {telegram:X?}")
            });
            tally.hold(answer == 0, || format!("the check of {telegram:X?} by the {who} answers {answer}"));
        }
    }
    tally.told("telegrams laid out by hand: each kind at each level, written and checked by both programs");
}

/// Each wrong program is seen by the group named with it: so the comparisons can fail.
pub fn wrong_programs_are_seen(tally: &mut Tally) {
    for wrong in wrong_programs() {
        let seen = (wrong.seen_by)().iter().any(|case| case.sees(&wrong.program));
        tally.hold(seen, || format!("no case sees {}", wrong.what));
    }
    tally.told("wrong programs: each is seen by one of the systematic groups below");
}

/// The systematic cases, group by group.
pub fn systematic(tally: &mut Tally) {
    let mut group = |what: &str, cases: Vec<Case>| {
        for case in cases {
            case.compare(tally);
        }
        tally.told(what);
    };
    group(
        "writers, ends: addresses, SAPs and level at their limits and past them",
        write_cases::ends(),
    );
    group("writers, buffers: of 0 to 1000 bytes", write_cases::rooms());
    group("writers, numbers: where bytes carry over and the number wraps", write_cases::numbers());
    group("writers, idle times: every one up to 66000, and greater ones", write_cases::idle_times());
    group(
        "writers, net data and text: every length up to 260, and greater ones",
        write_cases::net_lengths(),
    );
    group("writers, disconnect: types, and every reason up to 260", write_cases::types_and_reasons());
    group("writers, data: every command up to 300, and greater ones", write_cases::data_commands());
    group("writers, refusals: 1, 4 and 5 alone and together", write_cases::refusals());
    group("check, commands: every one in each kind's shape", check_cases::commands());
    group("check, lengths: every one up to 260, and greater ones", check_cases::lengths());
    group("check, clauses: every set of the six broken, the others right", check_cases::clauses());
    group(
        "check, too short: command or field in the check word, all else right",
        check_cases::too_short(),
    );
    group(
        "check, request and confirm: every idle time, dual bus and version",
        check_cases::connect_fields(),
    );
    group("check, request and confirm: every byte 1", check_cases::random_numbers());
    group(
        "check, disconnect: types, and every reason, listed or not",
        check_cases::disconnect_fields(),
    );
    group("check, single bits: each damaged in each kind, all fail", check_cases::damaged_bits());
    group(
        "check, bursts: as many bytes damaged as the check word has, all fail",
        check_cases::damaged_bursts(),
    );
    group(
        "check, numbers: another one expected, a telegram 256 older among them",
        check_cases::numbers(),
    );
    group(
        "check, other ends: another address or SAP, or two swapped, all fail",
        check_cases::other_ends(),
    );
    group("check, refusals: 1 and 6 alone and together", check_cases::refusals());
}

/// How often a writer, and how often the check, gave each answer.
#[derive(Default)]
struct Shares(BTreeMap<(&'static str, u32), usize>);

impl Shares {
    fn count(&mut self, outcome: &Outcome) {
        let who = match outcome {
            Outcome::Written { .. } => "writers",
            Outcome::Checked { .. } => "check",
        };
        *self.0.entry((who, outcome.answer())).or_default() += 1;
    }

    fn tell(&self) {
        for ((who, answer), times) in &self.0 {
            println!("{:>20}  {who}, answer {answer}", times);
        }
    }
}

/// A telegram that a random call wrote, for the check at the other end.
fn check_of(case: &Case, outcome: &Outcome) -> Option<Case> {
    match (&case.call, outcome) {
        (Call::Write { end, telegram, .. }, Outcome::Written { answer: 0, length, after }) => {
            let bytes = after[..*length as usize].to_vec();
            Some(Case::check(end.mirrored(), telegram.number(), bytes, Demand::Answer(0)))
        }
        _ => None,
    }
}

/// Random cases. What was written goes to the check at the other end besides.
pub fn random(tally: &mut Tally) {
    const CASES: [fn(&mut Random) -> Case; 8] = [
        random_cases::write,
        random_cases::write,
        random_cases::write,
        random_cases::write,
        random_cases::right_or_wrong_number,
        random_cases::damaged,
        random_cases::random_under_word,
        random_cases::random_bytes,
    ];
    let mut random = Random(SEED);
    let mut shares = Shares::default();
    for made in CASES.iter().cycle().take(RANDOM_CASES) {
        let case = made(&mut random);
        tally.drawn(1);
        let outcome = case.compare(tally);
        shares.count(&outcome);
        if let Some(check) = check_of(&case, &outcome) {
            shares.count(&check.compare(tally));
        }
    }
    tally.told(&format!(
        "random: {RANDOM_CASES} cases, half of them writers; what is written is checked too (seed {SEED:#x}); of these"
    ));
    shares.tell();
}
