//! Wrong programs, each with the group of cases that must tell it from the second program: so the comparisons can fail. Where a wrong program doesn't say
//! otherwise, it is the second program.

use crate::case::Case;
use crate::check::{check_by, Clause, CLAUSES};
use crate::library::{Part, Written};
use crate::program::{answer, Program, FAILED, SECOND};
use crate::telegram::{implicit, reason_listed, End, Kind, Telegram, LONGEST};
use crate::word::word_bytes;
use crate::{check_cases, write_cases};

pub struct Wrong {
    pub what: &'static str,
    pub program: Program,
    pub seen_by: Group,
}

type Group = fn() -> Vec<Case>;

fn writer(what: &'static str, seen_by: Group, write: fn(&End, &Telegram, &mut [u8]) -> Written) -> Wrong {
    let program = Program { write, ..SECOND };
    Wrong { what, program, seen_by }
}

fn checker(what: &'static str, seen_by: Group, check: fn(&End, u32, &[u8]) -> u32) -> Wrong {
    let program = Program { check, ..SECOND };
    Wrong { what, program, seen_by }
}

fn placer(what: &'static str, seen_by: Group, net_data: fn(&[u8]) -> Part) -> Wrong {
    let program = Program { net_data, ..SECOND };
    Wrong { what, program, seen_by }
}

pub fn wrong_programs() -> Vec<Wrong> {
    let writers = implicit_bytes()
        .into_iter()
        .chain(fields())
        .chain(buffers())
        .chain(refusals())
        .chain(cut_numbers());
    writers
        .chain(checks())
        .chain(ends_mixed_up())
        .chain(clauses_left_out())
        .chain(places())
        .collect()
}

/// The second program's telegram with its implicit bytes, and its bytes before the check word, changed, and a check word of what they are then.
fn rewritten(end: &End, telegram: &Telegram, out: &mut [u8], change: fn(&mut [u8], &mut [u8])) -> Written {
    let written = (SECOND.write)(end, telegram, out);
    if let (0, Some(level)) = (written.answer, end.in_range()) {
        let length = written.length as usize;
        let (body, word) = out[..length].split_at_mut(length - level.generator().bytes());
        let mut implicit = implicit(length, end.sending(), telegram.number());
        change(&mut implicit, body);
        word.copy_from_slice(&word_bytes(level.generator(), &[&implicit, &*body].concat()));
    }
    written
}

fn implicit_bytes() -> Vec<Wrong> {
    let ends = write_cases::ends;
    vec![
        writer("the length without the check word", ends, |end, telegram, out| {
            rewritten(end, telegram, out, |implicit, body| implicit[0] = body.len() as u8)
        }),
        writer("the two addresses swapped", ends, |end, telegram, out| {
            rewritten(end, telegram, out, |implicit, _| implicit.swap(1, 2))
        }),
        writer("no send address", ends, |end, telegram, out| {
            rewritten(end, telegram, out, |implicit, _| implicit[2] = 0)
        }),
        writer("the receive address as the send address", ends, |end, telegram, out| {
            rewritten(end, telegram, out, |implicit, _| implicit[2] = implicit[1])
        }),
        writer("the two SAPs swapped", ends, |end, telegram, out| {
            rewritten(end, telegram, out, |implicit, _| implicit.swap(3, 4))
        }),
        writer("byte 1 of the number alone", ends, |end, telegram, out| {
            rewritten(end, telegram, out, |implicit, _| implicit[5..].fill(0))
        }),
        writer("the upper bytes of the number highest first", ends, |end, telegram, out| {
            rewritten(end, telegram, out, |implicit, _| implicit[5..].reverse())
        }),
    ]
}

fn fields() -> Vec<Wrong> {
    let numbers = write_cases::numbers;
    vec![
        writer("authentication plus 1 at both levels", numbers, |end, telegram, out| match telegram {
            Telegram::Authentication { number, received } if end.level == 2 => {
                (SECOND.write)(end, &Telegram::authentication(*number, received.wrapping_sub(1)), out)
            }
            _ => (SECOND.write)(end, telegram, out),
        }),
        writer(
            "an acknowledgement number that doesn't wrap",
            numbers,
            |end, telegram, out| match telegram {
                Telegram::Acknowledgement { number, received } => {
                    (SECOND.write)(end, &Telegram::acknowledgement(*number, (*received).min(u32::MAX - 1)), out)
                }
                _ => (SECOND.write)(end, telegram, out),
            },
        ),
        writer("fields highest byte first", numbers, |end, telegram, out| {
            rewritten(end, telegram, out, |_, body| {
                body.get_mut(2..6).into_iter().for_each(|field| field.reverse())
            })
        }),
        writer("a version written before the idle time", numbers, |end, telegram, out| {
            rewritten(end, telegram, out, |_, body| {
                body.get_mut(6..11).into_iter().for_each(|fields| fields.rotate_left(2))
            })
        }),
    ]
}

fn buffers() -> Vec<Wrong> {
    vec![
        writer("a writer that only says that it wrote", write_cases::ends, |end, telegram, out| {
            (SECOND.write)(end, telegram, &mut out.to_vec())
        }),
        writer("a buffer cleared behind the telegram", write_cases::rooms, |end, telegram, out| {
            let written = (SECOND.write)(end, telegram, out);
            if written.answer == 0 {
                out[written.length as usize..].fill(0);
            }
            written
        }),
        writer("a buffer cleared by a refusal", write_cases::refusals, |end, telegram, out| {
            let written = (SECOND.write)(end, telegram, out);
            if written.answer != 0 {
                out.fill(0);
            }
            written
        }),
    ]
}

fn refusals() -> Vec<Wrong> {
    let refused = write_cases::refusals;
    vec![
        writer("a writer that refuses everything", write_cases::ends, |_, _, _| Written {
            answer: 1,
            length: 0,
        }),
        writer(
            "4 measured against the telegram's own length",
            write_cases::rooms,
            |end, telegram, out| {
                let mut wide = [0; LONGEST];
                let written = (SECOND.write)(end, telegram, &mut wide);
                let length = written.length as usize;
                if written.answer == 0 && length <= out.len() {
                    out[..length].copy_from_slice(&wide[..length]);
                    return written;
                }
                (SECOND.write)(end, telegram, out)
            },
        ),
        writer("5 before 4", refused, |end, telegram, out| {
            match (SECOND.write)(end, telegram, &mut [0; LONGEST]) {
                written if written.answer == 5 => written,
                _ => (SECOND.write)(end, telegram, out),
            }
        }),
        writer("4 before 1", refused, |end, telegram, out| match out.len() {
            0..=243 => Written { answer: 4, length: 0 },
            _ => (SECOND.write)(end, telegram, out),
        }),
    ]
}

/// The end as it comes out of narrower numbers.
fn cut(end: &End) -> End {
    let [own, partner, partner_sap, local_sap, level] = end.numbers().map(|number| number & 0xFF);
    End {
        own,
        partner,
        partner_sap,
        local_sap,
        level,
    }
}

/// The telegram as its values come out of narrower numbers.
fn cut_values(telegram: &Telegram) -> Telegram {
    match telegram.clone() {
        Telegram::Request { random, idle_time, net } => Telegram::request(random, idle_time & 0xFFFF, net),
        Telegram::Confirm { random, idle_time, net } => Telegram::confirm(random, idle_time & 0xFFFF, net),
        Telegram::Disconnect {
            number,
            new_setup,
            reason,
            text,
        } => Telegram::disconnect(number, new_setup & 0xFF, reason & 0xFF, text),
        Telegram::Data { number, command, net } => Telegram::data(number, command & 0xFF, net),
        other => other,
    }
}

fn cut_numbers() -> Vec<Wrong> {
    let cut_writer = |what, seen_by| writer(what, seen_by, |end, telegram, out| (SECOND.write)(end, &cut_values(telegram), out));
    vec![
        writer("256 taken as 0 in an end", write_cases::ends, |end, telegram, out| {
            (SECOND.write)(&cut(end), telegram, out)
        }),
        cut_writer("an idle time cut to 16 bits", write_cases::idle_times),
        cut_writer("a type and a reason cut to 8 bits", write_cases::types_and_reasons),
        cut_writer("a command cut to 8 bits", write_cases::data_commands),
        checker(
            "256 taken as 0 in an end, by the check",
            check_cases::refusals,
            |end, expected, telegram| (SECOND.check)(&cut(end), expected, telegram),
        ),
        checker(
            "the length of a telegram cut to 8 bits",
            check_cases::lengths,
            |end, expected, telegram| (SECOND.check)(end, expected, &telegram[..telegram.len() & 0xFF]),
        ),
    ]
}

/// The check with a clause left out.
pub fn check_without(left_out: Clause, end: &End, expected: u32, telegram: &[u8]) -> u32 {
    let asked: Vec<Clause> = CLAUSES.into_iter().filter(|clause| *clause != left_out).collect();
    answer(check_by(&asked, end, expected, telegram))
}

fn kind_of(telegram: &[u8]) -> Option<Kind> {
    telegram.get(1).and_then(|command| Kind::of_command(u32::from(command & 0x3F)))
}

fn checks() -> Vec<Wrong> {
    vec![
        checker("a check that passes everything", check_cases::damaged_bits, |_, _, _| 0),
        checker("a check that fails everything", check_cases::damaged_bits, |_, _, _| FAILED),
        checker(
            "a check that passes what it doesn't refuse",
            check_cases::damaged_bits,
            |end, expected, telegram| (SECOND.check)(end, expected, telegram) % FAILED,
        ),
        checker(
            "a check that passes a telegram 256 older",
            check_cases::numbers,
            |end, expected, telegram| {
                let older = (SECOND.check)(end, expected.wrapping_sub(256), telegram);
                older.min((SECOND.check)(end, expected, telegram))
            },
        ),
        checker(
            "a confirm checked with the number expected",
            check_cases::numbers,
            |end, expected, telegram| match kind_of(telegram) {
                Some(Kind::Confirm) if telegram.get(2..6) != Some(&expected.to_le_bytes()) => FAILED,
                _ => (SECOND.check)(end, expected, telegram),
            },
        ),
        checker(
            "disconnect reasons restricted on receipt",
            check_cases::disconnect_fields,
            |end, expected, telegram| match kind_of(telegram) {
                Some(Kind::Disconnect) if !reason_listed(u32::from(telegram[3])) => FAILED,
                _ => (SECOND.check)(end, expected, telegram),
            },
        ),
        checker(
            "multicast taken as data",
            check_cases::commands,
            |end, expected, telegram| match telegram.get(1) {
                Some(0x8D) => check_without(Clause::Command, end, expected, telegram),
                _ => (SECOND.check)(end, expected, telegram),
            },
        ),
        checker("6 before 1", check_cases::refusals, |end, expected, telegram| match telegram.len() {
            6..=LONGEST => (SECOND.check)(end, expected, telegram),
            _ => 6,
        }),
        checker(
            "6 for fewer than 6 bytes left out",
            check_cases::lengths,
            |end, expected, telegram| match (SECOND.check)(end, expected, telegram) {
                6 if telegram.len() < 6 => FAILED,
                answer => answer,
            },
        ),
    ]
}

fn saps_swapped(end: &End) -> End {
    End {
        partner_sap: end.local_sap,
        local_sap: end.partner_sap,
        ..*end
    }
}

fn ends_mixed_up() -> Vec<Wrong> {
    vec![
        checker("the two SAPs swapped by the check", check_cases::other_ends, |end, expected, telegram| {
            (SECOND.check)(&saps_swapped(end), expected, telegram)
        }),
        checker("either order of the SAPs passes", check_cases::other_ends, |end, expected, telegram| {
            let swapped = (SECOND.check)(&saps_swapped(end), expected, telegram);
            swapped.min((SECOND.check)(end, expected, telegram))
        }),
        checker(
            "a telegram back at its sender passes",
            check_cases::other_ends,
            |end, expected, telegram| {
                let back = (SECOND.check)(&end.mirrored(), expected, telegram);
                back.min((SECOND.check)(end, expected, telegram))
            },
        ),
    ]
}

fn clauses_left_out() -> Vec<Wrong> {
    let clauses = check_cases::clauses;
    vec![
        checker("the level not asked", clauses, |end, expected, telegram| {
            check_without(Clause::Level, end, expected, telegram)
        }),
        checker("the command not asked", clauses, |end, expected, telegram| {
            check_without(Clause::Command, end, expected, telegram)
        }),
        checker("the length not asked", clauses, |end, expected, telegram| {
            check_without(Clause::Length, end, expected, telegram)
        }),
        checker("the number not asked", clauses, |end, expected, telegram| {
            check_without(Clause::Number, end, expected, telegram)
        }),
        checker("the fields not asked", clauses, |end, expected, telegram| {
            check_without(Clause::Fields, end, expected, telegram)
        }),
        checker("the check word not asked", clauses, |end, expected, telegram| {
            check_without(Clause::Word, end, expected, telegram)
        }),
        checker(
            "the least length not asked",
            check_cases::too_short,
            |end, expected, telegram| match telegram.len() {
                0..=17 => check_without(Clause::Length, end, expected, telegram),
                _ => (SECOND.check)(end, expected, telegram),
            },
        ),
    ]
}

fn places() -> Vec<Wrong> {
    const NOWHERE: Part = Part { start: 0, count: 0 };
    vec![
        placer("the check word counted as net data", check_cases::lengths, |telegram| {
            let part = (SECOND.net_data)(telegram);
            let count = if part == NOWHERE { 0 } else { telegram.len() as u32 - part.start };
            Part { count, ..part }
        }),
        placer("no place where there are no net data", check_cases::lengths, |telegram| {
            match (SECOND.net_data)(telegram) {
                Part { count: 0, .. } => NOWHERE,
                part => part,
            }
        }),
        placer("no place for a disconnect's text", check_cases::lengths, |telegram| {
            match kind_of(telegram) {
                Some(Kind::Disconnect) => NOWHERE,
                _ => (SECOND.net_data)(telegram),
            }
        }),
        placer("a place for SL 0", check_cases::commands, |telegram| {
            let mut taken = telegram.to_vec();
            taken
                .get_mut(1)
                .into_iter()
                .filter(|command| **command >= 0xC0)
                .for_each(|command| *command ^= 0x40);
            (SECOND.net_data)(&taken)
        }),
    ]
}
