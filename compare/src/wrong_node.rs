//! How a node is made wrong: by reading something else than it is asked, by seeing another table, by refusing, or by leaving something else. Where a
//! wrong one doesn't say otherwise, it is the second program.

use crate::link_step::Record;
use crate::node::place;
use crate::node_call::{Answered, Asked, Head, Whose};
use crate::node_case::{Case, Program, SECOND};

pub struct Wrong {
    pub what: &'static str,
    pub program: Box<Program>,
    /// The group of cases that must tell it from the second program.
    pub seen_by: Group,
}

pub type Group = fn() -> Vec<Case>;

/// Does what it is told.
pub fn wrong(what: &'static str, seen_by: Group, program: impl Fn(&Asked, &mut [Record], &mut [u8]) -> Answered + 'static) -> Wrong {
    let program = Box::new(program);
    Wrong { what, program, seen_by }
}

/// Does the second program's call of something else.
pub fn reads(what: &'static str, seen_by: Group, change: fn(&mut Asked, &[Record])) -> Wrong {
    wrong(what, seen_by, move |asked, table, out| {
        let mut other = asked.clone();
        change(&mut other, table);
        let answered = SECOND(&other, table, out);
        let head = if answered.answer.number == 0 { answered.head } else { asked.head };
        let own = asked.head.own;
        Answered {
            head: Head { own, ..head },
            ..answered
        }
    })
}

/// Does the second program's call over another table. The records that the call leaves as they are stay as they were, and every record keeps its
/// names.
pub fn sees_table(what: &'static str, seen_by: Group, change: fn(&mut Vec<Record>, &Asked)) -> Wrong {
    wrong(what, seen_by, move |asked, table, out| {
        let mut changed = table.to_vec();
        change(&mut changed, asked);
        let mut after = changed.clone();
        let answered = SECOND(asked, &mut after, out);
        for (place, record) in after.iter().enumerate().filter(|(place, record)| changed[*place] != **record) {
            table[place] = record.between(&table[place].end(asked.head.own));
        }
        answered
    })
}

/// Refuses where the second program's call comes out as `when` says; with 0 it does nothing but take the time.
pub fn refuses(what: &'static str, seen_by: Group, number: u32, when: fn(&Asked, &[Record], &Answered) -> bool) -> Wrong {
    wrong(what, seen_by, move |asked, table, out| {
        let answered = SECOND(asked, &mut table.to_vec(), &mut out.to_vec());
        match when(asked, table, &answered) {
            true if number == 0 => nothing_done(asked),
            true => Answered::refused(asked.head, number),
            false => SECOND(asked, table, out),
        }
    })
}

/// Leaves something else than the second program, in the head or in the table, with the place of the record where there is one.
pub fn leaves(what: &'static str, seen_by: Group, change: fn(&Asked, Option<usize>, &mut [Record], &mut Answered)) -> Wrong {
    wrong(what, seen_by, move |asked, table, out| {
        let place = place(asked, table);
        let mut answered = SECOND(asked, table, out);
        change(asked, place, table, &mut answered);
        answered
    })
}

/// Answer 0 and nothing else.
pub fn nothing_done(asked: &Asked) -> Answered {
    let head = Head {
        latest: asked.time,
        ..asked.head
    };
    Answered::refused(head, 0)
}

/// Nodes made so with nothing changed: no case may see them.
pub fn unchanged(seen_by: Group) -> Vec<Wrong> {
    vec![
        reads("nothing else read", seen_by, |_, _| {}),
        sees_table("nothing else seen in the table", seen_by, |_, _| {}),
        refuses("nothing else refused", seen_by, 1, |_, _, _| false),
        leaves("nothing else left", seen_by, |_, _, _, _| {}),
    ]
}

/// Nodes whose check word is worked out over 0 for both addresses. Two of them agree with each other, whoever they are.
pub fn without_addresses() -> Box<Program> {
    Box::new(|asked, table, out| {
        let answered = SECOND(asked, &mut table.to_vec(), &mut out.to_vec());
        let place = match place(asked, table) {
            Some(place) if answered.answer.number == 0 => place,
            _ => return answered,
        };
        let before = table[place];
        let mut one = [Record { partner: 0, ..before }];
        let alone = Asked {
            head: Head { own: 0, ..asked.head },
            whose: Whose::Place(0),
            ..asked.clone()
        };
        let Answered { answer, happened, .. } = SECOND(&alone, &mut one, out);
        table[place] = Record {
            partner: before.partner,
            ..one[0]
        };
        let head = answered.head;
        Answered { head, answer, happened }
    })
}
