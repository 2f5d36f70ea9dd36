//! The second program's connection: section 5.5 for SL 4 and SL 2, as the scope narrows it. The table of 5.5.1.5 drives
//! every step.

use crate::check::{byte, check, field, net_data, Verdict, SHORTEST};
use crate::link_call::{Call, Naming};
use crate::link_step::{Event, Record, Step, Stepped};
use crate::telegram::{
    idle_time_allowed, written, End, Kind, Level, Telegram, BAD_TELEGRAM, BAD_VALUE, LONGEST, NO_ROOM, OUT_OF_RANGE,
};
use Happening::*;
use Operation::*;

/// 7.2.1.1: the acknowledgement timeout period in milliseconds.
const ACKNOWLEDGEMENT_TIMEOUT: u64 = 5000;
/// Request e: the idle time that is declared where none is named.
const UNNAMED_IDLE_TIME: u32 = 1000;
/// The scope: the X and the Y that a request and a confirm must have.
const ACCEPTED_VERSION: [u8; 2] = [3, 0];

/// The numbers of the refusals that a connection adds to those of a telegram.
pub const ENDED: u32 = 8;
pub const WRONG_PHASE: u32 = 3;

/// 5.2.5.9, byte 3.
const FINAL: u32 = 0;
const NOT_FINAL: u32 = 1;

/// 5.2.5.9, byte 4: the reasons that the link gives itself.
const BAD_VERSION_ERROR: u32 = 0x01;
const ERROR_DURING_SET_UP: u32 = 0x02;
const AUTHENTICATION_ERROR: u32 = 0x03;
const SET_UP_FOR_EXISTING: u32 = 0x04;
const IDLE_CYCLE_TIME_OUT: u32 = 0x05;
const INCORRECT_RECEIVE: u32 = 0x06;

/// 5.5.1.2: the states. They are the phases 1 to 6 of a record, in this order.
#[derive(Clone, Copy, PartialEq, Debug)]
enum State {
    Idle,
    WConAck,
    WAuthReq,
    WAuthAck,
    Data,
    Defect,
}

const STATES: [State; 6] = [State::Idle, State::WConAck, State::WAuthReq, State::WAuthAck, State::Data, State::Defect];

impl State {
    fn of_phase(phase: u32) -> Option<State> {
        STATES.into_iter().find(|state| state.phase() == phase)
    }

    fn phase(self) -> u32 {
        self as u32 + 1
    }
}

/// 5.5.1.3: the events, in the order of the table's rows. An incorrect telegram has two rows.
#[derive(Clone, Copy, PartialEq, Debug)]
enum Happening {
    ConnectSnd,
    DataSnd,
    TimeoutSnd,
    TimeoutRcv,
    TimeoutBrk,
    DataRcv,
    IdleRcv,
    IncorrectRcv1,
    IncorrectRcv2,
    ConReqRcv,
    ConAckRcv,
    AuthReqRcv,
    AuthAckRcv,
    DisconSnd,
    FDisconSnd,
    DisconRcv,
}

/// 5.5.1.4: the actions.
#[derive(Clone, Copy, PartialEq, Debug)]
enum Operation {
    F00,
    F01,
    F02,
    F03,
    F04,
    F05,
    F06,
    F07,
    F08,
    F09,
    F10,
    F11,
    F12,
    F13,
}

/// The action of a cell, and the next state unless it is `no change`.
type Cell = (Operation, Option<State>);

/// "no change", and the states as the table's cells name them.
const NOCHANGE: Option<State> = None;
const IDLE: Option<State> = Some(State::Idle);
const WCONACK: Option<State> = Some(State::WConAck);
const WAUTHREQ: Option<State> = Some(State::WAuthReq);
const WAUTHACK: Option<State> = Some(State::WAuthAck);
const DATA: Option<State> = Some(State::Data);
const DEFECT: Option<State> = Some(State::Defect);

/// 5.5.1.5, row by row as printed: the actions, then the next states. The columns are the states in their order.
///
/// These cells are not met as printed, because their event does not happen:
/// - Timeout_snd in wAuthAck. The scope has idle due on an open record only. The record has no room for our random
///   number, which is `sending` - 2 there, and an idle telegram would shift it.
/// - Timeout_rcv in wConAck, wAuthReq and wAuthAck. The watch starts with the last telegram of the set-up (5.2.6.2.1).
/// - Timeout_brk in Data. f_04 and f_12 have stopped that timer.
/// - 2nd Incorrect_rcv. It needs a time saved by f_11 or f_13, for which the record has no field. Each incorrect
///   telegram is a first one.
/// - Connect_snd, Data_snd, Discon_snd and FDiscon_snd where they do nothing: they are refused with 3.
/// - All of Defect: every call is refused with 8.
///
/// `Link::cell` tells the cells whose outcome depends on what the telegram holds.
#[rustfmt::skip]
const TRANSITIONS: [(Happening, [Operation; 6], [Option<State>; 6]); 16] = [
    //               Idle wConAck wAuthReq wAuthAck Data Defect Idle      wConAck   wAuthReq  wAuthAck  Data      Defect
    (ConnectSnd,    [F01, F00,    F00,     F00,     F00, F00], [WCONACK,  NOCHANGE, NOCHANGE, NOCHANGE, NOCHANGE, NOCHANGE]),
    (DataSnd,       [F00, F00,    F00,     F00,     F05, F00], [NOCHANGE, NOCHANGE, NOCHANGE, NOCHANGE, NOCHANGE, NOCHANGE]),
    (TimeoutSnd,    [F00, F00,    F00,     F06,     F06, F00], [NOCHANGE, NOCHANGE, NOCHANGE, NOCHANGE, NOCHANGE, NOCHANGE]),
    (TimeoutRcv,    [F00, F07,    F07,     F07,     F07, F00], [NOCHANGE, IDLE,     IDLE,     IDLE,     IDLE,     NOCHANGE]),
    (TimeoutBrk,    [F00, F07,    F08,     F08,     F07, F00], [NOCHANGE, IDLE,     DEFECT,   DEFECT,   IDLE,     NOCHANGE]),
    (DataRcv,       [F00, F00,    F08,     F08,     F09, F00], [NOCHANGE, NOCHANGE, DEFECT,   DEFECT,   NOCHANGE, NOCHANGE]),
    (IdleRcv,       [F00, F00,    F08,     F08,     F10, F00], [NOCHANGE, NOCHANGE, DEFECT,   DEFECT,   NOCHANGE, NOCHANGE]),
    (IncorrectRcv1, [F13, F11,    F11,     F11,     F11, F00], [NOCHANGE, IDLE,     IDLE,     IDLE,     IDLE,     NOCHANGE]),
    (IncorrectRcv2, [F00, F08,    F08,     F08,     F08, F00], [DEFECT,   DEFECT,   DEFECT,   DEFECT,   DEFECT,   NOCHANGE]),
    (ConReqRcv,     [F02, F00,    F08,     F08,     F07, F00], [WAUTHREQ, NOCHANGE, DEFECT,   DEFECT,   IDLE,     NOCHANGE]),
    (ConAckRcv,     [F00, F03,    F08,     F08,     F07, F00], [NOCHANGE, WAUTHACK, DEFECT,   DEFECT,   IDLE,     NOCHANGE]),
    (AuthReqRcv,    [F00, F00,    F04,     F08,     F07, F00], [NOCHANGE, NOCHANGE, DATA,     DEFECT,   IDLE,     NOCHANGE]),
    (AuthAckRcv,    [F00, F00,    F08,     F12,     F07, F00], [NOCHANGE, NOCHANGE, DEFECT,   DATA,     IDLE,     NOCHANGE]),
    (DisconSnd,     [F00, F07,    F07,     F07,     F07, F00], [NOCHANGE, IDLE,     IDLE,     IDLE,     IDLE,     NOCHANGE]),
    (FDisconSnd,    [F00, F08,    F08,     F08,     F08, F00], [NOCHANGE, DEFECT,   DEFECT,   DEFECT,   DEFECT,   NOCHANGE]),
    (DisconRcv,     [F00, F00,    F00,     F00,     F00, F00], [NOCHANGE, IDLE,     IDLE,     IDLE,     IDLE,     NOCHANGE]),
];

/// The cell as printed.
fn printed(happening: Happening, state: State) -> Cell {
    let (row, operations, next) = TRANSITIONS[happening as usize];
    assert_eq!(row, happening);
    (operations[state as usize], next[state as usize])
}

/// 5.2.1.3 and 5.2.2.2: what the fields of a request and of a confirm say.
fn random_number(telegram: &[u8]) -> u32 {
    field(telegram, 3, 6)
}

fn idle_cycle_timeout(telegram: &[u8]) -> u32 {
    field(telegram, 7, 8)
}

fn version_accepted(telegram: &[u8]) -> bool {
    [byte(telegram, 9), byte(telegram, 10)] == ACCEPTED_VERSION
}

/// 5.2.3.4 and 5.2.4.4, bytes 3..6.
fn authentication_number(telegram: &[u8]) -> u32 {
    field(telegram, 3, 6)
}

/// 5.2.5.9, bytes 3 and 4.
fn new_setup_desired(telegram: &[u8]) -> u32 {
    field(telegram, 3, 3)
}

fn disconnect_reason(telegram: &[u8]) -> u32 {
    field(telegram, 4, 4)
}

/// The low six bits of byte 2.
fn command(telegram: &[u8]) -> u32 {
    field(telegram, 2, 2) & 0x3F
}

impl Naming {
    /// The idle time that is declared.
    fn declared(self) -> u32 {
        match self.named {
            0 => UNNAMED_IDLE_TIME,
            _ => self.idle_time,
        }
    }
}

/// How long ago that was. A timer set later than now counts as just set.
fn gap(timer: u64, now: u64) -> u64 {
    now.saturating_sub(timer)
}

/// The scope: every telegram sent or taken adds one to its number modulo 2^32, and sets its timer.
fn sent(record: Record, time: u64) -> Record {
    let sending = record.sending.wrapping_add(1);
    Record {
        sending,
        sent_at: time,
        ..record
    }
}

fn taken(record: Record, time: u64) -> Record {
    let expected = record.expected.wrapping_add(1);
    Record {
        expected,
        taken_at: time,
        ..record
    }
}

/// The record with what a request or confirm says of the partner.
fn introduced(record: Record, connect: &[u8]) -> Record {
    Record {
        expected: random_number(connect),
        watched: idle_cycle_timeout(connect),
        ..record
    }
}

/// A record whose fields are in range, on its node.
pub struct Link {
    record: Record,
    end: End,
    level: Level,
    state: State,
}

impl Link {
    /// Nothing where the record or the own address is out of range.
    pub fn in_range(record: Record, own: u32) -> Option<Link> {
        let end = record.end(own);
        let level = end.in_range()?;
        let state = State::of_phase(record.phase)?;
        let is_closed = matches!(state, State::Idle | State::Defect);
        let idle_times = idle_time_allowed(record.declared) && idle_time_allowed(record.watched);
        let good = idle_times && (!is_closed || record == Record::closed(&end, record.phase));
        good.then(|| Link { record, end, level, state })
    }

    /// Whether the connection is finally closed: answer 8.
    pub fn is_ended(&self) -> bool {
        self.state == State::Defect
    }

    /// Whether the state has something for the call to do: answer 3.
    pub fn takes(&self, call: &Call) -> bool {
        match call {
            Call::Open { .. } => self.state == State::Idle,
            Call::Send { .. } => self.state == State::Data,
            Call::Close { .. } => self.state != State::Idle,
            Call::Received { .. } | Call::Tick { .. } => true,
        }
    }

    /// Whether answer 5 lets the call's values through: those of the telegram that it brings, or may bring.
    pub fn allows(&self, call: &Call) -> bool {
        let telegram = match call.clone() {
            Call::Open { random, naming, net, .. } => Telegram::request(random, naming.declared(), net),
            Call::Received { random, naming, net, .. } => Telegram::confirm(random, naming.declared(), net),
            Call::Close { new_setup, reason, text } => {
                Telegram::disconnect(self.record.sending, new_setup, reason, text)
            }
            Call::Send { command, net, .. } => Telegram::data(self.record.sending, command, net),
            Call::Tick { .. } => return true,
        };
        telegram.allowed(self.level)
    }

    /// The timer that has run out. The acknowledgement timer runs from f_01, f_02 or f_03 up to the next step of the
    /// set-up, the idle cycle timeout timer in Data; the time at the limit itself is in time.
    fn run_out(&self, now: u64) -> Option<Happening> {
        let record = &self.record;
        match self.state {
            State::WConAck | State::WAuthReq | State::WAuthAck => {
                (gap(record.sent_at, now) > ACKNOWLEDGEMENT_TIMEOUT).then(|| TimeoutBrk)
            }
            // 5.2.6.3 and 5.2.6.4: the time received from the partner. 0 is no supervision.
            State::Data if record.watched != 0 => {
                (gap(record.taken_at, now) > u64::from(record.watched)).then(|| TimeoutRcv)
            }
            State::Data | State::Idle | State::Defect => None,
        }
    }

    /// 5.2.6.5: the idle cycle interval timer, which the scope sets to half of the time that we declared.
    fn idle_due(&self, now: u64) -> Option<Happening> {
        let gap = u128::from(gap(self.record.sent_at, now));
        let declared = u128::from(self.record.declared);
        (self.state == State::Data && declared != 0 && 2 * gap >= declared).then(|| TimeoutSnd)
    }

    /// The scope: the number expected. Neither a closed record nor one that awaits a confirm knows its partner's; 0 is
    /// expected then.
    fn number_expected(&self) -> u32 {
        match self.state {
            State::Idle | State::WConAck => 0,
            _ => self.record.expected,
        }
    }

    /// The event that a received telegram is.
    fn arrival(&self, telegram: &[u8]) -> Happening {
        if check(&self.end, self.number_expected(), telegram) != Verdict::Passes {
            return IncorrectRcv1;
        }
        match Kind::of_command(command(telegram)) {
            Some(Kind::Request) => ConReqRcv,
            Some(Kind::Confirm) => ConAckRcv,
            Some(Kind::Authentication) => AuthReqRcv,
            Some(Kind::Acknowledgement) => AuthAckRcv,
            Some(Kind::Disconnect) => DisconRcv,
            Some(Kind::Idle) => IdleRcv,
            Some(Kind::Data) => DataRcv,
            None => IncorrectRcv1,
        }
    }

    /// The event that a call is; none for a tick that finds nothing due. What has run out comes before the telegram,
    /// and before idle.
    fn happening(&self, call: &Call) -> Option<Happening> {
        match call {
            Call::Open { .. } => Some(ConnectSnd),
            Call::Send { .. } => Some(DataSnd),
            Call::Close { new_setup: FINAL, .. } => Some(FDisconSnd),
            Call::Close { .. } => Some(DisconSnd),
            Call::Received { time, telegram, .. } => {
                Some(self.run_out(*time).unwrap_or_else(|| self.arrival(telegram)))
            }
            Call::Tick { time } => self.run_out(*time).or_else(|| self.idle_due(*time)),
        }
    }

    /// 5.1.4: whether the number is our random number after processing. That is the number of our confirm, the last
    /// telegram sent, or of our request, the last but one.
    fn authentic(&self, telegram: &[u8]) -> bool {
        let sent = if self.state == State::WAuthReq { 1 } else { 2 };
        let random = self.record.sending.wrapping_sub(sent);
        authentication_number(telegram) == random.wrapping_add(self.level.increment())
    }

    /// The cell, with what the printed one leaves to the telegram.
    fn cell(&self, happening: Happening, telegram: &[u8]) -> Cell {
        match (happening, self.state) {
            // A request of another version is dropped: in column Idle no row sends a disconnect.
            (ConReqRcv, State::Idle) if !version_accepted(telegram) => (F00, NOCHANGE),
            // 5.2.5.8.2: bad version error.
            (ConAckRcv, State::WConAck) if !version_accepted(telegram) => (F08, DEFECT),
            // 5.2.5.8.3: authentication number incorrect.
            (AuthReqRcv, State::WAuthReq) | (AuthAckRcv, State::WAuthAck) if !self.authentic(telegram) => (F08, DEFECT),
            // 5.2.5.5: following a final disconnection, the connection cannot be established again.
            (DisconRcv, State::WConAck | State::WAuthReq | State::WAuthAck | State::Data)
                if new_setup_desired(telegram) == FINAL =>
            {
                (F00, DEFECT)
            }
            _ => printed(happening, self.state),
        }
    }

    /// Why a connection is closed: the reason that the call or the partner gives, or that of 5.2.5.7 and 5.2.5.8.
    fn reason(&self, happening: Happening, call: &Call) -> u32 {
        match (happening, self.state, call) {
            (_, _, Call::Close { reason, .. }) => *reason,
            (DisconRcv, _, Call::Received { telegram, .. }) => disconnect_reason(telegram),
            (TimeoutBrk, State::WConAck, _) => ERROR_DURING_SET_UP, // 5.2.5.7.2
            (IncorrectRcv1, _, _) => INCORRECT_RECEIVE,             // 5.2.5.7.3
            (TimeoutRcv, _, _) => IDLE_CYCLE_TIME_OUT,              // 5.2.5.7.4
            (_, State::Data, _) => SET_UP_FOR_EXISTING,             // 5.2.5.7.5
            (_, State::WConAck, _) => BAD_VERSION_ERROR,            // 5.2.5.8.2
            _ => AUTHENTICATION_ERROR,                              // 5.2.5.8.3
        }
    }

    /// Does the action: the record after it, still in its state, and the telegram sent.
    fn perform(&self, operation: Operation, happening: Happening, call: &Call) -> (Record, Option<Telegram>) {
        let (time, telegram, net) = (call.time(), call.telegram(), call.net().to_vec());
        let (random, declared) = (call.random(), call.naming().declared());
        let record = self.record;
        let number = record.sending;
        let ours = |record: Record| Record {
            sending: random,
            declared,
            ..record
        };
        let disconnect =
            |new_setup| Telegram::disconnect(number, new_setup, self.reason(happening, call), call.text().to_vec());
        match operation {
            F00 | F13 => (record, None),
            F01 => (sent(ours(record), time), Some(Telegram::request(random, declared, net))),
            F02 => {
                let taken = taken(introduced(record, telegram), time);
                (sent(ours(taken), time), Some(Telegram::confirm(random, declared, net)))
            }
            F03 => {
                let taken = taken(introduced(record, telegram), time);
                (sent(taken, time), Some(Telegram::authentication(number, random_number(telegram))))
            }
            // The partner's random number is that of its request, the telegram before the one expected.
            F04 => {
                let partners = record.expected.wrapping_sub(1);
                (sent(taken(record, time), time), Some(Telegram::acknowledgement(number, partners)))
            }
            F05 => (sent(record, time), Some(Telegram::data(number, call.command(), net))),
            F06 => (sent(record, time), Some(Telegram::idle(number))),
            F07 | F11 => (record, Some(disconnect(NOT_FINAL))),
            F08 => (record, Some(disconnect(FINAL))),
            F09 | F10 | F12 => (taken(record, time), None),
        }
    }

    /// Does a call that isn't refused. The event follows from the next state; only f_09 hands data over.
    fn step(&self, call: &Call) -> (Record, Option<Telegram>, Event) {
        let happening = match self.happening(call) {
            Some(happening) => happening,
            None => return (self.record, None, Event::Nothing),
        };
        let (operation, next) = self.cell(happening, call.telegram());
        let (after, telegram) = self.perform(operation, happening, call);
        match next {
            None if operation == F09 => (after, telegram, data_event(call.telegram())),
            None => (after, telegram, Event::Nothing),
            Some(next @ (State::Idle | State::Defect)) => {
                let reason = self.reason(happening, call);
                let finally = next == State::Defect;
                (Record::closed(&self.end, next.phase()), telegram, Event::Closed { reason, finally })
            }
            Some(next) => {
                let event = if next == State::Data { Event::Opened } else { Event::Nothing };
                let phase = next.phase();
                (Record { phase, ..after }, telegram, event)
            }
        }
    }

    /// The same with the telegram written. It goes into the front of the buffer, and the rest stays as it was.
    pub fn act(&self, call: &Call, out: &mut [u8]) -> Stepped {
        let (after, telegram, event) = self.step(call);
        let written = telegram.map(|telegram| {
            let bytes = written(&self.end, &telegram, out.len()).expect("a link writes good telegrams only");
            out[..bytes.len()].copy_from_slice(&bytes);
            (telegram.kind(), bytes.len())
        });
        Stepped::done(after, written, event)
    }
}

/// The net data are handed over as a part of the lent telegram.
fn data_event(telegram: &[u8]) -> Event {
    let (start, count) = net_data(telegram).unwrap_or((0, 0));
    Event::Data {
        command: command(telegram),
        start: start as u32,
        count: count as u32,
    }
}

/// The link that a call is about, unless the call is refused: then the first refusal that holds, in this order.
fn accepted(step: &Step, room: usize) -> Result<Link, u32> {
    let call = &step.call;
    let link = Link::in_range(step.record, step.own).ok_or(OUT_OF_RANGE)?;
    let refusals = [
        (NO_ROOM, room < LONGEST),
        (BAD_TELEGRAM, is_bad_telegram(call)),
        (ENDED, link.is_ended()),
        (WRONG_PHASE, !link.takes(call)),
        (BAD_VALUE, !link.allows(call)),
    ];
    match refusals.iter().find(|(_, holds)| *holds) {
        Some((answer, _)) => Err(*answer),
        None => Ok(link),
    }
}

/// Whether the call brings a telegram that is too short or too long: answer 6.
pub fn is_bad_telegram(call: &Call) -> bool {
    match call {
        Call::Received { telegram, .. } => !(SHORTEST..=LONGEST).contains(&telegram.len()),
        _ => false,
    }
}

/// A step. Refused, it leaves the whole buffer as it was.
pub fn step(step: &Step, out: &mut [u8]) -> Stepped {
    match accepted(step, out.len()) {
        Ok(link) => link.act(&step.call, out),
        Err(answer) => Stepped::refused(step.record, answer),
    }
}
