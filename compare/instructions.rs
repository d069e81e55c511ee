//! No. 2 of paper 02, start and cease instructions, with the energy of No. 6, written out from the paper alone, and the bytes in which a C host keeps a
//! machine, from include/soe.h. Every number is an i128, so that 120 after any time is a number.

use crate::model::Int;

/// "While pending, the issue time, the start or cease time and whether it was accepted."
#[derive(Clone, Copy, PartialEq, Eq, Debug)]
pub struct Instruction {
    pub issue: Int,
    pub at: Int,
    pub accepted: bool,
}

/// "The state is idle, start pending, delivering or cease pending."
#[derive(Clone, Copy, PartialEq, Eq, Debug)]
pub enum State {
    Idle,
    StartPending(Instruction),
    Delivering,
    CeasePending(Instruction),
}

/// "Events are start, cease, accept, reject and tick." "A start carries the limit and whether the unit is available and armed."
/// "A start in No. 2 now also carries its direction's energy."
#[derive(Clone, Copy, PartialEq, Eq, Debug)]
pub enum Event {
    Start {
        at: Int,
        limit: Int,
        available: bool,
        armed: bool,
        energy: Int,
    },
    Cease {
        at: Int,
    },
    Accept,
    Reject,
    Tick,
}

use Event::{Accept, Cease, Reject, Start, Tick};
use State::{CeasePending, Delivering, Idle, StartPending};

impl Event {
    /// The start or cease time.
    pub fn at(&self) -> Option<Int> {
        match *self {
            Start { at, .. } | Cease { at } => Some(at),
            Accept | Reject | Tick => None,
        }
    }
}

impl State {
    pub fn pending(&self) -> Option<Instruction> {
        match *self {
            StartPending(instruction) | CeasePending(instruction) => Some(instruction),
            Idle | Delivering => None,
        }
    }

    /// "A rejected start returns to idle, a rejected cease to delivering."
    fn rejected(self) -> State {
        match self {
            StartPending(_) => Idle,
            CeasePending(_) => Delivering,
            Idle | Delivering => self,
        }
    }

    /// The state once "what is due by its time happens".
    pub fn due_by(self, time: Int) -> State {
        match (self, self.pending()) {
            // "A pending instruction unanswered more than 120 after issue is rejected."
            (_, Some(i)) if !i.accepted && time - i.issue > 120 => self.rejected(),
            // "An accepted start delivers from its start time and an accepted cease turns idle at its cease time."
            (StartPending(_), Some(i)) if i.accepted && time >= i.at => Delivering,
            (CeasePending(_), Some(i)) if i.accepted && time >= i.at => Idle,
            _ => self,
        }
    }

    /// The event itself, between what is due before it and what is due after it; nothing where it does not suit or a condition
    /// of a start is unmet.
    fn event(self, time: Int, event: &Event) -> Option<State> {
        let issued = |at| Instruction {
            issue: time,
            at,
            accepted: false,
        };
        let accepted = |i| Instruction {
            accepted: true,
            ..i
        };
        let unanswered = self.pending().is_some_and(|i| !i.accepted);
        match (*event, self) {
            // "It needs a nonzero limit, both of these, and an idle direction." The energy "must be 1 to 10,000,000 (17 where
            // not)".
            (
                Start {
                    at,
                    limit,
                    available,
                    armed,
                    energy: 1..=10_000_000,
                },
                Idle,
            ) if limit != 0 && available && armed => Some(StartPending(issued(at))),
            // "A cease needs a delivering one."
            (Cease { at }, Delivering) => Some(CeasePending(issued(at))),
            // "An answer needs an unanswered pending instruction."
            (Accept, StartPending(i)) if unanswered => Some(StartPending(accepted(i))),
            (Accept, CeasePending(i)) if unanswered => Some(CeasePending(accepted(i))),
            (Reject, _) if unanswered => Some(self.rejected()),
            (Tick, _) => Some(self),
            _ => None,
        }
    }
}

/// The state "with the time of the last event".
#[derive(Clone, Copy, PartialEq, Eq, Debug)]
pub struct Machine {
    pub state: State,
    pub last: Int,
}

impl Machine {
    /// The machine after an event, or its refusal: "15: event earlier than the last one. 16: time under 120 after issue. 17: a
    /// start condition unmet or an event that does not suit the state. Checked in that order". "A refused event changes nothing:
    /// last time and state stay as they were before anything due."
    pub fn event(&self, time: Int, event: &Event) -> Result<Machine, i64> {
        if time < self.last {
            return Err(15);
        }
        if event.at().is_some_and(|at| at - time < 120) {
            return Err(16);
        }
        // "Before each event, and again after it, what is due by its time happens."
        let state = self.state.due_by(time).event(time, event).ok_or(17)?;
        Ok(Machine {
            state: state.due_by(time),
            last: time,
        })
    }
}

// From C

/// State, accepted, last, issue and start or cease time as soe.h numbers them.
pub type Fields = [Int; 5];

/// How many bytes each field has, one after the other.
const WIDTHS: [usize; 5] = [4, 4, 8, 8, 8];

/// "Its fields are little-endian unsigned numbers": the lowest byte first.
pub fn bytes_of(fields: &Fields) -> Vec<u8> {
    let mut bytes = Vec::new();
    for (&width, &field) in WIDTHS.iter().zip(fields) {
        bytes.extend((0..width).map(|place| (field >> (8 * place)) as u8));
    }
    bytes
}

fn fields_of(bytes: &[u8]) -> Option<Fields> {
    if bytes.len() != WIDTHS.iter().sum() {
        return None;
    }
    let mut fields = [0; 5];
    let mut rest = bytes;
    for (&width, field) in WIDTHS.iter().zip(&mut fields) {
        let (own, after) = rest.split_at(width);
        *field = own.iter().rev().fold(0, |n, &b| 256 * n + Int::from(b));
        rest = after;
    }
    Some(fields)
}

/// "(1 yes, 0 no)"
fn yes_or_no(n: Int) -> Option<bool> {
    match n {
        0 => Some(false),
        1 => Some(true),
        _ => None,
    }
}

impl Machine {
    pub fn fields(&self) -> Fields {
        let number = match self.state {
            Idle => 0,
            StartPending(_) => 1,
            Delivering => 2,
            CeasePending(_) => 3,
        };
        let (accepted, issue, at) = match self.state.pending() {
            Some(i) => (i.accepted.into(), i.issue, i.at),
            None => (0, 0, 0),
        };
        [number, accepted, self.last, issue, at]
    }

    /// Nothing where the bytes are no machine. "While nothing is pending, accepted, issue and start or cease time are 0."
    pub fn read(bytes: &[u8]) -> Option<Machine> {
        let [number, accepted, last, issue, at] = fields_of(bytes)?;
        let instruction = Instruction {
            issue,
            at,
            accepted: yes_or_no(accepted)?,
        };
        let nothing = accepted == 0 && issue == 0 && at == 0;
        let state = match number {
            0 if nothing => Idle,
            1 => StartPending(instruction),
            2 if nothing => Delivering,
            3 => CeasePending(instruction),
            _ => return None,
        };
        Some(Machine { state, last })
    }
}

/// What a host hands in beside the machine.
#[derive(Clone, Copy, Debug)]
pub struct Call {
    pub event: u32,
    pub time: u64,
    pub at: u64,
    pub limit: u32,
    pub available: u32,
    pub armed: u32,
    pub energy: u32,
}

impl Call {
    /// "`at` and what follows are looked at only by the events that have them."
    pub fn event(&self) -> Option<Event> {
        let at = self.at.into();
        match self.event {
            1 => Some(Start {
                at,
                limit: self.limit.into(),
                available: yes_or_no(self.available.into())?,
                armed: yes_or_no(self.armed.into())?,
                energy: self.energy.into(),
            }),
            2 => Some(Cease { at }),
            3 => Some(Accept),
            4 => Some(Reject),
            5 => Some(Tick),
            _ => None,
        }
    }
}

/// The machine's bytes afterwards, or the refusal. "−13, before all others, where the length is not 32, the bytes are no machine,
/// the event is not 1 to 5, or a start's available or armed is neither 0 nor 1."
pub fn soe_instruction(bytes: &[u8], call: &Call) -> Result<Vec<u8>, i64> {
    let machine = Machine::read(bytes).ok_or(13)?;
    let event = call.event().ok_or(13)?;
    let after = machine.event(call.time.into(), &event)?;
    Ok(bytes_of(&after.fields()))
}
