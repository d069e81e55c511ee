//! Cases for start and cease instructions: lists of events from a fresh machine, and what holds of every list; every state with
//! every event around the times that count; made-up machines; damaged ones.

use crate::host::{self, EVENTS};
use crate::instructions::{bytes_of, Call, Event, Fields, Instruction, Machine, State};
use crate::model::Int;
use crate::random::Random;
use crate::tally::{printed, stop, Tally};

const MOST: Int = u64::MAX as Int;

/// A start that lacks nothing.
fn start(time: Int, at: Int) -> Call {
    Call {
        event: 1,
        time: time as u64,
        at: at.min(MOST) as u64,
        limit: 1,
        available: 1,
        armed: 1,
        energy: 1,
    }
}

/// An event with nothing but its time.
fn event(event: u32, time: Int) -> Call {
    Call {
        event,
        time: time as u64,
        at: 0,
        limit: 0,
        available: 0,
        armed: 0,
        energy: 0,
    }
}

// The kinds of events in lists, counted so that the end can tell that each was reached

/// The state before, the state once what was due has happened, the event, and the state afterwards or the refusal.
type Kind = [&'static str; 4];

/// A pending state also says whether it was accepted.
fn name(state: &State) -> &'static str {
    match state {
        State::Idle => "idle",
        State::StartPending(i) if i.accepted => "start accepted",
        State::StartPending(_) => "start unanswered",
        State::Delivering => "delivering",
        State::CeasePending(i) if i.accepted => "cease accepted",
        State::CeasePending(_) => "cease unanswered",
    }
}

/// Each state, and what it can be once what is due has happened.
const STATES: [(&str, &[&str]); 6] = [
    ("idle", &["idle"]),
    ("start unanswered", &["start unanswered", "idle"]),
    ("start accepted", &["start accepted", "delivering"]),
    ("delivering", &["delivering"]),
    ("cease unanswered", &["cease unanswered", "delivering"]),
    ("cease accepted", &["cease accepted", "idle"]),
];

/// Where an event can lead, an acceptance also to what is due after it; nowhere is refusal 17.
fn leads(state: &'static str, event: &str) -> Vec<&'static str> {
    match (state, event) {
        ("idle", "start") => vec!["start unanswered"],
        ("delivering", "cease") => vec!["cease unanswered"],
        ("start unanswered", "accept") => vec!["start accepted", "delivering"],
        ("cease unanswered", "accept") => vec!["cease accepted", "idle"],
        ("start unanswered", "reject") => vec!["idle"],
        ("cease unanswered", "reject") => vec!["delivering"],
        (_, "tick") => vec![state],
        _ => vec![],
    }
}

/// Every kind of call that is not malformed.
fn kinds() -> Vec<Kind> {
    let mut kinds = Vec::new();
    for (before, nows) in STATES {
        for &event in &EVENTS[1..] {
            // Refusal 15 is the same whatever is due.
            kinds.push([before, before, event, "15"]);
            for &now in nows {
                let mut ends = leads(now, event);
                if ends.is_empty() {
                    ends.push("17");
                } else if event == "start" {
                    ends.extend(["17 limit", "17 available", "17 armed"]);
                    ends.extend(["17 no energy", "17 energy above"]);
                }
                if event == "start" || event == "cease" {
                    ends.push("16");
                }
                kinds.extend(ends.into_iter().map(|end| [before, now, event, end]));
            }
        }
    }
    kinds
}

/// The kind of a call; nothing where it is malformed, or where a start of an idle direction lacks more than one thing.
fn kind_of(machine: &[u8], call: &Call, number: i64, after: &[u8]) -> Option<Kind> {
    let (machine, event) = (Machine::read(machine)?, call.event()?);
    let before = name(&machine.state);
    let now = match number {
        -15 => before,
        _ => name(&machine.state.due_by(call.time.into())),
    };
    let end = match number {
        -15 => "15",
        -16 => "16",
        -17 => match event {
            Event::Start {
                limit,
                available,
                armed,
                energy,
                ..
            } if now == "idle" => match (limit != 0, available, armed, energy) {
                (false, true, true, 1..=10_000_000) => "17 limit",
                (true, false, true, 1..=10_000_000) => "17 available",
                (true, true, false, 1..=10_000_000) => "17 armed",
                (true, true, true, 0) => "17 no energy",
                (true, true, true, 10_000_001..) => "17 energy above",
                _ => return None,
            },
            _ => "17",
        },
        _ => name(&Machine::read(after)?.state),
    };
    Some([before, now, EVENTS[call.event as usize], end])
}

/// Stops where a kind of call was never reached, or where one was that the paper does not have.
pub fn all_reached(tally: &Tally) {
    let (expected, mut found) = (kinds(), tally.reached());
    for kind in &expected {
        if found.remove(kind).is_none() {
            stop("instructions", b"", &format!("{kind:?}"), "never reached");
        }
    }
    if let Some((kind, _)) = found.first_key_value() {
        stop("instructions", b"", "not reached", &format!("{kind:?}"));
    }
}

// Every state and event around the times that count

/// The fields of machines with nothing pending.
fn settled(last: Int) -> [Fields; 2] {
    [[0, 0, last, 0, 0], [2, 0, last, 0, 0]]
}

/// The fields of machines with a pending instruction, unanswered and accepted.
fn pending(last: Int, issue: Int, at: Int) -> [Fields; 4] {
    [
        [1, 0, last, issue, at],
        [1, 1, last, issue, at],
        [3, 0, last, issue, at],
        [3, 1, last, issue, at],
    ]
}

/// Each state with each event, at times on both sides of 120 after issue and of a start or cease time: small ones, such that
/// pass 2^32 or 2^63, and the largest. The machines are made up: an issue may lie after the last time and a start time anywhere.
pub fn edges(tally: &mut Tally) {
    for base in [0, (1 << 32) - 120, (1 << 63) - 120, MOST - 241] {
        let times = [0, 1, 119, 120, 121, 241].map(|apart| base + apart);
        for last in times {
            let mut machines = settled(last).to_vec();
            for issue in times {
                machines.extend(times.iter().flat_map(|&at| pending(last, issue, at)));
            }
            for fields in machines {
                for time in times {
                    each_event(&bytes_of(&fields), time, tally);
                }
            }
        }
    }
}

/// A start's energies on both sides of their limits, and such of which a part of the bytes is within them.
const ENERGIES: [u32; 8] = [
    0,
    1,
    10_000_000,
    10_000_001,
    1 << 24,
    10_000_000 + (1 << 24),
    (1 << 31) + 1,
    u32::MAX,
];

/// Each event at a time, with start and cease times around 120 after it, starts that lack one thing, and starts with energies around
/// the limits.
fn each_event(machine: &[u8], time: Int, tally: &mut Tally) {
    let mut calls = vec![event(3, time), event(4, time), event(5, time)];
    for at in [0, time, time + 119, time + 120, time + 121, MOST] {
        let start = start(time, at);
        calls.extend([start, Call { event: 2, ..start }]);
    }
    for at in [time + 119, time + 120] {
        let start = start(time, at);
        calls.push(Call { limit: 0, ..start });
        calls.push(Call {
            available: 0,
            ..start
        });
        calls.push(Call { armed: 0, ..start });
        calls.extend(ENERGIES.map(|energy| Call { energy, ..start }));
    }
    for call in calls {
        host::instruction("machine, edges", machine, &call, tally);
    }
}

// Malformed calls

/// Numbers other than 0 and 1, of which a part of the bytes may be 0 or 1.
const NEITHER: [u32; 9] = [2, 3, 255, 256, 257, 65_536, 65_537, 0x8000_0001, u32::MAX];

const DAMAGED: &str = "machine, damaged";

/// A call that has to be refused with 13.
fn malformed(what: &str, machine: &[u8], call: &Call, tally: &mut Tally) {
    let (number, _) = host::instruction(DAMAGED, machine, call, tally);
    printed(what, -13, number);
}

/// Each way in which a call can be malformed by itself, in each state and with each event, whether or not a later refusal holds
/// as well.
pub fn damaged(tally: &mut Tally) {
    // No two bytes of a time alike.
    let [last, issue, at] = [
        0x0102_0304_0506_0708,
        0x1112_1314_1516_1718,
        0x2122_2324_2526_2728,
    ];
    let machines = settled(last).into_iter().chain(pending(last, issue, at));
    for fields in machines {
        let machine = bytes_of(&fields);
        let calls = [0, last - 1, last, issue + 121, MOST].map(|time| {
            let good = start(time, time + 120);
            [1, 2, 3, 4, 5].map(|event| Call { event, ..good })
        });
        for call in calls.into_iter().flatten() {
            damaged_call(&machine, &call, tally);
            damaged_fields(&fields, &call, tally);
            each_byte(&machine, &call, tally);
            each_length(&machine, &call, tally);
        }
    }
}

/// An event that there is not; available and armed neither yes nor no, and any energy, which only a start looks at.
fn damaged_call(machine: &[u8], call: &Call, tally: &mut Tally) {
    for event in [0, 6, 7, 255, 256, 257, 261, 65_537, 0x8000_0005, u32::MAX] {
        malformed("event", machine, &Call { event, ..*call }, tally);
    }
    let expected = host::instruction(DAMAGED, machine, call, tally);
    for n in NEITHER {
        let available = Call {
            available: n,
            ..*call
        };
        let armed = Call { armed: n, ..*call };
        let both = Call {
            limit: 0,
            available: n,
            ..armed
        };
        for changed in [available, armed, both] {
            if call.event == 1 {
                malformed("available or armed", machine, &changed, tally);
            } else {
                // Not looked at.
                let found = host::instruction(DAMAGED, machine, &changed, tally);
                printed("limit, available and armed", &expected, &found);
            }
        }
    }
    for energy in ENERGIES {
        let found = host::instruction(DAMAGED, machine, &Call { energy, ..*call }, tally);
        if call.event != 1 {
            printed("energy", &expected, &found);
        }
    }
}

/// A field of a machine made what it cannot be.
fn damaged_fields(fields: &Fields, call: &Call, tally: &mut Tally) {
    let mut changed = |field: usize, number: Int| {
        let mut damaged = *fields;
        damaged[field] = number;
        malformed("machine", &bytes_of(&damaged), call, tally);
    };
    for state in [
        4,
        5,
        255,
        256,
        257,
        65_536,
        0x8000_0000,
        Int::from(u32::MAX),
    ] {
        changed(0, state);
    }
    for n in NEITHER {
        changed(1, n.into());
    }
    if fields[0] == 0 || fields[0] == 2 {
        changed(1, 1);
        for number in [1, 256, 1 << 32, 1 << 63, MOST] {
            changed(3, number);
            changed(4, number);
        }
    }
}

/// Each byte with several values, of which some leave a machine.
fn each_byte(machine: &[u8], call: &Call, tally: &mut Tally) {
    for place in 0..machine.len() {
        for byte in [0, 1, 2, 3, 4, 0x7f, 0x80, 0xff] {
            let mut damaged = machine.to_vec();
            damaged[place] = byte;
            host::instruction(DAMAGED, &damaged, call, tally);
        }
    }
}

/// The machine cut, and lengthened by zeros.
fn each_length(machine: &[u8], call: &Call, tally: &mut Tally) {
    for length in (0..=64).filter(|&length| length != machine.len()) {
        let mut cut = machine.to_vec();
        cut.resize(length, 0);
        malformed("length", &cut, call, tally);
    }
}

// Lists of events

/// A time at which something happens to the machine, or one beside it; sometimes a later one, the first or the last of all.
fn any_time(random: &mut Random, machine: &Machine) -> Int {
    let mut times = vec![machine.last];
    if let Some(i) = machine.state.pending() {
        times.extend([i.issue, i.issue + 120, i.issue + 120, i.at, i.at]);
    }
    let time = match random.below(40) {
        0 => random.pick(&[0, MOST - 1, MOST]),
        1..=7 => machine.last + random.between(0, 300),
        _ => random.near(&times),
    };
    time.clamp(0, MOST)
}

/// An event at a time: one that suits the state then, or any.
fn any_event(random: &mut Random, machine: &Machine, time: Int) -> u32 {
    if random.once_in(4) {
        return 1 + random.below(5) as u32;
    }
    match machine.state.due_by(time) {
        State::Idle => 1,
        State::Delivering => 2,
        State::StartPending(i) | State::CeasePending(i) if i.accepted => 5,
        State::StartPending(_) | State::CeasePending(_) => random.pick(&[3, 3, 4, 5, 5]),
    }
}

fn any_call(random: &mut Random, machine: &Machine) -> Call {
    let time = any_time(random, machine);
    let at = match random.below(20) {
        0 => random.pick(&[0, machine.last, MOST]),
        1..=5 => time + random.between(0, 500),
        6..=9 => random.near(&[time + 240]),
        _ => random.near(&[time + 120, time + 121]),
    };
    let yes = |random: &mut Random| match random.below(60) {
        0..=2 => 0,
        3 => random.pick(&NEITHER),
        _ => 1,
    };
    Call {
        event: any_event(random, machine, time),
        time: time as u64,
        at: at.clamp(0, MOST) as u64,
        limit: random.pick(&[0, 1, 1, 2, 256, 25_000, 65_536, 1 << 31, u32::MAX, u32::MAX]),
        available: yes(random),
        armed: yes(random),
        energy: match random.below(10) {
            0 => random.pick(&ENERGIES),
            1..=4 => random.pick(&[1, 1, 10_000_000]),
            _ => random.within(1, 10_000_000) as u32,
        },
    }
}

/// Stops where something that holds of every list does not hold.
fn claim(what: &str, holds: bool, calls: &[Call]) {
    if !holds {
        let calls: String = calls.iter().map(|call| format!("{call:?}\n")).collect();
        stop("instructions", calls.as_bytes(), what, "not so");
    }
}

/// Compares a call, once by itself and once after a tick at a time from the last one to the call's, which must not change what
/// the call gives.
fn beside_a_tick(
    random: &mut Random,
    topic: &'static str,
    machine: &[u8],
    call: &Call,
    tally: &mut Tally,
) -> (i64, Vec<u8>) {
    let (number, after) = host::instruction(topic, machine, call, tally);
    let before = Machine::read(machine).expect("a machine");
    let time = Int::from(call.time);
    if time >= before.last {
        let tick = event(5, any_time(random, &before).clamp(before.last, time));
        let (ticked, between) = host::instruction(topic, machine, &tick, tally);
        claim("a tick is carried out", ticked == 0, &[tick]);
        let (again, afterwards) = host::instruction(topic, &between, call, tally);
        claim(
            "the same number after a tick",
            again == number,
            &[tick, *call],
        );
        claim(
            "the same machine after a tick",
            number != 0 || afterwards == after,
            &[tick, *call],
        );
    }
    (number, after)
}

/// The state after a list, from its events that were carried out, without a machine's steps: what became of the last start or
/// cease by the time of the last event.
fn state_after(carried_out: &[(Int, Event)]) -> State {
    let issued = carried_out.iter().rposition(|(_, e)| e.at().is_some());
    let Some(issued) = issued else {
        return State::Idle;
    };
    let (issue, instruction) = carried_out[issued];
    let (before, after, pending): (_, _, fn(_) -> State) = match instruction {
        Event::Start { .. } => (State::Idle, State::Delivering, State::StartPending),
        _ => (State::Delivering, State::Idle, State::CeasePending),
    };
    let at = instruction.at().unwrap();
    let (last, _) = carried_out[carried_out.len() - 1];
    let is_answer = |e: &Event| matches!(e, Event::Accept | Event::Reject);
    let answer = carried_out[issued..].iter().find(|(_, e)| is_answer(e));
    match answer {
        Some((_, Event::Reject)) => before,
        None if issue + 120 < last => before,
        Some(_) if at <= last => after,
        _ => pending(Instruction {
            issue,
            at,
            accepted: answer.is_some(),
        }),
    }
}

/// Lists of events from a fresh machine, and after each event, carried out or refused, what holds of the list so far. Some begin
/// with a tick near a power of two or the largest time.
pub fn lists(random: &mut Random, count: usize, tally: &mut Tally) {
    const TOPIC: &str = "instructions";
    for _ in 0..count {
        let mut machine = vec![0; 32];
        let mut calls = Vec::new();
        let mut carried_out = Vec::new();
        let first = random.pick(&[0, 0, 0, 0, 1 << 32, 1 << 63, MOST, MOST]);
        if first != 0 {
            calls.push(event(5, first - random.between(0, 1_000)));
        }
        for i in 0..40 {
            let before = Machine::read(&machine).expect("a machine");
            if i == calls.len() {
                calls.push(any_call(random, &before));
            }
            let call = calls[i];
            let (number, after) = beside_a_tick(random, TOPIC, &machine, &call, tally);
            if let Some(kind) = kind_of(&machine, &call, number, &after) {
                tally.reach(kind);
            }
            if number == 0 {
                carried_out.push((Int::from(call.time), call.event().expect("an event")));
            } else {
                claim("a refused event changes nothing", after == machine, &calls);
            }
            machine = after;

            let after = Machine::read(&machine).expect("a machine");
            claim("times never fall", before.last <= after.last, &calls);
            if let Some(i) = after.state.pending() {
                let ahead = if i.accepted {
                    after.last < i.at
                } else {
                    after.last <= i.issue + 120
                };
                claim("nothing due is left", ahead, &calls);
            }
            claim(
                "the state follows from the events carried out",
                after.state == state_after(&carried_out),
                &calls,
            );
        }
    }
}

/// The fields of a machine in any state, its times in any order.
fn any_fields(random: &mut Random) -> Fields {
    let issue =
        random.pick(&[0, 500, 1 << 32, 1 << 63, MOST - 500, MOST]) + random.between(-300, 300);
    let mut beside = || {
        let time = match random.below(8) {
            0 => random.pick(&[0, MOST]),
            1 => issue + random.between(-500, 500),
            _ => random.near(&[issue - 120, issue, issue + 119, issue + 121, issue + 240]),
        };
        time.clamp(0, MOST)
    };
    let (last, at) = (beside(), beside());
    match random.below(3) {
        0 => random.pick(&settled(last)),
        _ => random.pick(&pending(last, issue.clamp(0, MOST), at)),
    }
}

/// Made-up machines, and a few events from each.
pub fn made_up(random: &mut Random, count: usize, tally: &mut Tally) {
    for _ in 0..count {
        let mut machine = bytes_of(&any_fields(random));
        for _ in 0..3 {
            let call = any_call(random, &Machine::read(&machine).expect("a machine"));
            machine = beside_a_tick(random, "machine, made up", &machine, &call, tally).1;
        }
    }
}

/// Made-up machines of which some bytes or the length are changed, which may leave a machine, and any events.
pub fn any_damaged(random: &mut Random, count: usize, tally: &mut Tally) {
    for _ in 0..count {
        let mut fields = any_fields(random);
        let mut call = any_call(
            random,
            &Machine::read(&bytes_of(&fields)).expect("a machine"),
        );
        match random.below(8) {
            0 => call.event = random.pick(&[0, 6, 256, 257, u32::MAX]),
            1 | 2 => fields[0] = random.between(0, 5),
            3 => fields[1] = random.between(0, 2),
            4 => fields[3 + random.below(2)] = random.pick(&[0, 1, 1 << 32, MOST]),
            _ => {}
        }
        let mut machine = bytes_of(&fields);
        match random.below(8) {
            0 => machine.resize(random.pick(&[0, 31, 33, 64]), 0),
            1 | 2 => machine[random.below(32)] = random.between(0, 255) as u8,
            _ => {}
        }
        host::instruction(DAMAGED, &machine, &call, tally);
    }
}
