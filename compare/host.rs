//! The functions of include/soe.h, each called beside the model.

use crate::instructions::{self, Call};
use crate::model::{self, Int, Terms, Unit};
use crate::payment::Payment;
use crate::payment_cases::kind_of;
use crate::tally::{stop, Tally};
use crate::test_day;

extern "C" {
    fn soe_report(input: *const u8, input_length: usize, output: *mut u8, room: usize) -> i64;

    fn soe_terms(
        low_dc: u32,
        low_dm: u32,
        low_dr: u32,
        high_dc: u32,
        high_dm: u32,
        high_dr: u32,
        export_limit: i64,
        import_limit: i64,
    ) -> i64;

    fn soe_quantity(
        direction: u32,
        available: u32,
        offer: u32,
        bid: u32,
        mil: i64,
        sil: i64,
        sel: i64,
        mel: i64,
        ol: i64,
        points: *const u8,
        points_len: usize,
        limit: u32,
    ) -> i64;

    fn soe_instruction(
        machine: *mut u8,
        machine_length: usize,
        event: u32,
        time: u64,
        at: u64,
        limit: u32,
        available: u32,
        armed: u32,
        energy: u32,
    ) -> i64;

    fn soe_payment(
        price: u32,
        adjustment: u32,
        k: u32,
        f: u32,
        pieces: *const u8,
        pieces_length: usize,
        amount: *mut i64,
    ) -> i64;

    fn soe_test_day(seed: u32, buffer: *mut u16, count: usize) -> i64;
}

/// The bytes behind the output, of which a call is lent the first `room`.
pub const BEHIND: usize = 600;

/// A number and what a report did to its output.
fn show(number: i64, before: &[u8], output: &[u8]) -> String {
    if output == before {
        return format!("{number}, the output as it was");
    }
    let past = if output[488..] == before[488..] {
        "as they were"
    } else {
        "changed"
    };
    let table = String::from_utf8_lossy(&output[..488]);
    format!("{number}, the bytes past 488 {past}, the output\n{table}")
}

/// Compares the number, the output with the bytes past 488, and that the input is as it was. Gives the number and the output.
pub fn report(topic: &'static str, input: &[u8], room: usize, tally: &mut Tally) -> (i64, Vec<u8>) {
    assert!(room <= BEHIND);
    let before: Vec<u8> = (0..BEHIND).map(|i| (i * 7 + 1) as u8).collect();
    let mut expected = before.clone();
    let number = match model::report(input, room) {
        Ok(text) => {
            expected[..text.len()].copy_from_slice(text.as_bytes());
            0
        }
        Err(number) => -number,
    };
    let lent = input.to_vec();
    let mut output = before.clone();
    // SAFETY: as include/soe.h asks: both pointers lead to as many bytes as their lengths say, and do not overlap.
    let found = unsafe { soe_report(lent.as_ptr(), lent.len(), output.as_mut_ptr(), room) };
    if found != number || output != expected || lent != input {
        let mut shown = format!("soe_report, room {room}, {} bytes:\n", input.len()).into_bytes();
        shown.extend(input);
        stop(
            topic,
            &shown,
            &show(number, &before, &expected),
            &show(found, &before, &output),
        );
    }
    tally.count(topic, "soe_report", -number);
    (found, output)
}

/// The quantities fit u32, the limits i64.
pub fn terms(topic: &'static str, terms: &Terms, tally: &mut Tally) -> i64 {
    let (l, h) = (
        terms.low.0.map(|q| q as u32),
        terms.high.0.map(|q| q as u32),
    );
    let (export, import) = (terms.export_limit as i64, terms.import_limit as i64);
    let expected = -model::terms_check(terms);
    // SAFETY: every argument may have any value.
    let found = unsafe { soe_terms(l[0], l[1], l[2], h[0], h[1], h[2], export, import) };
    if found != expected {
        let shown = format!("soe_terms {l:?} {h:?} {export} {import}\n");
        stop(
            topic,
            shown.as_bytes(),
            &expected.to_string(),
            &found.to_string(),
        );
    }
    tally.count(topic, "soe_terms", -expected);
    expected
}

/// The points as bytes: pairs of little-endian u32, room and capability.
pub fn bytes_of(points: &[(Int, Int)]) -> Vec<u8> {
    let numbers = points.iter().flat_map(|&(r, c)| [r, c]);
    numbers.flat_map(|n| (n as u32).to_le_bytes()).collect()
}

/// The quantity of a unit whose points are lent as `bytes`. A length other than 16, 24, 32 or 40 has no points to read: 12. The
/// unit's numbers fit the function's.
pub fn quantity_of(
    topic: &'static str,
    direction: u32,
    unit: &Unit,
    bytes: &[u8],
    tally: &mut Tally,
) -> i64 {
    let number = |b: &[u8]| Int::from(u32::from_le_bytes(b.try_into().unwrap()));
    let points = if bytes.len() % 8 == 0 {
        bytes
            .chunks(8)
            .map(|b| (number(&b[..4]), number(&b[4..])))
            .collect()
    } else {
        Vec::new()
    };
    let unit = Unit {
        points,
        ..unit.clone()
    };
    let (expected, refusal) = match unit.quantity(direction.into()) {
        Ok(quantity) => (quantity as i64, 0),
        Err(number) => (-number, number),
    };
    let l = &unit.levels;
    // SAFETY: the pointer is not null, also for no bytes, and leads to as many bytes as its length says.
    let found = unsafe {
        soe_quantity(
            direction,
            unit.available as u32,
            unit.offer as u32,
            unit.bid as u32,
            l.mil as i64,
            l.sil as i64,
            l.sel as i64,
            l.mel as i64,
            l.ol as i64,
            bytes.as_ptr(),
            bytes.len(),
            unit.limit as u32,
        )
    };
    if found != expected {
        let shown = format!(
            "soe_quantity, direction {direction}, {unit:?} ({} bytes)\n",
            bytes.len()
        );
        stop(
            topic,
            shown.as_bytes(),
            &expected.to_string(),
            &found.to_string(),
        );
    }
    let energy = if direction == 1 { unit.offer } else { unit.bid };
    let kind = match (refusal, unit.available, energy) {
        (0, 0, _) => "unavailable",
        (0, _, 0) => "no energy",
        _ => "soe_quantity",
    };
    tally.count(topic, kind, refusal);
    expected
}

/// The quantity of a unit with its own points.
pub fn quantity(topic: &'static str, direction: u32, unit: &Unit, tally: &mut Tally) -> i64 {
    quantity_of(topic, direction, unit, &bytes_of(&unit.points), tally)
}

/// The bytes before and after those that an event's call is lent, and the readings before and after a test day's.
const BESIDE: usize = 17;

/// The events of soe.h by their numbers; 0 stands for any other.
pub const EVENTS: [&str; 6] = ["no event", "start", "cease", "accept", "reject", "tick"];

/// Compares the number, every byte that the call was lent and the bytes beside them. Gives the number and the machine's bytes
/// afterwards.
pub fn instruction(
    topic: &'static str,
    machine: &[u8],
    call: &Call,
    tally: &mut Tally,
) -> (i64, Vec<u8>) {
    let lent = BESIDE..BESIDE + machine.len();
    let mut expected: Vec<u8> = (0..lent.end + BESIDE).map(|i| (i * 7 + 1) as u8).collect();
    expected[lent.clone()].copy_from_slice(machine);
    let mut bytes = expected.clone();
    let number = match instructions::soe_instruction(machine, call) {
        Ok(after) => {
            expected[lent.clone()].copy_from_slice(&after);
            0
        }
        Err(number) => -number,
    };
    // SAFETY: the pointer is not null, also for no bytes, and leads to as many bytes as its length says.
    let found = unsafe {
        soe_instruction(
            bytes[lent.clone()].as_mut_ptr(),
            machine.len(),
            call.event,
            call.time,
            call.at,
            call.limit,
            call.available,
            call.armed,
            call.energy,
        )
    };
    if found != number || bytes != expected {
        let shown = format!("soe_instruction, {call:?}, machine {machine:02x?}\n");
        let show = |number, bytes: &[u8]| {
            let (before, rest) = bytes.split_at(lent.start);
            let (machine, after) = rest.split_at(machine.len());
            format!("{number}, machine {machine:02x?} between {before:02x?} and {after:02x?}")
        };
        stop(
            topic,
            shown.as_bytes(),
            &show(number, &expected),
            &show(found, &bytes),
        );
    }
    let event = EVENTS.get(call.event as usize).unwrap_or(&EVENTS[0]);
    tally.count(topic, event, -number);
    (number, bytes[lent].to_vec())
}

/// What stands at the amount and beside it before a payment's call.
const AMOUNTS: [i64; 3] = [i64::MIN, -7_777_777_777, i64::MAX];

/// Compares the number, the amount with the numbers beside it, and that the pieces' bytes are as they were. Gives the amount, where
/// there is one. The figures fit u32.
pub fn payment_of(
    topic: &'static str,
    payment: &Payment,
    bytes: &[u8],
    tally: &mut Tally,
) -> Option<Int> {
    let mut expected = AMOUNTS;
    let number = match payment.soe_payment(bytes) {
        Ok(amount) => {
            expected[1] = amount as i64;
            0
        }
        Err(number) => -number,
    };
    let lent = bytes.to_vec();
    let mut amounts = AMOUNTS;
    // SAFETY: the pointers are not null, also for no bytes; one leads to as many bytes as its length says, the other to an i64.
    let found = unsafe {
        soe_payment(
            payment.price as u32,
            payment.adjustment as u32,
            payment.k as u32,
            payment.f as u32,
            lent.as_ptr(),
            lent.len(),
            amounts[1..].as_mut_ptr(),
        )
    };
    if found != number || amounts != expected || lent != bytes {
        let shown = format!("soe_payment, {payment:?}, bytes {bytes:02x?}\n");
        stop(
            topic,
            shown.as_bytes(),
            &format!("{number}, {expected:?}"),
            &format!("{found}, {amounts:?}"),
        );
    }
    tally.count(topic, "soe_payment", -number);
    (number == 0).then(|| Int::from(amounts[1]))
}

/// The payment for its own pieces.
pub fn payment(topic: &'static str, payment: &Payment, tally: &mut Tally) -> Option<Int> {
    let amount = payment_of(topic, payment, &payment.bytes(), tally);
    if amount.is_some() {
        tally.pay(kind_of(payment.exactly()));
    }
    amount
}

/// Compares the number, every reading of the lent buffer and those beside it. Gives the number and the buffer afterwards.
pub fn test_day(
    topic: &'static str,
    seed: u32,
    count: usize,
    tally: &mut Tally,
) -> (i64, Vec<u16>) {
    let lent = BESIDE..BESIDE + count;
    let before: Vec<u16> = (0..lent.end + BESIDE).map(|i| (i * 7 + 1) as u16).collect();
    let mut expected = before.clone();
    let number = match test_day::fill(seed.into(), &mut expected[lent.clone()]) {
        Ok(last) => last as i64,
        Err(number) => -number,
    };
    let mut buffer = before;
    // SAFETY: the pointer is not null, also for no readings, and leads to as many of them as the count says.
    let found = unsafe { soe_test_day(seed, buffer[lent.clone()].as_mut_ptr(), count) };
    if found != number || buffer != expected {
        let shown = format!("soe_test_day, seed {seed}, {count} readings\n");
        let (expected, buffer) = (
            format!("{number}, {expected:?}"),
            format!("{found}, {buffer:?}"),
        );
        stop(topic, shown.as_bytes(), &expected, &buffer);
    }
    tally.count(topic, "soe_test_day", 0.max(-number));
    (number, buffer[lent].to_vec())
}
