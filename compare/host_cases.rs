//! Cases for the functions of include/soe.h.

use crate::host::{self, BEHIND};
use crate::model::{self, Direction, Int, Levels, Terms, Unit};
use crate::papers::REPORT_INPUT;
use crate::random::Random;
use crate::tally::{printed, stop, Tally};

const MAX: Int = u32::MAX as Int;

/// Numbers whose sums of two or three pass 2^32, among others.
const WIDE: [Int; 10] = [
    0,
    1,
    2,
    1_000,
    1_001,
    0x5555_5555,
    0x5555_5556,
    0x8000_0000,
    MAX - 1,
    MAX,
];

const I64: [Int; 2] = [i64::MIN as Int, i64::MAX as Int];

/// Quantities of a direction: few MW, 1,000 MW and beside it, or any u32.
pub fn any_direction(random: &mut Random) -> Direction {
    match random.below(6) {
        0 => Direction::default(),
        1 => {
            let mut mw = [0; 3];
            mw[random.below(3)] = random.near(&[1, 1_000]).max(0);
            Direction(mw)
        }
        2 => {
            let sum = random.near(&[1_000]);
            let a = random.between(0, sum);
            let b = random.between(0, sum - a);
            Direction([a, b, sum - a - b])
        }
        3 => Direction([(); 3].map(|()| random.pick(&WIDE))),
        _ => Direction([(); 3].map(|()| random.between(0, 333))),
    }
}

/// A limit at what is needed or beside it, at its range's ends or beside them, or anything.
fn any_limit(random: &mut Random, need: Int) -> Int {
    match random.below(8) {
        0 => random.near(&[0, 2_000_000]),
        1 => random.pick(&I64),
        2 => random.between(-10, 2_000_010),
        3 => 2_000_000,
        _ => random.near(&[need.min(4_000_000)]),
    }
}

pub fn any_terms(random: &mut Random) -> Terms {
    let mut terms = Terms {
        low: any_direction(random),
        high: any_direction(random),
        ..Terms::default()
    };
    terms.export_limit = any_limit(random, terms.export_need());
    terms.import_limit = any_limit(random, terms.import_need());
    terms
}

pub fn terms(random: &mut Random, count: usize, tally: &mut Tally) {
    for _ in 0..count {
        host::terms("terms", &any_terms(random), tally);
    }
}

fn good_levels(random: &mut Random) -> Levels {
    let wide = random.pick(&[3, 100, 50_000, 2_000_000]);
    let mel = random.within(0, wide);
    let mil = -random.within(0, wide);
    let (sil, sel) = if random.once_in(3) {
        (0, 0)
    } else {
        (random.within(mil, 0), random.within(0, mel))
    };
    let corner = random.pick(&[mil, sil, sel, mel]);
    let ol = match random.below(3) {
        0 => (corner + random.between(-1, 1)).clamp(mil, mel),
        _ => random.within(mil, mel),
    };
    Levels {
        mil,
        sil,
        sel,
        mel,
        ol,
    }
}

/// `count` numbers from 0 to `high`, in order; no two alike where `strict`.
pub fn rising(random: &mut Random, count: usize, high: Int, strict: bool) -> Vec<Int> {
    loop {
        let mut numbers: Vec<Int> = (0..count).map(|_| random.within(0, high)).collect();
        numbers.sort();
        if !strict || numbers.windows(2).all(|w| w[0] < w[1]) {
            return numbers;
        }
    }
}

fn good_points(random: &mut Random) -> Vec<(Int, Int)> {
    let count = 2 + random.below(4);
    let high = random.pick(&[10, 1_000, 100_000, 4_000_000]);
    let mut rooms = rising(random, count, high, true);
    rooms[0] = 0;
    let most = random.pick(&[0, 7, high, 4_000_000]);
    let capabilities = rising(random, count, most, false);
    rooms.into_iter().zip(capabilities).collect()
}

fn break_levels(random: &mut Random, levels: &mut Levels) {
    let field = match random.below(5) {
        0 => &mut levels.mil,
        1 => &mut levels.sil,
        2 => &mut levels.sel,
        3 => &mut levels.mel,
        _ => &mut levels.ol,
    };
    *field = match random.below(4) {
        0 => random.near(&[-2_000_000, 0, 2_000_000]),
        1 => random.pick(&I64),
        2 => *field + random.between(-1, 1),
        _ => -*field,
    };
}

fn break_points(random: &mut Random, points: &mut Vec<(Int, Int)>) {
    let i = random.below(points.len());
    match random.below(8) {
        0 => points[i].0 = random.pick(&[1, MAX, 4_000_000, 4_000_001]),
        1 => points[i].1 = random.pick(&[0, MAX, 4_000_000, 4_000_001]),
        2 => points[i] = points[random.below(i + 1)],
        3 => points.reverse(),
        4 => points.truncate(i),
        5 => {
            points.extend_from_within(..);
            points.truncate(6);
        }
        6 => points[i].0 = (points[i].0 + random.between(-1, 1)).clamp(0, MAX),
        _ => points[i].1 = (points[i].1 + random.between(-1, 1)).clamp(0, MAX),
    }
}

/// Energies at their limits and beside them, and such of which a part of the bytes is 0.
const ENERGIES: [Int; 9] = [
    0,
    1,
    2,
    9_999_999,
    10_000_000,
    10_000_001,
    1 << 24,
    1 << 31,
    MAX,
];

/// A unit that nothing refuses, available and with energy for offers and for bids.
fn good_unit(random: &mut Random) -> Unit {
    Unit {
        available: 1,
        offer: random.within(1, 10_000_000),
        bid: random.within(1, 10_000_000),
        levels: good_levels(random),
        points: good_points(random),
        limit: random.within(0, 4_000_000),
    }
}

/// What No. 6 has before the data of 01: energies around their limits, and whether the unit is available.
fn any_energies(random: &mut Random, unit: &mut Unit) {
    match random.below(6) {
        0 => unit.offer = 0,
        1 => unit.bid = 0,
        2 => unit.offer = random.pick(&ENERGIES),
        3 => unit.bid = random.pick(&ENERGIES),
        4 => unit.available = 0,
        _ => unit.available = random.pick(&[0, 1, 2, 256, 257, MAX]),
    }
}

/// Stops where a law of No. 6 does not hold of a quantity.
fn law(what: &str, holds: bool, direction: u32, unit: &Unit) {
    if !holds {
        let shown = format!("direction {direction}, {unit:?}\n");
        stop("quantity, laws", shown.as_bytes(), what, "not so");
    }
}

/// The three laws of No. 6 for a unit, of which the call gave `found`: the quantity is never above 01's, is 01's with both energies
/// above 0, and is the same whatever the other direction's energy.
fn laws(random: &mut Random, direction: u32, unit: &Unit, found: i64, tally: &mut Tally) {
    let most = match unit.quantity_in_01(direction.into()) {
        Ok(quantity) => quantity as i64,
        Err(number) => return law("refused as in 01", found == -number, direction, unit),
    };
    law("never above 01's", found <= most, direction, unit);
    let good = |energy: Int| (0..=10_000_000).contains(&energy);
    if !(good(unit.offer) && good(unit.bid)) {
        return;
    }
    if unit.available == 1 && unit.offer > 0 && unit.bid > 0 {
        law("01's with energy", found == most, direction, unit);
    }
    let mut other = unit.clone();
    let energy = random.pick(&[0, 1, 9_999_999, 10_000_000]);
    match direction {
        1 => other.bid = energy,
        _ => other.offer = energy,
    }
    let again = host::quantity("quantity, laws", direction, &other, tally);
    law("by its own energy", found == again, direction, &other);
}

pub fn quantity(random: &mut Random, count: usize, tally: &mut Tally) {
    const TOPIC: &str = "quantity";
    for _ in 0..count {
        let mut unit = good_unit(random);
        let mut direction = random.between(1, 2) as u32;
        for _ in 0..random.below(3) {
            any_energies(random, &mut unit);
        }
        for _ in 0..random.pick(&[0, 0, 1, 2]) {
            match random.below(4) {
                0 => break_levels(random, &mut unit.levels),
                1 if !unit.points.is_empty() => break_points(random, &mut unit.points),
                2 => unit.limit = random.pick(&[0, 1, 3_999_999, 4_000_000, 4_000_001, MAX]),
                _ => direction = random.pick(&[0, 1, 2, 3, 257, 258, u32::MAX]),
            }
        }
        if random.once_in(10) {
            let mut bytes = host::bytes_of(&unit.points);
            let length = random.below(58);
            bytes.resize(length, 0);
            host::quantity_of(TOPIC, direction, &unit, &bytes, tally);
        } else {
            let found = host::quantity(TOPIC, direction, &unit, tally);
            laws(random, direction, &unit, found, tally);
        }
    }
    // Each length of the points' bytes, around the ones that hold 2 to 5 points, once with an energy above its limit.
    let unit = Unit {
        limit: 4_000_000,
        ..good_unit(random)
    };
    let above = Unit {
        bid: 10_000_001,
        ..unit.clone()
    };
    let rising = host::bytes_of(&(0..8).map(|i| (i, i)).collect::<Vec<_>>());
    for length in 0..=rising.len() {
        host::quantity_of(TOPIC, 1, &unit, &rising[..length], tally);
        host::quantity_of(TOPIC, 1, &above, &rising[..length], tally);
    }
}

/// Every direction, availability and pair of energies around the limits, for data that 01 lets through and for data that break
/// each of its rules. At headroom 30 MW the quantity is 17 MW, at footroom 170 MW 61.
pub fn quantity_edges(tally: &mut Tally) {
    let good = Unit {
        available: 1,
        offer: 1,
        bid: 1,
        levels: Levels {
            mil: -100_000,
            sil: 0,
            sel: 0,
            mel: 100_000,
            ol: 70_000,
        },
        points: vec![(0, 0), (10_000, 9_000), (50_000, 25_000), (100_000, 40_000)],
        limit: 4_000_000,
    };
    for (direction, quantity) in [(1, 17_000), (2, 61_000)] {
        let found = host::quantity("quantity, edges", direction, &good, tally);
        printed("quantity", quantity, found);
    }
    let mut outside = good.clone();
    outside.levels.ol = 100_001;
    let mut falling = good.clone();
    falling.points[3].1 = 24_999;
    let limits = [0, 16_999, 4_000_001].map(|limit| Unit {
        limit,
        ..good.clone()
    });
    for mut unit in [good, outside, falling].into_iter().chain(limits) {
        for direction in [0, 1, 2, 3, 257, u32::MAX] {
            for available in [0, 1, 2, 255, 256, 257, MAX] {
                for offer in ENERGIES {
                    for bid in ENERGIES {
                        (unit.available, unit.offer, unit.bid) = (available, offer, bid);
                        host::quantity("quantity, edges", direction, &unit, tally);
                    }
                }
            }
        }
    }
}

/// The 24 numbers of a report's input.
pub struct ReportNumbers {
    pub first: [Int; 4],
    pub bounds: [Int; 8],
    pub reported: [Int; 8],
}

impl ReportNumbers {
    pub fn text(&self) -> Vec<u8> {
        let mut text: String = self.first.iter().map(|n| format!("{n:9}")).collect();
        text += "\n";
        for i in 0..8 {
            text += &format!("{:9}{:9}\n", self.bounds[i], self.reported[i]);
        }
        text.into_bytes()
    }
}

/// Bounds and reported energies that nothing refuses, near the requirements where they can be.
fn good_numbers(random: &mut Random) -> ReportNumbers {
    let direction = good_direction(random);
    let bounds = good_bounds(random, &direction);
    let reported = good_reported(random, &direction, &bounds);
    let [dc, dm, dr] = direction.0;
    ReportNumbers {
        first: [random.between(1, 2), dc, dm, dr],
        bounds,
        reported,
    }
}

/// 1 to 1,000 MW.
pub fn good_direction(random: &mut Random) -> Direction {
    loop {
        let mut mw = match random.below(4) {
            0 => [0; 3],
            1 => [(); 3].map(|()| random.between(0, 3)),
            _ => [(); 3].map(|()| random.between(0, 333)),
        };
        let service = random.below(3);
        match random.below(4) {
            0 => mw[service] = 1_000 - mw.iter().sum::<Int>() + mw[service],
            1 => mw[service] = random.between(1, 400),
            _ => {}
        }
        let direction = Direction(mw);
        if (1..=1_000).contains(&direction.quantity()) {
            return direction;
        }
    }
}

/// Eight bounds of 0 to 500 × Q: full, none, around what a period recovers, or anything; sometimes one that brings its period's
/// end to 0 or a kWh beside it.
pub fn good_bounds(random: &mut Random, direction: &Direction) -> [Int; 8] {
    let most = direction.greatest_bound();
    let style = random.below(6);
    let mut bounds = [(); 8].map(|()| match style {
        0 => most,
        1 => random.pick(&[0, most]),
        2 => random.near(&[direction.er()]).clamp(0, most),
        3 => random.between(0, direction.er().min(most)),
        4 => random.within(0, most),
        _ => random.pick(&[0, 0, 0, most / 2]),
    });
    if random.once_in(3) {
        let i = random.below(8);
        let row = model::requirement(direction.rev(), direction.er(), &bounds)[i];
        bounds[i] = random.near(&[row.start + row.back]).clamp(0, most);
    }
    bounds
}

/// Eight reported energies at the starts, a kWh beside them, or anything.
fn good_reported(random: &mut Random, direction: &Direction, bounds: &[Int; 8]) -> [Int; 8] {
    let rows = model::requirement(direction.rev(), direction.er(), bounds);
    let mut reported = [0; 8];
    for i in 0..8 {
        reported[i] = match random.below(4) {
            0 => random.within(0, 10_000_000),
            _ => random.near(&[rows[i].start]).clamp(0, 10_000_000),
        };
    }
    reported
}

/// One number beyond what a check allows.
fn break_numbers(random: &mut Random, numbers: &mut ReportNumbers) {
    let i = random.below(8);
    let quantity: Int = numbers.first[1..].iter().sum();
    match random.below(4) {
        0 => {
            let service = 1 + random.below(3);
            let others = quantity - numbers.first[service];
            numbers.first[service] = match random.below(3) {
                0 => random.near(&[1_000]) - others.min(999),
                1 => random.pick(&[0, 1_000, 1_001, 999_999_999]),
                _ => random.between(0, 1_500),
            };
        }
        1 => numbers.first = [random.between(1, 2), 0, 0, 0],
        2 => numbers.bounds[i] = random.near(&[500 * quantity.min(1_000_000) + 1, 999_999_998]),
        _ => numbers.reported[i] = random.near(&[10_000_000, 999_999_998]),
    }
}

const ROOMS: [usize; 9] = [0, 1, 61, 487, 488, 489, 500, 599, BEHIND];

/// Bytes that stand for others in a damaged text.
pub const BYTES: [u8; 16] = [
    b' ', b'0', b'1', b'2', b'9', b'\n', b'\r', b'\t', b'+', b'-', b'.', b'/', b':', 0, 0x80, 0xff,
];

pub fn reports(random: &mut Random, count: usize, tally: &mut Tally) {
    for _ in 0..count {
        let mut numbers = good_numbers(random);
        for _ in 0..random.below(4) {
            break_numbers(random, &mut numbers);
        }
        let mut text = numbers.text();
        if random.once_in(4) {
            for _ in 0..=random.below(2) {
                let at = random.below(text.len());
                text[at] = random.pick(&BYTES);
            }
        }
        let room = if random.once_in(3) {
            random.pick(&ROOMS)
        } else {
            random.pick(&[488, 489, BEHIND])
        };
        host::report("report", &text, room, tally);
    }
}

/// A text with each byte value at each place, cut and lengthened to each length, with a byte left out or put in at each
/// place, and each room.
pub fn damaged_reports(tally: &mut Tally) {
    const TOPIC: &str = "report, damaged";
    let text = REPORT_INPUT.as_bytes();
    for at in 0..text.len() {
        for byte in 0..=u8::MAX {
            let mut damaged = text.to_vec();
            damaged[at] = byte;
            host::report(TOPIC, &damaged, 488, tally);
        }
        damaged_at(TOPIC, text, at, tally);
    }
    for room in 0..=BEHIND {
        host::report(TOPIC, text, room, tally);
    }
    lengths(TOPIC, text, tally);
}

/// The same of a random text, with several byte values at each place.
pub fn damaged_random_report(random: &mut Random, tally: &mut Tally) {
    const TOPIC: &str = "report, damaged";
    let text = good_numbers(random).text();
    for at in 0..text.len() {
        for byte in BYTES {
            let mut damaged = text.clone();
            damaged[at] = byte;
            host::report(TOPIC, &damaged, 488, tally);
        }
        damaged_at(TOPIC, &text, at, tally);
    }
    lengths(TOPIC, &text, tally);
}

fn damaged_at(topic: &'static str, text: &[u8], at: usize, tally: &mut Tally) {
    let mut shorter = text.to_vec();
    shorter.remove(at);
    host::report(topic, &shorter, 488, tally);
    // One byte left out and one put in at the end: the length is right.
    shorter.push(b'\n');
    host::report(topic, &shorter, 488, tally);
    for byte in [b' ', b'0', b'\n'] {
        let mut longer = text.to_vec();
        longer.insert(at, byte);
        host::report(topic, &longer, 488, tally);
        longer.pop();
        host::report(topic, &longer, 488, tally);
    }
}

fn lengths(topic: &'static str, text: &[u8], tally: &mut Tally) {
    for length in 0..=text.len() + 20 {
        let mut cut = text.to_vec();
        for byte in [b' ', b'\n', 0] {
            cut.resize(length, byte);
            host::report(topic, &cut, 488, tally);
        }
    }
}
