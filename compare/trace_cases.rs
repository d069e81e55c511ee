//! Cases for ledger_trace: period energy, also by the containment curve's table, blocks and parts, lists of ledger calls,
//! made-up records.

use crate::day;
use crate::host_cases::{any_direction, any_terms, good_bounds, good_direction, rising};
use crate::model::{
    self, containment, regulation, Curve, Direction, Entries, Int, Rate, Record, Terms, RATES,
};
use crate::random::Random;
use crate::tally::Tally;
use crate::trace::{numbers, places, Runs, Script, GREATEST_INPUT, MOST_READINGS};
use std::ops::RangeInclusive;

const MAX: Int = u32::MAX as Int;
const I64: [Int; 2] = [i64::MIN as Int, i64::MAX as Int];
const BAD_READINGS: [u16; 6] = [46_999, 53_001, 0, 1, 40_000, u16::MAX];
const TRADERS: [Int; 4] = [1, 2, 3, 4];
/// Beside the traders, and such as 8, 16 or 31 bits would take for them.
const NO_TRADERS: [Int; 10] = [0, 5, 0, 5, 6, 257, 260, 65_537, (1 << 31) + 1, MAX];

// Curves and readings

pub fn good_curve(random: &mut Random) -> Curve {
    match random.below(6) {
        0 => return regulation(),
        1 => return containment(),
        _ => {}
    }
    let count = 2 + random.below(4);
    let widest = random.pick(&[5, 60, 500, 3_000]);
    let deviations = rising(random, count, widest, true);
    let most = random.pick(&[0, 3, 1_000, 1_000, 1_000]);
    let mut shares = rising(random, count, most, false);
    shares[0] = 0;
    Curve(deviations.into_iter().zip(shares).collect())
}

pub fn good_curves(random: &mut Random) -> [Curve; 3] {
    [(); 3].map(|()| good_curve(random))
}

/// Each way in which a curve of `count` points breaks its rule, and each limit that it may just reach.
fn edge_curves(random: &mut Random, count: usize) -> Vec<Curve> {
    let whole: Vec<(Int, Int)> = (0..count as Int).map(|i| (10 + 100 * i, 200 * i)).collect();
    let mut curves = vec![Curve(whole.clone())];
    for i in 0..count {
        let (before, after) = (whole[i.saturating_sub(1)], whole[(i + 1).min(count - 1)]);
        let deviations = [
            0,
            before.0 - 1,
            before.0,
            before.0 + 1,
            after.0 - 1,
            after.0,
            after.0 + 1,
            2_999,
            3_000,
            3_001,
            65_535,
        ];
        let shares = [
            0,
            1,
            before.1 - 1,
            before.1,
            after.1,
            after.1 + 1,
            999,
            1_000,
            1_001,
            65_535,
        ];
        for deviation in deviations {
            let mut points = whole.clone();
            points[i].0 = deviation;
            curves.push(Curve(points));
        }
        for share in shares.into_iter().filter(|&s| s >= 0) {
            let mut points = whole.clone();
            points[i].1 = share;
            curves.push(Curve(points));
        }
    }
    for _ in 0..10 {
        let points = (0..count).map(|_| (random.between(0, 3), random.between(0, 3)));
        curves.push(Curve(points.collect()));
    }
    curves
}

fn broken_curve(random: &mut Random) -> Curve {
    let count = random.below(6);
    let curves = edge_curves(random, count.max(1));
    let broken: Vec<&Curve> = curves.iter().filter(|c| !c.good()).collect();
    match count {
        0 => Curve::default(),
        _ => broken[random.below(broken.len())].clone(),
    }
}

/// Readings at the corners of the curves and beside them, both below and above 50,000.
fn corners(curves: &[Curve; 3]) -> Vec<u16> {
    let mut readings: Vec<Int> = vec![47_000, 47_001, 49_999, 50_000, 50_001, 52_999, 53_000];
    for (deviation, _) in curves.iter().flat_map(|c| &c.0) {
        for d in [deviation - 1, *deviation, deviation + 1] {
            readings.extend([50_000 - d, 50_000 + d]);
        }
    }
    readings.retain(|r| (47_000..=53_000).contains(r));
    readings.into_iter().map(|r| r as u16).collect()
}

/// Where a period's readings lie.
#[derive(Clone, Copy)]
pub enum Weather {
    Calm,
    Low,
    High,
    Any,
}

/// About how many steps a walk has in a script that has others: each is a line of the text, which must not get too long.
const STEPS: usize = 3_000;

/// The same where a script has many walks.
pub const FEW_STEPS: usize = 400;

/// A period's readings in about so many steps, each held for one reading or, where the period has more, for several.
fn walk(
    random: &mut Random,
    from: u16,
    (least, most): (Int, Int),
    rate: Rate,
    steps: usize,
) -> Vec<u16> {
    let mut readings = Vec::new();
    let mut at = Int::from(from);
    while readings.len() < rate.period() {
        at = (at + random.between(-20, 20)).clamp(least, most);
        let held = 1 + random.below(2 * (rate.period() / steps) - 1);
        let length = (readings.len() + held).min(rate.period());
        readings.resize(length, at as u16);
    }
    readings
}

/// A period's readings, all good: one value, few runs of corners, or a walk.
pub fn good_readings(
    random: &mut Random,
    weather: Weather,
    curves: &[Curve; 3],
    rate: Rate,
    steps: usize,
) -> Vec<u16> {
    let (least, most) = match weather {
        Weather::Calm => (49_900, 50_100),
        Weather::Low => (47_000, 49_950),
        Weather::High => (50_050, 53_000),
        Weather::Any => (47_000, 53_000),
    };
    let mut corners = corners(curves);
    corners.retain(|&r| (least..=most).contains(&Int::from(r)));
    let value = |random: &mut Random| {
        if corners.is_empty() || random.once_in(2) {
            random.within(least, most) as u16
        } else {
            random.pick(&corners)
        }
    };
    let count = rate.period();
    match random.below(8) {
        0 => vec![value(random); count],
        1 => {
            let from = value(random);
            walk(random, from, (least, most), rate, steps)
        }
        _ => {
            let mut readings = Vec::new();
            while readings.len() < count {
                let run = 1 + random.below(count / 8);
                let length = (readings.len() + run).min(count);
                readings.resize(length, value(random));
            }
            readings
        }
    }
}

/// The counts that there can be: each rate's period and block.
fn good_counts() -> impl Iterator<Item = usize> {
    RATES.into_iter().flat_map(|r| [r.period(), r.block()])
}

/// The good counts, one more and one less, half and twice as many, what 16 bits keep of them and what they take for them; eight
/// periods, some at one rate and some at the other; others.
fn counts() -> Vec<usize> {
    let mut counts = vec![0, 1, 25_200, 32_400, 39_600, 252_000, 259_200];
    for count in good_counts() {
        counts.extend([count - 1, count, count + 1, count / 2, 2 * count]);
        counts.extend([count % 65_536, count + 65_536]);
    }
    let [one, other] = RATES.map(|rate| rate.period());
    counts.extend((1..8).map(|periods| periods * one + (8 - periods) * other));
    counts.retain(|&count| count <= MOST_READINGS);
    counts.sort();
    counts.dedup();
    counts
}

/// Places in a period of `count` readings, counted from 0: at its ends, at those of its first and last tenth, in its middle.
fn ends(count: usize) -> [usize; 9] {
    let tenth = count / 10;
    [
        0,
        1,
        tenth - 1,
        tenth,
        count / 2,
        count - tenth - 1,
        count - tenth,
        count - 2,
        count - 1,
    ]
}

/// A period's readings that refusal 6 stops: another count, or a bad one.
fn bad_readings(random: &mut Random, rate: Rate) -> Vec<u16> {
    let mut readings = vec![50_000; rate.period()];
    match random.below(6) {
        0 => {
            let beside = [0, 1, rate.period() - 1, rate.period() + 1];
            readings.resize(random.pick(&beside), 50_000);
        }
        1 => {
            let mut others = counts();
            others.retain(|&count| RATES.iter().all(|rate| count != rate.period()));
            readings.resize(random.pick(&others), 50_000);
        }
        2 | 3 => readings[random.pick(&ends(rate.period()))] = random.pick(&BAD_READINGS),
        _ => readings[random.below(rate.period())] = random.pick(&BAD_READINGS),
    }
    readings
}

// Period energy

/// The greatest common divisor.
fn divisor(a: Int, b: Int) -> Int {
    if b == 0 {
        a
    } else {
        divisor(b, a % b)
    }
}

/// What a direction's services respond to each deviation from 0 to 3,000 together, in W.
pub fn responses(direction: &Direction, curves: &[Curve; 3]) -> Vec<Int> {
    let service = |s: usize, d| model::response(direction.0[s], &curves[s], d);
    let together = |d| (0..3).map(|s| service(s, d)).sum();
    (0..=3_000).map(together).collect()
}

/// Any four of the deviations at which the responses rise, where there are some.
fn any_four(random: &mut Random, responses: &[Int]) -> Option<[usize; 4]> {
    let mut kinds: Vec<usize> = (0..responses.len()).collect();
    kinds.retain(|&d| responses[d] > 0);
    kinds.dedup_by_key(|d| responses[*d]);
    let some = !kinds.is_empty();
    some.then(|| [(); 4].map(|()| random.pick(&kinds)))
}

/// Readings that bring a sum of W to a multiple of the divisor, or to one W past it: at a multiple a W more changes the bound,
/// and past it a W less. They are of four deviations, fewer than `each` of each.
struct Filling {
    each: i64,
    divisor: i64,
    deviations: [usize; 4],
    responses: [i64; 4],
    /// What so many readings of the first two leave by the divisor, in order.
    firsts: Vec<(i64, [i64; 2])>,
}

impl Filling {
    fn new(deviations: [usize; 4], responses: &[Int], rate: Rate, each: usize) -> Filling {
        let divisor = rate.divisor() as i64;
        let each = each as i64;
        let responses = deviations.map(|d| responses[d] as i64);
        let left = |m, n| (m * responses[0] + n * responses[1]) % divisor;
        let counts = (0..each).flat_map(|m| (0..each).map(move |n| [m, n]));
        let mut firsts: Vec<_> = counts.map(|[m, n]| (left(m, n), [m, n])).collect();
        firsts.sort();
        Filling {
            each,
            divisor,
            deviations,
            responses,
            firsts,
        }
    }

    /// Deviations and how many readings have them, if some are found that bring the sum `past` W past a multiple.
    fn to(&self, sum: Int, past: Int) -> Option<[(Int, usize); 4]> {
        let wanted = (past - sum).rem_euclid(self.divisor.into()) as i64;
        for m in 0..self.each {
            for n in 0..self.each {
                let more = m * self.responses[2] + n * self.responses[3];
                let wanted = (wanted - more).rem_euclid(self.divisor);
                if let Ok(at) = self.firsts.binary_search_by_key(&wanted, |first| first.0) {
                    let [k, l] = self.firsts[at].1;
                    let [a, b, c, d] = self.deviations.map(|d| d as Int);
                    return Some([(a, k), (b, l), (c, m), (d, n)].map(|(d, n)| (d, n as usize)));
                }
            }
        }
        None
    }
}

/// Changes some readings of each direction so that its sum is at a multiple of the divisor or one W past it, where that can be.
pub fn bring_to_multiples(
    random: &mut Random,
    directions: [&Direction; 2],
    curves: &[Curve; 3],
    rate: Rate,
    readings: &mut [u16],
) {
    let each = 150;
    let changed = 2 * 4 * each;
    let mut at = random.below(rate.period() - changed);
    readings[at..at + changed].fill(50_000);
    for (direction, side) in directions.into_iter().zip([-1, 1]) {
        let responses = responses(direction, curves);
        let deviation = |reading: u16| (side * (Int::from(reading) - 50_000)).max(0);
        let sum = readings
            .iter()
            .map(|&r| responses[deviation(r) as usize])
            .sum();
        let past = random.between(0, 1);
        let four = any_four(random, &responses);
        let filled = four.and_then(|four| Filling::new(four, &responses, rate, each).to(sum, past));
        for (deviation, times) in filled.unwrap_or_default() {
            readings[at..at + times].fill(beside(side, deviation));
            at += times;
        }
    }
}

/// The reading with this deviation, below 50,000 (side −1) or above (1).
pub fn beside(side: Int, deviation: Int) -> u16 {
    (50_000 + side * deviation) as u16
}

/// Reads `count` deviations with this sum, as even as they can be.
fn read_evenly(script: &mut Script, side: Int, count: usize, sum: usize) {
    let (each, more) = (sum / count.max(1), sum % count.max(1));
    for (deviation, times) in [(each + 1, more), (each, count - more)] {
        if times > 0 {
            script.read(beside(side, deviation as Int), times);
        }
    }
}

/// Each once at each rate: curves broken in each way, readings at each corner, each reading by itself, a W more or less along
/// segments, sums around multiples of what divides them, sums from a place on.
pub fn energy_edges(random: &mut Random, runs: &mut Runs, tally: &mut Tally) {
    for rate in RATES {
        for count in 1..=5 {
            runs.add(broken_curves(random, rate, count), tally);
        }
        runs.add(range_ends(rate), tally);
        for (width, rise) in [
            (3_000, 1_000),
            (2_999, 1_000),
            (2_999, 1),
            (2_997, 999),
            (2_048, 1_000),
        ] {
            runs.add(wide_segments(random, rate, width, rise), tally);
        }
        runs.add(last_steps(random, rate), tally);
        for past in 0..=1 {
            runs.add(each_step(rate, past), tally);
        }
        for curves in [
            [containment(), regulation(), regulation()],
            good_curves(random),
        ] {
            runs.add(every_reading(rate, &curves), tally);
            runs.add(full_walk(random, rate, &curves), tally);
        }
        runs.add(sums(rate), tally);
        runs.add(sums_from_places(random, rate), tally);
        runs.add(uneven_tens(rate), tally);
    }
}

const EDGES: &str = "energy, edges";

/// Each way in which a curve of `count` points breaks its rule, and each limit that it may just reach.
fn broken_curves(random: &mut Random, rate: Rate, count: usize) -> Script {
    let mut script = Script::new(EDGES);
    script.curves(&[regulation(), regulation(), regulation()]);
    for curve in edge_curves(random, count) {
        let service = random.below(3);
        script.curve(service, &curve);
        script.read(49_900, rate.period() / 2);
        script.read(50_120, rate.period() / 2);
        script.energy_and_table(&Direction([0, 0, 1_000]), &Direction([300, 300, 300]));
        script.curve(service, &regulation());
    }
    script
}

/// A reading's range, at the ends of the period and of its tenths.
fn range_ends(rate: Rate) -> Script {
    let mut script = Script::new(EDGES);
    script.curves(&[containment(), regulation(), regulation()]);
    let full = Direction([0, 0, 1_000]);
    for value in [0, 46_999, 47_000, 47_001, 52_999, 53_000, 53_001, u16::MAX] {
        for before in ends(rate.period()) {
            script.read(50_000, before);
            script.read(value, 1);
            script.read(50_000, rate.period() - 1 - before);
            script.energy_and_table(&full, &full);
        }
    }
    script
}

/// A segment as wide as can be, at deviations where the response before its rounding is a whole number of W, just above one and
/// just below.
fn wide_segments(random: &mut Random, rate: Rate, width: Int, rise: Int) -> Script {
    let mut script = Script::new(EDGES);
    for mw in [1, 7, 900, 999] {
        let over = 1_000 * mw * rise;
        let least = divisor(width, over);
        for left in [0, least % width, width - least] {
            let steps = (1..=width).filter(|step| over * step % width == left);
            let at: Vec<Int> = steps.map(|step| 3_000 - width + step).collect();
            let places = [at[0], random.pick(&at), at[at.len() - 1]];
            one_watt(random, &mut script, rate, mw, (width, rise), &places);
        }
    }
    script
}

/// Segments of many widths at their last mHz but one, where the response before its rounding is just above a whole number of W:
/// what is lost in each step from mHz to mHz has added up there.
fn last_steps(random: &mut Random, rate: Rate) -> Script {
    let mut script = Script::new(EDGES);
    for width in (2_801..3_000).filter(|&width| divisor(width, 10) == 1) {
        // Each step is 1 / width W less than a whole number, so that all but the last lead 1 / width W above one.
        let segment = |mw| (1..=1_000).map(move |rise| (mw, rise));
        let mut segments = (1..=999).rev().flat_map(segment);
        let (mw, rise) = segments
            .find(|(mw, rise)| 1_000 * mw * rise % width == width - 1)
            .expect("a segment of this width");
        one_watt(random, &mut script, rate, mw, (width, rise), &[2_999]);
    }
    script
}

/// 1,000 MW at each deviation, with sums `past` W past a multiple of the divisor. The two segments leave different parts of a W,
/// by which they reach any sum.
fn each_step(rate: Rate, past: Int) -> Script {
    let mut script = Script::new(EDGES);
    let all = Direction([1_000, 0, 0]);
    let segments = Curve(vec![(0, 0), (1_501, 499), (3_000, 1_000)]);
    let curves = [segments, regulation(), regulation()];
    script.curves(&curves);
    let responses = responses(&all, &curves);
    let filling = Filling::new([311, 1_111, 1_999, 2_777], &responses, rate, 200);
    for deviation in 1..=3_000 {
        let filled = filling.to(responses[deviation as usize], past);
        read_filled(&mut script, rate, deviation, filled.expect("such a sum"));
        script.energy(&all, &all);
    }
    script
}

/// A segment up to 3,000 mHz, and energies in which a W more or less at one of the places changes a bound. The sums are brought
/// to a multiple of the divisor, and one W past it, with the help of a second service.
fn one_watt(
    random: &mut Random,
    script: &mut Script,
    rate: Rate,
    mw: Int,
    (width, rise): (Int, Int),
    places: &[Int],
) {
    let segment = Curve(vec![(3_000 - width, 0), (3_000, rise)]);
    let second = [
        (0, 0),
        (701, 90),
        (1_499, 301),
        (2_203, 612),
        (3_000, 1_000),
    ];
    let curves = [segment, Curve(second.to_vec()), regulation()];
    let both = Direction([mw, (1_000 - mw).min(100), 0]);
    script.curves(&curves);
    let responses = responses(&both, &curves);
    for &place in places {
        for past in 0..=1 {
            let filled = (0..100).find_map(|_| {
                let four = any_four(random, &responses)?;
                Filling::new(four, &responses, rate, 100).to(responses[place as usize], past)
            });
            let filled = filled.expect("a second service that helps");
            read_filled(script, rate, place, filled);
            script.energy(&both, &both);
        }
    }
}

/// One reading with this deviation in each direction, those that bring the sum to a multiple, and else 50,000.
fn read_filled(script: &mut Script, rate: Rate, deviation: Int, filled: [(Int, usize); 4]) {
    let mut rest = rate.period();
    for (deviation, times) in [(deviation, 1)].into_iter().chain(filled) {
        if times > 0 {
            script.read(beside(-1, deviation), times);
            script.read(beside(1, deviation), times);
            rest -= 2 * times;
        }
    }
    script.read(50_000, rest);
}

/// Every reading at least once; the least energy that a single reading gives.
fn every_reading(rate: Rate, curves: &[Curve; 3]) -> Script {
    let mut script = Script::new(EDGES);
    script.curves(curves);
    let values = 47_000..=53_000;
    let times = rate.period().div_ceil(values.len());
    let all: Vec<u16> = values.flat_map(|value| vec![value; times]).collect();
    for part in [&all[..rate.period()], &all[all.len() - rate.period()..]] {
        script.read_all(part);
        script.energy_and_table(&Direction([333, 333, 334]), &Direction([1, 2, 3]));
    }
    for corner in corners(curves) {
        script.read(corner, 1);
        script.read(50_000, rate.period() - 1);
        script.energy_and_table(&Direction([7, 0, 0]), &Direction([0, 0, 7]));
        script.read(corner, rate.period());
        script.energy_and_table(&Direction([1, 1, 1]), &Direction([1, 1, 998]));
    }
    script
}

/// A walk with a step for each reading.
fn full_walk(random: &mut Random, rate: Rate, curves: &[Curve; 3]) -> Script {
    let mut script = Script::new(EDGES);
    script.curves(curves);
    let steps = rate.period();
    script.read_all(&walk(random, 50_000, (49_000, 51_000), rate, steps));
    script.energy_and_table(&good_direction(random), &good_direction(random));
    script
}

/// A curve by which n MW respond to a deviation of d with n × d W.
pub fn watts() -> Curve {
    Curve(vec![(0, 0), (3_000, 3)])
}

/// A curve by which they respond with n × d kW, up to 1,000 mHz.
fn kilowatts() -> Curve {
    Curve(vec![(0, 0), (1_000, 1_000)])
}

/// A curve by which 1 MW responds with a W for each mHz past 2,000.
fn watts_past_2000() -> Curve {
    Curve(vec![(2_000, 0), (3_000, 1)])
}

/// Sums of W at multiples of each rate's divisor and one W beside them, which show a reading left out or taken twice and a
/// service's energy rounded by itself; sums that 31 to 45 bits just hold, and just do not; the greatest.
fn sums(rate: Rate) -> Script {
    let mut script = Script::new(EDGES);
    script.curves(&[watts(), kilowatts(), watts_past_2000()]);
    let (count, none) = (rate.period(), Direction::default());
    // What 1 MW can call for by kW in a period.
    let per_mw = 1_000_000 * count;
    let mut sums = Vec::new();
    for divisor in RATES.map(|rate| rate.divisor() as usize) {
        for multiple in [1, 2, 9, 10, 11, 499, 500, 499_499].map(|times| times * divisor) {
            sums.extend([multiple - 1, multiple, multiple + 1]);
        }
    }
    sums.extend((31..=45).flat_map(|bits| [(1 << bits) - 1, 1 << bits]));
    sums.retain(|&sum| sum <= 999 * per_mw);
    let mut cases: Vec<_> = sums
        .into_iter()
        .map(|sum| (sum.div_ceil(per_mw), 1, sum))
        .collect();
    cases.push((1_000, 0, 1_000 * per_mw));
    for (mw, second, sum) in cases {
        let some = Direction([0, mw as Int, second]);
        let bound = sum.div_ceil(rate.divisor() as usize) as Int;
        // What is left by whole kW for each MW comes from readings past 2,000 mHz, up to 1,000 W from each.
        let (deviation, left) = (sum / (1_000 * mw), sum % (1_000 * mw));
        let far = left.div_ceil(1_000);
        for (side, low, high) in [(-1, &some, &none), (1, &none, &some)] {
            read_evenly(&mut script, side, far, 2_000 * far + left);
            read_evenly(&mut script, side, count - far, deviation - 1_000 * far);
            let (_, low, high) = script.energy(low, high);
            assert_eq!(low + high, bound);
        }
    }
    script
}

/// No. 3: "the readings from the present one to the last, and no others." The readings before a place are 50,000 and call for
/// nothing, so that the bounds are those of the sum from the place on. Each of the others calls for more W than the divisor, so
/// that one reading left out or taken twice changes a bound.
fn sums_from_places(random: &mut Random, rate: Rate) -> Script {
    let mut script = Script::new(EDGES);
    script.curves(&[kilowatts(), kilowatts(), kilowatts()]);
    let least = rate.divisor() / 1_000_000 + 1;
    let mut places = ends(rate.period()).to_vec();
    places.push(rate.period());
    for first in 0..places.len() {
        for swapped in 0..2 {
            script.read(50_000, places[first]);
            for (n, run) in places[first..].windows(2).enumerate() {
                let side = [-1, 1][(n + swapped) % 2];
                let deviation = random.between(least, 1_000);
                script.read(beside(side, deviation), run[1] - run[0]);
            }
            script.energy(&Direction([1_000, 0, 0]), &Direction([0, 0, 1_000]));
        }
    }
    script
}

/// Readings that differ within each ten, by 1 MW and a W for each mHz. With 2,000 W on the average the sum is the divisor; the
/// bound changes where a ten's mean is first rounded, up or down.
fn uneven_tens(rate: Rate) -> Script {
    let mut script = Script::new(EDGES);
    script.curves(&[watts(), watts(), watts()]);
    for sums in [[19_995, 20_005], [20_005, 20_005]] {
        for ten in 0..rate.period() / 10 {
            read_evenly(&mut script, -1, 10, sums[ten % 2]);
        }
        script.energy(&Direction([1, 0, 0]), &Direction::default());
    }
    script
}

pub fn energy(random: &mut Random) -> Script {
    let mut script = Script::new("energy");
    let mut curves = good_curves(random);
    if random.once_in(2) {
        give_containment(&mut curves, random.below(8));
    }
    script.curves(&curves);
    for _ in 0..4 {
        let (mut low, mut high) = (good_direction(random), good_direction(random));
        if random.once_in(6) {
            (low, high) = (any_direction(random), any_direction(random));
        }
        let broken = random.once_in(8);
        let service = random.below(3);
        if broken {
            script.curve(service, &broken_curve(random));
        }
        let rate = random.pick(&RATES);
        let readings = if random.once_in(8) {
            bad_readings(random, rate)
        } else {
            let mut readings = good_readings(random, Weather::Any, &curves, rate, STEPS);
            if random.once_in(2) {
                bring_to_multiples(random, [&low, &high], &curves, rate, &mut readings);
            }
            readings
        };
        script.read_all(&readings);
        for _ in 0..3 {
            any_response(random, &mut script);
        }
        script.energy_and_table(&low, &high);
        if broken {
            script.curve(service, &curves[service]);
        }
    }
    script
}

/// Causes 1, 5 and 6, each with each of the others.
pub fn energy_refusals(random: &mut Random) -> Script {
    let mut script = Script::new("energy, causes");
    for causes in 0..8 {
        for rate in RATES {
            let curves = good_curves(random);
            script.curves(&curves);
            let mut directions = [good_direction(random), good_direction(random)];
            if causes & 1 != 0 {
                directions[random.below(2)].0[random.below(3)] =
                    random.pick(&[1_001, MAX, 0x8000_0000]);
            }
            if causes & 2 != 0 {
                script.curve(random.below(3), &broken_curve(random));
            }
            if causes & 4 != 0 {
                script.read_all(&bad_readings(random, rate));
            } else {
                script.read(random.pick(&corners(&curves)), rate.period());
            }
            script.energy_and_table(&directions[0], &directions[1]);
        }
    }
    script
}

/// Readings at two a second, and the same at twenty, each ten times or all of them ten times over: the same bounds, and a
/// period closed with them is the same.
pub fn both_rates(random: &mut Random) -> Script {
    let mut script = Script::new("both rates");
    let curves = good_curves(random);
    script.curves(&curves);
    let terms = good_terms(random);
    let (size, first) = good_size(random, &terms);
    script.open(&terms, size, first);
    let once = good_readings(random, Weather::Any, &curves, RATES[0], FEW_STEPS);
    let times = RATES[1].period() / RATES[0].period();
    let each: Vec<u16> = once.iter().flat_map(|&r| vec![r; times]).collect();
    let over = once.repeat(times);
    let (low, high) = script.record.bounds(&once);
    let p = good_purchase(random, &script.record);
    let (delivered, taken) = (random.within(0, low + 1), random.within(0, high + 1));
    let outcomes = [&once, &each, &over].map(|readings| {
        script.read_all(readings);
        let energy = script.energy_and_table(&terms.low, &terms.high);
        script.open(&terms, size, first);
        script.read_all(readings);
        let number = script.close(p, delivered, taken, 1);
        (energy, number, script.record.clone())
    });
    assert!(outcomes.iter().all(|outcome| *outcome == outcomes[0]));
    script
}

// Table for the containment curve

const TABLE: &str = "table, edges";

/// Quantities with which a response of the containment curve is whole at many deviations, some of them the widths of its
/// segments; the least and the greatest of a contract.
const QUANTITIES: [Int; 8] = [1, 2, 37, 60, 185, 300, 999, 1_000];

/// Gives each service whose bit is set the containment curve.
fn give_containment(curves: &mut [Curve; 3], services: usize) {
    for service in 0..3 {
        if services >> service & 1 == 1 {
            curves[service] = containment();
        }
    }
}

/// A quantity and a deviation of a contract, or any that the line takes.
fn any_response(random: &mut Random, script: &mut Script) {
    let most = random.pick(&[1_000, MAX]);
    let last = random.pick(&[500, 3_000, u16::MAX.into()]);
    script.respond(random.between(0, most), random.between(0, last));
}

/// Responses at each deviation, and a period's energy there; responses of any quantity; curves beside the stock one; the stock
/// one at some of the services.
pub fn table_edges(random: &mut Random, runs: &mut Runs, tally: &mut Tally) {
    for first in (0..=3_000).step_by(100) {
        let deviations = first..=(first + 99).min(3_000);
        runs.add(table_responses(random, deviations.clone()), tally);
        for rate in RATES {
            for fourth in [None, Some(501), Some(800), Some(3_000)] {
                runs.add(each_watt(random, rate, fourth, deviations.clone()), tally);
            }
        }
    }
    runs.add(wide_responses(random), tally);
    for rate in RATES {
        for curve in near_misses() {
            runs.add(beside_stock(rate, &curve), tally);
        }
        runs.add(stock_at_some(random, rate), tally);
    }
}

fn table_responses(random: &mut Random, deviations: RangeInclusive<Int>) -> Script {
    let mut script = Script::new(TABLE);
    for deviation in deviations {
        for mw in QUANTITIES {
            script.respond(mw, deviation);
        }
        for _ in 0..4 {
            script.respond(random.between(0, 1_000), deviation);
        }
    }
    script
}

/// Quantities by which MW times the entry, or 1,000 times that, passes a power of two; such by which it leaves each remainder
/// that it can by 11,100, beside any multiple of that; the greatest; others.
fn wide_responses(random: &mut Random) -> Script {
    let mut script = Script::new(TABLE);
    for (deviation, entry) in (0..).zip(model::table()).filter(|(_, entry)| *entry > 0) {
        for (factor, bits) in [
            (1, 31),
            (1, 32),
            (1, 53),
            (1_000, 32),
            (1_000, 63),
            (1_000, 64),
        ] {
            let passed = (1 << bits) / (factor * entry);
            for mw in [passed, passed + 1] {
                script.respond(mw.min(MAX), deviation);
            }
        }
        let remainders = 11_100 / divisor(11_100, entry);
        let first = random.within(0, MAX - remainders);
        for mw in first..=first + remainders {
            script.respond(mw, deviation);
        }
    }
    for mw in [0, 1, 0x7fff_ffff, 0x8000_0000, MAX - 1, MAX] {
        for deviation in [
            0, 14, 15, 16, 199, 200, 201, 499, 500, 501, 3_001, 65_534, 65_535,
        ] {
            script.respond(mw, deviation);
        }
    }
    for _ in 0..5_000 {
        any_response(random, &mut script);
    }
    script
}

/// One service's response at each deviation, below 50,000 and above, with the stock curve or with a fourth point on its flat
/// part. One reading has the deviation. The others are past 500 mHz, where each MW responds with 1,000,000 W, and 1 MW of a
/// second service, with a W for each mHz, brings the sum to a multiple of the divisor and to one W past it: a W more or less
/// changes one of the two bounds.
fn each_watt(
    random: &mut Random,
    rate: Rate,
    fourth: Option<Int>,
    deviations: RangeInclusive<Int>,
) -> Script {
    let mut script = Script::new(TABLE);
    let mut curve = containment();
    curve.0.extend(fourth.map(|deviation| (deviation, 1_000)));
    let others = rate.period() - 1;
    for deviation in deviations {
        let service = random.below(3);
        let mut curves = [(); 3].map(|()| watts());
        curves[service] = curve.clone();
        script.curves(&curves);
        let mw = [(); 2].map(|()| random.within(1, 999));
        let [low, high] = mw.map(|mw| {
            let mut direction = Direction::default();
            direction.0[service] = mw;
            direction.0[(service + 1) % 3] = 1;
            direction
        });
        for past in 0..=1 {
            for (mw, side) in mw.into_iter().zip([-1, 1]) {
                let one = model::response(mw, &curve, deviation) + deviation;
                let least = (1_000_000 * mw + 501) * others as Int;
                let more = (past - one - least).rem_euclid(rate.divisor());
                script.read(beside(side, deviation), 1);
                read_evenly(&mut script, side, others, 501 * others + more as usize);
                script.energy_and_table(&low, &high);
            }
        }
    }
    script
}

/// Good curves that differ from the stock one by a number of a point, by a point left out, or by points more, on its lines or
/// beside them.
fn near_misses() -> Vec<Curve> {
    let stock = containment().0;
    let mut curves = Vec::new();
    let mut add = |change: &dyn Fn(&mut Vec<(Int, Int)>)| {
        let mut points = stock.clone();
        change(&mut points);
        curves.push(Curve(points));
    };
    for i in 0..3 {
        for by in [-1, 1] {
            add(&|points| points[i].0 += by);
            add(&|points| points[i].1 += by);
        }
        add(&|points| {
            points.remove(i);
        });
    }
    for (i, point) in [
        (0, (0, 0)),
        (0, (14, 0)),
        (1, (52, 10)),
        (1, (52, 11)),
        (2, (350, 525)),
        (2, (350, 524)),
        (3, (501, 1_000)),
        (3, (3_000, 1_000)),
    ] {
        add(&|points| points.insert(i, point));
    }
    add(&|points| points.extend([(501, 1_000), (3_000, 1_000)]));
    curves.retain(Curve::good);
    curves
}

/// Each service by itself with a curve beside the stock one, and with the stock one after it: where the curve had more points,
/// they are past the count now.
fn beside_stock(rate: Rate, curve: &Curve) -> Script {
    let mut script = Script::new(TABLE);
    script.curves(&[regulation(), regulation(), regulation()]);
    let mut readings = corners(&[curve.clone(), containment(), regulation()]);
    readings.sort();
    readings.dedup();
    for service in 0..3 {
        let mut direction = Direction::default();
        direction.0[service] = 1_000;
        for curve in [curve.clone(), containment()] {
            script.curve(service, &curve);
            for &reading in &readings {
                script.read(reading, rate.period());
                script.energy_and_table(&direction, &direction);
            }
        }
    }
    script
}

/// The stock curve at each one, two and three of the services, with any curves at the others.
fn stock_at_some(random: &mut Random, rate: Rate) -> Script {
    let mut script = Script::new(TABLE);
    for services in 1..8 {
        for _ in 0..10 {
            let mut curves = good_curves(random);
            give_containment(&mut curves, services);
            script.curves(&curves);
            let readings = good_readings(random, Weather::Any, &curves, rate, FEW_STEPS);
            script.read_all(&readings);
            script.energy_and_table(&good_direction(random), &good_direction(random));
        }
    }
    script
}

// Blocks

/// Every period's part, and periods outside 1 to 8.
fn parts(script: &mut Script) {
    for period in (0..=9).chain([257, 65_537, MAX - 1, MAX]) {
        script.part(period);
    }
}

/// Each count of `counts` handed to each call that asks for a period's or a block's.
pub fn count_edges(runs: &mut Runs, tally: &mut Tally) {
    let terms = Terms {
        low: Direction([0, 0, 100]),
        high: Direction::default(),
        export_limit: 100_000,
        import_limit: 40_000,
    };
    for count in counts() {
        let mut script = Script::new("counts");
        script.curves(&[containment(), regulation(), regulation()]);
        script.open(&terms, 100_000, 100_000);
        script.read(49_500, count);
        script.block();
        parts(&mut script);
        script.clear();
        script.read(49_500, count);
        script.energy_and_table(&terms.low, &terms.high);
        script.read(49_500, count);
        script.close(0, 50_000, 0, 1);
        script.read(49_500, count);
        script.block();
        runs.add(script, tally);
    }
}

const BLOCK_EDGES: &str = "block, edges";

/// A block at each rate whose periods differ in their first and last readings; then bad readings at both sides of a period's
/// end, and one at the ends of each period and of its tenths, and where a period or a block would end at the other rate.
pub fn block_edges(runs: &mut Runs, tally: &mut Tally) {
    for rate in RATES {
        let period = rate.period();
        let mut script = Script::new(BLOCK_EDGES);
        for i in 0..8 {
            script.read(49_000 + i, 1);
            script.read(50_000, period - 2);
            script.read(51_000 + i, 1);
        }
        script.block();
        parts(&mut script);
        runs.add(script, tally);
        for end in (1..8).map(|i| i * period) {
            runs.add(block_with(rate, end - 1, 46_999, 2), tally);
        }
        let mut places: Vec<usize> = good_counts().flat_map(|n| [n - 1, n]).collect();
        places.extend((0..8).flat_map(|i| ends(period).map(|place| i * period + place)));
        places.retain(|&at| at < rate.block());
        for value in [46_999, 47_000, 53_000, 53_001] {
            for &at in &places {
                runs.add(block_with(rate, at, value, 1), tally);
            }
        }
    }
}

/// A block that has `count` readings of `value` from `at` on, counted from 0.
fn block_with(rate: Rate, at: usize, value: u16, count: usize) -> Script {
    let mut script = Script::new(BLOCK_EDGES);
    script.read(50_000, at);
    script.read(value, count);
    script.read(50_000, rate.block() - at - count);
    script.block();
    script.part((at / rate.period()) as Int + 1);
    script
}

pub fn block(random: &mut Random) -> Script {
    let mut script = Script::new("block");
    let curves = good_curves(random);
    let rate = random.pick(&RATES);
    let mut readings = Vec::new();
    for _ in 0..8 {
        let period = good_readings(random, Weather::Any, &curves, rate, FEW_STEPS);
        readings.extend(period);
    }
    for _ in 0..random.below(4) {
        let at = random.within(0, rate.block() as Int - 1) as usize;
        readings[at] = random.pick(&BAD_READINGS);
    }
    if random.once_in(8) {
        readings.resize(random.pick(&[rate.block() - 1, rate.block() + 1]), 50_000);
    }
    script.read_all(&readings);
    script.block();
    parts(&mut script);
    script
}

// Ledger

/// Terms of at least one MW that nothing refuses, with limits just met or not.
fn good_terms(random: &mut Random) -> Terms {
    let mut terms = Terms {
        low: good_direction(random),
        high: good_direction(random),
        ..Terms::default()
    };
    match random.below(4) {
        0 => terms.low = Direction::default(),
        1 => terms.high = Direction::default(),
        _ => {}
    }
    terms.export_limit = random.within(terms.export_need(), 2_000_000);
    terms.import_limit = random.within(terms.import_need(), 2_000_000);
    terms
}

/// A size and a first state that nothing refuses.
fn good_size(random: &mut Random, terms: &Terms) -> (Int, Int) {
    let least = terms.low.rev() + terms.high.rev();
    let size = match random.below(3) {
        0 => least + random.between(0, 10),
        1 => least + random.between(0, least),
        _ => random.within(least, 10_000_000),
    };
    let first = random.within(terms.low.rev(), size - terms.high.rev());
    (size, first)
}

/// The causes of opening, each with each of the others.
pub fn opening_causes(random: &mut Random) -> Script {
    let mut script = Script::new("opening, causes");
    for causes in 0..32 {
        let mut terms = good_terms(random);
        let (mut size, mut first) = good_size(random, &terms);
        let curves = good_curves(random);
        script.curves(&curves);
        if causes & 1 != 0 {
            if random.once_in(3) {
                (terms.low, terms.high) = Default::default();
            } else {
                let beyond = if random.once_in(2) {
                    &mut terms.low
                } else {
                    &mut terms.high
                };
                beyond.0[random.below(3)] = random.pick(&[1_001, MAX, 0x8000_0000]);
            }
        }
        if causes & 2 != 0 {
            match random.below(6) {
                0 => terms.export_limit = random.pick(&[-1, 2_000_001, I64[0], I64[1]]),
                1 => terms.import_limit = random.pick(&[-1, 2_000_001, I64[0], I64[1]]),
                2 | 3 => terms.export_limit = terms.export_need() - 1,
                _ => terms.import_limit = terms.import_need() - 1,
            }
        }
        if causes & 4 != 0 {
            script.curve(random.below(3), &broken_curve(random));
        }
        if causes & 8 != 0 {
            size = random.pick(&[
                0,
                (terms.low.rev() + terms.high.rev() - 1).clamp(0, MAX),
                10_000_001,
                MAX,
            ]);
        }
        if causes & 16 != 0 {
            first = random.pick(&[
                0,
                (terms.low.rev() - 1).clamp(0, MAX),
                (size - terms.high.rev() + 1).clamp(0, MAX),
                MAX,
            ]);
        }
        script.open(&terms, size, first);
        script.check(0);
        script.propose();
    }
    script
}

/// Opening at and beside each limit.
pub fn opening(random: &mut Random) -> Script {
    let mut script = Script::new("opening");
    script.curves(&[containment(), regulation(), regulation()]);
    for _ in 0..20 {
        let mut terms = good_terms(random);
        if random.once_in(3) {
            terms = any_terms(random);
        }
        let least = terms.low.rev() + terms.high.rev();
        let size = random.near(&[least, least + 1, 10_000_000]).clamp(0, MAX);
        let ends = [terms.low.rev(), size - terms.high.rev()];
        let first = random.near(&ends).clamp(0, MAX);
        script.open(&terms, size, first);
        script.propose();
        script.check(random.between(-1, 1));
    }
    script
}

/// A purchase at, beside or far from what is accepted.
fn any_purchase(random: &mut Random, record: &Record) -> Int {
    if record.closed > 8 {
        return 0;
    }
    let (floor, ceiling) = record.floor_and_ceiling();
    let (down, up) = (floor - record.state, ceiling - record.state);
    match random.below(12) {
        0..=3 => random.near(&[down, up]),
        4 => random.near(&[-record.state, record.size - record.state]),
        5 => random.pick(&[0, 1, -1]),
        6 => random.near(&[-10_000_000, 10_000_000]),
        7 => random.pick(&I64),
        8 => random.pick(&[I64[1] - record.state, I64[1] - record.state + 1, I64[0] + 1]),
        9 => random.pick(&[-(1 << 32), 1 << 32]),
        _ => random.between(down.min(up) - 5, down.max(up) + 5),
    }
}

/// A purchase that is accepted.
fn good_purchase(random: &mut Random, record: &Record) -> Int {
    let (floor, ceiling) = record.floor_and_ceiling();
    match random.below(3) {
        0 => record.propose().1,
        _ => random.within(floor, ceiling) - record.state,
    }
}

/// A purchase at floor − 1, floor, ceiling, ceiling + 1, and what is proposed.
fn purchases(script: &mut Script) {
    let (floor, ceiling) = script.record.floor_and_ceiling();
    for wanted in [floor - 1, floor, ceiling, ceiling + 1] {
        script.check(wanted - script.record.state);
    }
    script.propose();
    let (_, p) = script.record.propose();
    for beside in [p - 1, p, p + 1] {
        script.check(beside);
    }
}

/// Closings that are refused, with causes 8, 6 and 9 in every company, and 19 where not all traders are good.
fn refused_closing(random: &mut Random, script: &mut Script, readings: &[u16], good_traders: bool) {
    let record = script.record.clone();
    let causes = 1 + random.below(if good_traders { 7 } else { 15 });
    let trader = if causes & 8 != 0 {
        random.pick(&NO_TRADERS)
    } else {
        random.pick(&TRADERS)
    };
    let (floor, ceiling) = record.floor_and_ceiling();
    let p = if causes & 1 != 0 {
        random.pick(&[floor - 1, ceiling + 1, I64[1], I64[0] + record.state]) - record.state
    } else {
        good_purchase(random, &record)
    };
    let (low, high) = record.bounds(readings);
    if causes & 2 != 0 {
        let rate = random.pick(&RATES);
        script.read_all(&bad_readings(random, rate));
    } else {
        script.read_all(readings);
    }
    let (mut delivered, mut taken) = (random.within(0, low), random.within(0, high));
    if causes & 4 != 0 {
        match random.below(5) {
            0 => delivered = random.pick(&[-1, I64[0]]),
            1 => delivered = random.pick(&[low + 1, I64[1]]),
            2 => taken = random.pick(&[-1, I64[0]]),
            3 => taken = random.pick(&[high + 1, I64[1]]),
            _ => (delivered, taken) = (low + 1, high + 1),
        }
    }
    script.close(p.clamp(I64[0], I64[1]), delivered, taken, trader);
}

/// A closing with delivered and taken in their bounds; where the new state would be outside 0..size it is refused, and one
/// with nothing delivered or taken follows.
fn closing(random: &mut Random, script: &mut Script, readings: &[u16]) {
    let (low, high) = script.record.bounds(readings);
    let p = good_purchase(random, &script.record);
    script.read_all(readings);
    let (mut delivered, mut taken) = (random.within(0, low), random.within(0, high));
    // Often as far to one side as it goes, or just to either end of 0..size or past it.
    let with_purchase = script.record.state + p;
    match random.below(6) {
        0 => (delivered, taken) = (low, 0),
        1 => (delivered, taken) = (0, high),
        2 => {
            taken = 0;
            delivered = (with_purchase + random.between(0, 1)).min(low);
        }
        3 => {
            delivered = 0;
            taken = (script.record.size - with_purchase + random.between(0, 1)).min(high);
        }
        _ => {}
    }
    let trader = random.pick(&TRADERS);
    if script.close(p, delivered, taken, trader) != 0 {
        script.read_all(readings);
        script.close(p, 0, 0, trader);
    }
}

/// A whole list, with traders 0 to 5 and others.
pub fn list(random: &mut Random) -> Script {
    list_of(random, "ledger list", false)
}

/// Opening, eight closings at either rate with other calls in between, the ninth.
fn list_of(random: &mut Random, topic: &'static str, good_traders: bool) -> Script {
    let mut script = Script::new(topic);
    let curves = good_curves(random);
    script.curves(&curves);
    let terms = good_terms(random);
    let (size, first) = good_size(random, &terms);
    script.open(&terms, size, first);
    if random.once_in(3) {
        // The record keeps the curves of its opening.
        script.curve(random.below(3), &good_curve(random));
    }
    let list_weather = [Weather::Calm, Weather::Low, Weather::High, Weather::Any];
    let weather = random.pick(&list_weather);
    for _ in 0..8 {
        let weather = if random.once_in(4) {
            random.pick(&list_weather)
        } else {
            weather
        };
        let rate = random.pick(&RATES);
        let readings = good_readings(random, weather, &curves, rate, STEPS);
        if random.once_in(2) {
            purchases(&mut script);
        }
        for _ in 0..random.below(3) {
            let p = any_purchase(random, &script.record);
            script.check(p.clamp(I64[0], I64[1]));
        }
        for _ in 0..random.below(3) {
            refused_closing(random, &mut script, &readings, good_traders);
        }
        closing(random, &mut script, &readings);
        // The unit passes, which is part of the record rule.
        assert!(script.record.good());
    }
    after_the_eighth(random, &mut script, good_traders);
    script
}

/// "With n = 8 every call gives 10", whoever the trader.
fn after_the_eighth(random: &mut Random, script: &mut Script, good_traders: bool) {
    script.propose();
    let p = any_purchase(random, &script.record);
    script.check(p.clamp(I64[0], I64[1]));
    for rate in RATES {
        script.read(50_000, rate.period());
        script.close(0, 0, 0, random.pick(&TRADERS));
    }
    let trader = if good_traders {
        random.pick(&TRADERS)
    } else {
        random.pick(&NO_TRADERS)
    };
    script.close(I64[1], -1, I64[1], trader);
}

/// A list, and the same with other traders, or with trader 1 for every closing. No. 7: "Two lists of calls from one opening that
/// differ only in trader numbers, all 1 to 4, get the same answers, traders' totals apart, so a plan passes just as with one
/// book."
pub fn two_lists(random: &mut Random) -> [Script; 2] {
    let one = list_of(random, "two lists", true);
    let mut other = Script::new("two lists");
    let one_book = random.once_in(3);
    let calls = one.text.strip_prefix(&other.text).unwrap();
    for line in calls.lines() {
        match line.rsplit_once(' ') {
            Some((closing, _)) if closing.starts_with("close ") => {
                let trader = if one_book { 1 } else { random.pick(&TRADERS) };
                day::call(&mut other, &format!("{closing} {trader}"));
            }
            _ => day::call(&mut other, line),
        }
    }
    let (ones, others) = (one.answers(), other.answers());
    assert_eq!(ones.len(), others.len());
    for ((_, ones), (_, others)) in ones.into_iter().zip(others) {
        let summed = |lines: Vec<&str>| lines.into_iter().map(in_one_book).collect::<Vec<_>>();
        if one_book {
            assert_eq!(summed(ones), others);
        } else {
            assert_eq!(summed(ones), summed(others));
        }
    }
    [one, other]
}

/// A line of an answer, a record with the traders' totals summed under trader 1.
fn in_one_book(line: &str) -> String {
    let Some(numbers) = line.strip_prefix("record ") else {
        return line.to_string();
    };
    let mut numbers: Vec<Int> = numbers.split(' ').map(|n| n.parse().unwrap()).collect();
    for traders in [4..8, 8..12] {
        let sum = numbers[traders.clone()].iter().sum();
        numbers[traders.clone()].fill(0);
        numbers[traders.start] = sum;
    }
    numbers
        .iter()
        .fold("record".to_string(), |line, n| format!("{line} {n}"))
}

// Made-up records

/// A record that keeps the rule with any bounds, not only those of readings.
fn good_record(random: &mut Random, opened: &Record) -> Record {
    let mut r = opened.clone();
    r.closed = random.within(0, 8);
    if r.closed == 0 {
        return r;
    }
    let closed = r.closed as usize;
    let low_bounds = good_bounds(random, &r.terms.low);
    let high_bounds = good_bounds(random, &r.terms.high);
    r.low = Entries::of(&r.terms.low, &low_bounds[..closed]);
    r.high = Entries::of(&r.terms.high, &high_bounds[..closed]);
    let (low, high) = r.next_starts();
    r.state = random.within(low.max(0), r.size - high.max(0));
    r.delivered = random.within(0, r.low.bound.iter().sum());
    r.taken = random.within(0, r.high.bound.iter().sum());
    fit_purchases(random, &mut r);
    r
}

/// Bought and sold that fit the record's state: the least, the most, or between; where there are none, nothing is delivered
/// and taken.
fn fit_purchases(random: &mut Random, r: &mut Record) {
    let most = 10_000_000 * r.closed;
    let mut net = r.state - r.first + r.delivered - r.taken;
    if net.abs() > most {
        (r.delivered, r.taken) = (0, 0);
        net = r.state - r.first;
    }
    let common = random.within(0, most - net.abs());
    r.bought = by_trader(random, net.max(0) + common);
    r.sold = by_trader(random, (-net).max(0) + common);
}

/// Four traders' totals with this sum: one has all of it, or they share it.
fn by_trader(random: &mut Random, sum: Int) -> [Int; 4] {
    let mut each = [0; 4];
    let mut left = sum;
    for _ in 0..random.below(4) {
        let share = random.within(0, left);
        each[random.below(4)] += share;
        left -= share;
    }
    each[random.below(4)] += left;
    each
}

/// The total of any one trader.
fn any_of<'a>(random: &mut Random, each: &'a mut [Int; 4]) -> &'a mut Int {
    &mut each[random.below(4)]
}

/// Four traders' totals that pass 32 bits together, one to three times: what 32 bits keep of their sum is `sum`.
fn past_32_bits(random: &mut Random, sum: Int, times: Int) -> [Int; 4] {
    let mut each = [0; 4];
    let mut left = sum + (times << 32);
    let first = random.below(4);
    for i in 0..4 {
        // As much as the others can still have is left to them.
        let others = MAX * (3 - i as Int);
        let share = random.within((left - others).max(0), left.min(MAX));
        each[(first + i) % 4] = share;
        left -= share;
    }
    each
}

/// A record with one clause of the rule broken, or just kept, the others as they can be.
fn one_clause(random: &mut Random, good: &Record) -> Record {
    let mut r = good.clone();
    let closed = r.closed.min(8) as usize;
    let most = 10_000_000 * r.closed;
    let beyond = random.between(0, 1);
    let (low_next, high_next) = r.next_starts();
    let [bought, sold] = [r.bought, r.sold].map(|each| each.iter().sum::<Int>());
    let times = random.between(1, 3);
    match random.below(18) {
        0 => {
            // The sums over the traders at their limit, or past it.
            let more = most + beyond - bought.max(sold);
            *any_of(random, &mut r.bought) += more;
            *any_of(random, &mut r.sold) += more;
        }
        1 => {
            let more = r.low.bound.iter().sum::<Int>() + beyond - r.delivered;
            r.delivered += more;
            *any_of(random, &mut r.bought) += more;
        }
        2 => {
            let more = r.high.bound.iter().sum::<Int>() + beyond - r.taken;
            r.taken += more;
            *any_of(random, &mut r.sold) += more;
        }
        3 => {
            // The state just passes low, or not.
            let less = r.state - (low_next - beyond).max(0);
            r.state -= less;
            *any_of(random, &mut r.sold) += less;
        }
        4 => {
            // The state just passes high, or not; at most a kWh past full.
            let more = (r.size - high_next).min(r.size) + beyond - r.state;
            r.state += more;
            *any_of(random, &mut r.bought) += more;
        }
        5 if closed > 0 => {
            let mut bounds = r.low.bound;
            bounds[random.below(closed)] = r.terms.low.greatest_bound() + beyond;
            r.low = Entries::of(&r.terms.low, &bounds[..closed]);
        }
        6 if closed > 0 => {
            let mut bounds = r.high.bound;
            bounds[random.below(closed)] = r.terms.high.greatest_bound() + beyond;
            r.high = Entries::of(&r.terms.high, &bounds[..closed]);
        }
        7 => {
            // The size just at its limit, or not.
            r.size = 10_000_000 + beyond;
        }
        8 => {
            let less = r.first - (r.terms.low.rev() - beyond);
            r.first -= less;
            *any_of(random, &mut r.bought) += less;
        }
        9 => {
            let more = r.size - r.terms.high.rev() + beyond - r.first;
            r.first += more;
            *any_of(random, &mut r.sold) += more;
        }
        10 => r.closed = random.pick(&[closed as Int + 1, 9, 10, 255, 256, 264, MAX]),
        11 => r.closed = (r.closed - 1).max(0),
        12 => {
            // Entries of a period that is not closed, with the requirement's own numbers.
            let bounds = [0; 8];
            r.low = Entries::of(&r.terms.low, &bounds);
        }
        13 => {
            // Each trader within the limit of the sum, at which most of them are; the state fits.
            (r.bought, r.sold) = ([most; 4], [most; 4]);
            *any_of(random, &mut r.bought) -= (sold - bought).max(0);
            *any_of(random, &mut r.sold) -= (bought - sold).max(0);
        }
        14 => r.bought = past_32_bits(random, bought, times),
        15 => r.sold = past_32_bits(random, sold, times),
        16 => {
            // The state fits.
            r.bought = past_32_bits(random, bought, times);
            r.sold = past_32_bits(random, sold, times);
        }
        _ => {
            r.size = (r.terms.low.rev() + r.terms.high.rev() - beyond).max(0);
        }
    }
    r
}

/// True where `put` can make the record: every number fits.
fn can_be_put(record: &Record) -> bool {
    numbers(record).into_iter().all(|(k, n)| match k / 10 {
        2 | 5 => true,
        _ => (0..=MAX).contains(&n),
    })
}

/// Each number of a good record one more, one less and far off, then the number as it was; then whole records that break
/// one clause.
pub fn made_up(random: &mut Random) -> Script {
    let mut script = Script::new("made-up record");
    let curves = good_curves(random);
    script.curves(&curves);
    let terms = good_terms(random);
    let (size, first) = good_size(random, &terms);
    script.open(&terms, size, first);
    let opened = script.record.clone();
    let good = good_record(random, &opened);
    script.make_up(&good);
    if good.closed < 8 {
        purchases(&mut script);
    }
    let (_, p) = script.record.propose();
    for k in places() {
        let now = numbers(&script.record)
            .into_iter()
            .find(|n| n.0 == k)
            .unwrap()
            .1;
        let far = match k / 10 {
            2 | 5 => random.pick(&[I64[0], I64[1], -now]),
            3 | 6 => random.pick(&[I64[1], MAX + 1, now + (1 << 32)]),
            _ => random.pick(&[0, MAX, MAX - 1]),
        };
        let signed = matches!(k / 10, 2 | 5);
        for value in [now - 1, now + 1, far] {
            if value >= 0 || signed {
                script.put(k, value);
                script.check(p);
            }
        }
        script.put(k, now);
    }
    script.check(p);
    for _ in 0..20 {
        let wanted = one_clause(random, &good);
        if can_be_put(&wanted) {
            script.make_up(&wanted);
            script.propose();
            let p = any_purchase(random, &script.record);
            script.check(p.clamp(I64[0], I64[1]));
            script.make_up(&good);
        }
    }
    if good.closed < 8 {
        let rate = random.pick(&RATES);
        let readings = good_readings(random, Weather::Any, &curves, rate, STEPS);
        refused_closing(random, &mut script, &readings, false);
        closing(random, &mut script, &readings);
        script.propose();
    }
    script
}

/// Closings on a record that breaks the rule: 10 before all else, 19 among it.
pub fn broken_closings(random: &mut Random) -> Script {
    let mut script = Script::new("made-up record");
    let curves = good_curves(random);
    script.curves(&curves);
    let terms = good_terms(random);
    let (size, first) = good_size(random, &terms);
    script.open(&terms, size, first);
    let opened = script.record.clone();
    for _ in 0..10 {
        let good = good_record(random, &opened);
        let wanted = one_clause(random, &good);
        if !can_be_put(&wanted) {
            continue;
        }
        script.make_up(&wanted);
        let rate = random.pick(&RATES);
        if random.once_in(3) {
            script.read_all(&bad_readings(random, rate));
        } else {
            script.read(random.pick(&corners(&curves)), rate.period());
        }
        let p = any_purchase(random, &script.record);
        script.close(
            p.clamp(I64[0], I64[1]),
            random.between(-1, 1),
            random.between(-1, 1),
            random.between(0, 5),
        );
        script.propose();
    }
    script
}

/// The blank record that a refused opening returns, and what can be put into it.
pub fn blank_record(random: &mut Random) -> Script {
    let mut script = Script::new("blank record");
    script.propose();
    script.check(0);
    for rate in RATES {
        script.read(50_000, rate.period());
        script.close(0, 0, 0, random.between(0, 5));
    }
    for k in places() {
        script.put(k, random.pick(&[0, 1, 8, 100_000]));
        script.check(0);
    }
    script.propose();
    script
}

// The format

/// Texts that are not as the format says, and the longest text.
pub fn malformed(runs: &mut Runs, tally: &mut Tally) {
    let texts = [
        "opened 1\n",
        "Check 1\n",
        "check\n",
        "check \n",
        "check 1 2\n",
        "check  1\n",
        " check 1\n",
        "check 1 \n",
        "check 1x\n",
        "check -\n",
        "check +1\n",
        "check 1-\n",
        "check --1\n",
        "check 9223372036854775808\n",
        "check -9223372036854775809\n",
        "check 99999999999999999999\n",
        "check 18446744073709551617\n",
        "propose 1\n",
        "clear 0\n",
        "block 0\n",
        "close 0 0 1\n",
        "close 0 0 0 1 1\n",
        "close 0 0 0 -1\n",
        "close 0 0 0 4294967296\n",
        "close 0 0 0 4294967297\n",
        "curve\n",
        "curve 0\n",
        "curve 4\n",
        "curve 1 0\n",
        "curve 1 0 0 1 1 2 2 3 3 4 4 5 5\n",
        "curve 1 65536 0\n",
        "curve 1 -1 0\n",
        "open 1 0 0 0 0 0 0 0 0\n",
        "open 1 0 0 0 0 0 0 0 0 0 0\n",
        "open 4294967296 0 0 0 0 0 0 0 0 0\n",
        "open -1 0 0 0 0 0 0 0 0 0\n",
        "open 0 0 0 0 0 0 0 0 4294967296 0\n",
        "open 0 0 0 0 0 0 0 0 0 -1\n",
        "read 65536 1\n",
        "read -1 1\n",
        "read 50000\n",
        "read 50000 -1\n",
        "read 50000 288002\n",
        "read 50000 4294967296\n",
        "read 50000 4294970896\n",
        "put 0 4294967296\n",
        "put 0 -1\n",
        "put 4 0\n",
        "put 5 0\n",
        "put 8 0\n",
        "put 9 0\n",
        "put 10 0\n",
        "put 19 0\n",
        "put 40 0\n",
        "put 69 0\n",
        "put 70 0\n",
        "put 71 -1\n",
        "put 74 4294967296\n",
        "put 75 0\n",
        "put 80 0\n",
        "put 81 4294967296\n",
        "put 84 -1\n",
        "put 85 0\n",
        "put -1 0\n",
        "put 31 -1\n",
        "put 61 9223372036854775808\n",
        "part\n",
        "part -1\n",
        "part 4294967296\n",
        "energy 1 2 3 4 5\n",
        "energy 1 2 3 4 5 4294967296\n",
        "table\n",
        "table 1 2 3 4 5\n",
        "table 1 2 3 4 5 6 7\n",
        "table 4294967296 2 3 4 5 6\n",
        "table 1 2 3 4 5 4294967296\n",
        "table 1 2 3 4 5 -6\n",
        "tables 1 2 3 4 5 6\n",
        "respond\n",
        "respond 1\n",
        "respond 1 2 3\n",
        "respond 4294967296 200\n",
        "respond -1 200\n",
        "respond 1 65536\n",
        "respond 1 -1\n",
        "respond 1 4294967496\n",
        "response 1 200\n",
        "monitor 1 2 3 4\n",
    ];
    for text in texts {
        let mut script = Script::new("format");
        script.check(-1);
        script.malformed(&format!("{text}check 0\n"));
        runs.alone(script, tally);
    }
    // Runs up to the most readings, some of more than 16 bits, and past it.
    for before in [
        0, 1, 28_801, 28_802, 65_535, 65_536, 65_537, 131_072, 288_000,
    ] {
        let mut script = Script::new("format");
        script.read(50_000, before);
        script.read(46_999, MOST_READINGS - 1 - before);
        script.block();
        script.read(46_999, 1);
        script.block();
        script.read(46_999, 0);
        script.malformed("read 50000 1\ncheck 0\n");
        runs.alone(script, tally);
    }
    for (before, more) in [
        (1, MOST_READINGS),
        (MOST_READINGS, MOST_READINGS),
        (144_001, 144_001),
        (65_536, 222_466),
        (259_201, 28_801),
    ] {
        let mut script = Script::new("format");
        script.read(50_000, before);
        script.malformed(&format!("read 50000 {more}\ncheck 0\n"));
        runs.alone(script, tally);
    }
    for length in [GREATEST_INPUT - 1, GREATEST_INPUT, GREATEST_INPUT + 1] {
        let mut script = Script::new("format");
        script.fill(length);
        runs.alone(script, tally);
    }
}
