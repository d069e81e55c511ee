//! Paper 01 and No. 1, 4 and 5 of paper 02, written out from the papers alone, plain and slow. Every number is an i128, which
//! none of the sums and products here leaves, and every division is an exact fraction, rounded where the papers round.
//!
//! A refusal is its number in paper 01's table "When a call declines"; 0 is no refusal.

pub type Int = i128;

/// A fraction. The divisor is above 0.
#[derive(Clone, Copy, PartialEq, Eq, Debug)]
pub struct Fraction {
    over: Int,
    under: Int,
}

impl Fraction {
    pub fn new(over: Int, under: Int) -> Fraction {
        assert!(under > 0);
        Fraction { over, under }
    }

    pub fn whole(n: Int) -> Fraction {
        Fraction::new(n, 1)
    }

    pub fn plus(self, other: Fraction) -> Fraction {
        Fraction::new(
            self.over * other.under + other.over * self.under,
            self.under * other.under,
        )
    }

    pub fn minus(self, other: Fraction) -> Fraction {
        self.plus(other.times(-1))
    }

    pub fn times(self, n: Int) -> Fraction {
        Fraction::new(self.over * n, self.under)
    }

    /// That part of another.
    pub fn of(self, other: Fraction) -> Fraction {
        Fraction::new(self.over * other.over, self.under * other.under)
    }

    /// The same number in lowest terms.
    pub fn reduced(self) -> Fraction {
        let (mut a, mut b) = (self.over.abs(), self.under);
        while b != 0 {
            (a, b) = (b, a % b);
        }
        Fraction::new(self.over / a, self.under / a)
    }

    /// What is left above the whole number below it.
    pub fn past_whole(self) -> Fraction {
        Fraction::new(self.over.rem_euclid(self.under), self.under)
    }

    pub fn sign(self) -> Int {
        self.over.signum()
    }

    /// Divided by a fraction above 0.
    pub fn by(self, other: Fraction) -> Fraction {
        Fraction::new(self.over * other.under, self.under * other.over)
    }

    pub fn rounded_down(self) -> Int {
        self.over.div_euclid(self.under)
    }

    pub fn rounded_up(self) -> Int {
        -(-self.over).div_euclid(self.under)
    }

    /// The whole number that the fraction is.
    pub fn exact(self) -> Int {
        assert_eq!(self.over % self.under, 0);
        self.over / self.under
    }
}

/// The height at `x` of the line through two points.
fn line(x: Int, (x0, y0): (Int, Int), (x1, y1): (Int, Int)) -> Fraction {
    Fraction::new((y1 - y0) * (x - x0), x1 - x0).plus(Fraction::whole(y0))
}

// Contract terms

pub struct Service {
    rev: Int,
    er: Int,
    reserved: Int,
}

/// DC, DM, DR. "Per MW, these constants belong to the service itself."
pub const SERVICES: [Service; 3] = [
    Service {
        rev: 250,
        er: 50,
        reserved: 100,
    },
    Service {
        rev: 500,
        er: 100,
        reserved: 200,
    },
    Service {
        rev: 1_000,
        er: 200,
        reserved: 400,
    },
];

/// The MW of DC, DM and DR in one direction.
#[derive(Clone, Copy, Default, PartialEq, Eq, Debug)]
pub struct Direction(pub [Int; 3]);

impl Direction {
    /// "A direction's quantity Q is their sum."
    pub fn quantity(&self) -> Int {
        self.0.iter().sum()
    }

    fn sum(&self, per_mw: fn(&Service) -> Int) -> Int {
        (0..3).map(|s| self.0[s] * per_mw(&SERVICES[s])).sum()
    }

    pub fn rev(&self) -> Int {
        self.sum(|s| s.rev)
    }

    pub fn er(&self) -> Int {
        self.sum(|s| s.er)
    }

    pub fn reserved(&self) -> Int {
        self.sum(|s| s.reserved)
    }

    /// The greatest bound that refusal 7 and the record rule allow.
    pub fn greatest_bound(&self) -> Int {
        500 * self.quantity()
    }
}

#[derive(Clone, Copy, Default, PartialEq, Eq, Debug)]
pub struct Terms {
    pub low: Direction,
    pub high: Direction,
    pub export_limit: Int,
    pub import_limit: Int,
}

impl Terms {
    /// "Low Q in kW plus the high reserved power is at most the export limit."
    pub fn export_need(&self) -> Int {
        1_000 * self.low.quantity() + self.high.reserved()
    }

    /// "High Q in kW plus the low reserved power is at most the import limit."
    pub fn import_need(&self) -> Int {
        1_000 * self.high.quantity() + self.low.reserved()
    }

    fn limits_break(&self) -> bool {
        let outside = |limit| !(0..=2_000_000).contains(&limit);
        outside(self.export_limit)
            || outside(self.import_limit)
            || self.export_need() > self.export_limit
            || self.import_need() > self.import_limit
    }
}

fn too_much(low: &Direction, high: &Direction) -> bool {
    low.quantity() > 1_000 || high.quantity() > 1_000
}

/// "Terms check 1, then 2."
pub fn terms_check(t: &Terms) -> i64 {
    if too_much(&t.low, &t.high) {
        1
    } else if t.limits_break() {
        2
    } else {
        0
    }
}

// Rates

/// How many readings a second a plant files.
#[derive(Clone, Copy, PartialEq, Eq, Debug)]
pub struct Rate(usize);

/// "Two a second"; No. 1: "Twenty readings a second."
pub const RATES: [Rate; 2] = [Rate(2), Rate(20)];

/// "A block has eight half-hour settlement periods."
const PERIODS: usize = 8;

/// Half an hour.
const PERIOD_SECONDS: usize = 1_800;

impl Rate {
    /// "A period has 3,600 readings, two a second." No. 1: "A period of 36,000 readings is to be accepted."
    pub fn period(self) -> usize {
        self.0 * PERIOD_SECONDS
    }

    /// "A block has 28,800 readings." No. 1: "A block may then have 288,000 readings."
    pub fn block(self) -> usize {
        PERIODS * self.period()
    }

    /// "Divided by 7,200"; No. 1: "divided by 72,000"; No. 5: "The period sum is divided by 7,200,000, or 72,000,000 at 20 Hz."
    /// From W in each reading to kWh: 1,000 times the readings of an hour, two periods.
    pub fn divisor(self) -> Int {
        1_000 * 2 * self.period() as Int
    }

    /// The rate of a period with so many readings. No. 1: "Refusal 6 now covers every other count."
    fn of_period(count: usize) -> Option<Rate> {
        RATES.into_iter().find(|rate| rate.period() == count)
    }

    /// The rate of a block with so many readings: one for all of it.
    fn of_block(count: usize) -> Option<Rate> {
        RATES.into_iter().find(|rate| rate.block() == count)
    }
}

// Period energy

/// The points of a service's curve: deviation in mHz, share per mille.
#[derive(Clone, Default, PartialEq, Eq, Debug)]
pub struct Curve(pub Vec<(Int, Int)>);

impl Curve {
    /// "2 to 5 points: deviation 0 to 3,000 mHz, strictly rising, and share 0 to 1,000 per mille, never falling, first
    /// share 0."
    pub fn good(&self) -> bool {
        let p = &self.0;
        (2..=5).contains(&p.len())
            && p.iter()
                .all(|(d, h)| (0..=3_000).contains(d) && (0..=1_000).contains(h))
            && p.windows(2).all(|w| w[0].0 < w[1].0 && w[0].1 <= w[1].1)
            && p[0].1 == 0
    }

    /// "Below the first point the share is 0; past the last it stays flat; between points it is linear."
    pub fn share(&self, deviation: Int) -> Fraction {
        let p = &self.0;
        if deviation < p[0].0 {
            return Fraction::whole(0);
        }
        for w in p.windows(2) {
            if deviation <= w[1].0 {
                return line(deviation, w[0], w[1]);
            }
        }
        Fraction::whole(p[p.len() - 1].1)
    }
}

/// "Stock curves, not official bounds: regulation (15, 0) (200, 1000); containment (15, 0) (200, 50) (500, 1000)."
pub fn regulation() -> Curve {
    Curve(vec![(15, 0), (200, 1_000)])
}

pub fn containment() -> Curve {
    Curve(vec![(15, 0), (200, 50), (500, 1_000)])
}

/// "A service's response to a reading is its MW times the share, in kW, rounded up after the one division." No. 5: "A service's
/// response becomes whole watts, rounded up." A MW has 1,000 W for each per mille.
pub fn response(mw: Int, curve: &Curve, deviation: Int) -> Int {
    curve.share(deviation).times(1_000 * mw).rounded_up()
}

pub fn good_reading(reading: u16) -> bool {
    (47_000..=53_000).contains(&reading)
}

/// "Its low deviation is 50,000 less the reading, or 0 if that is negative; high is the mirror."
fn deviations(reading: u16) -> (Int, Int) {
    let below = 50_000 - Int::from(reading);
    (below.max(0), (-below).max(0))
}

/// "The sum over readings and services", low and high, of what `service` responds by its MW, its curve and a deviation. Equal
/// readings in a row are added as one product, their count times the response.
fn sums(
    service: fn(Int, &Curve, Int) -> Int,
    low: &Direction,
    high: &Direction,
    curves: &[Curve; 3],
    readings: &[u16],
) -> [Int; 2] {
    let mut sums = [0, 0];
    for equal in readings.chunk_by(|a, b| a == b) {
        let count = equal.len() as Int;
        let (below, above) = deviations(equal[0]);
        for s in 0..3 {
            sums[0] += count * service(low.0[s], &curves[s], below);
            sums[1] += count * service(high.0[s], &curves[s], above);
        }
    }
    sums
}

/// Low and high energy, in kWh, of readings that refusal 6 lets through: the sum "divided by" the rate's divisor.
pub fn energies(
    low: &Direction,
    high: &Direction,
    curves: &[Curve; 3],
    readings: &[u16],
) -> [Fraction; 2] {
    let rate = Rate::of_period(readings.len()).expect("a period's count");
    sums(response, low, high, curves, readings).map(|sum| Fraction::new(sum, rate.divisor()))
}

/// The same by 01's rule, for the comparison with it alone (No. 5: "Bounds can only fall or stay"): the response is "its MW times
/// the share, in kW, rounded up after the one division", and the sum "divided by 7,200", by No. 1 "72,000", twice the count.
pub fn energies_by_kilowatts(
    low: &Direction,
    high: &Direction,
    curves: &[Curve; 3],
    readings: &[u16],
) -> [Fraction; 2] {
    let kilowatts = |mw, curve: &Curve, deviation| curve.share(deviation).times(mw).rounded_up();
    let divisor = 2 * readings.len() as Int;
    sums(kilowatts, low, high, curves, readings).map(|sum| Fraction::new(sum, divisor))
}

/// Both bounds: the energy "rounded up once".
fn bounds(low: &Direction, high: &Direction, curves: &[Curve; 3], readings: &[u16]) -> (Int, Int) {
    let [low, high] = energies(low, high, curves, readings).map(Fraction::rounded_up);
    (low, high)
}

/// Cause 6 for the readings of a period.
fn period_breaks(readings: &[u16]) -> bool {
    Rate::of_period(readings.len()).is_none() || readings.iter().any(|&r| !good_reading(r))
}

/// "Period energy gives both directions' bounds and checks 1, 5, 6."
pub fn period_energy(
    low: &Direction,
    high: &Direction,
    curves: &[Curve; 3],
    readings: &[u16],
) -> (i64, Int, Int) {
    if too_much(low, high) {
        (1, 0, 0)
    } else if curves.iter().any(|c| !c.good()) {
        (5, 0, 0)
    } else if period_breaks(readings) {
        (6, 0, 0)
    } else {
        let (l, h) = bounds(low, high, curves, readings);
        (0, l, h)
    }
}

/// "A check names the first bad reading, by period and then by place, counted from 1 in its period"; "0 and 0 for a count".
pub fn block_check(readings: &[u16]) -> (i64, usize, usize) {
    let Some(rate) = Rate::of_block(readings.len()) else {
        return (6, 0, 0);
    };
    match readings.iter().position(|&r| !good_reading(r)) {
        Some(at) => (6, at / rate.period() + 1, at % rate.period() + 1),
        None => (0, 0, 0),
    }
}

/// "The readings of one period, 1 to 8, are handed back as a part of the block's readings. That looks only at count and
/// period." No. 1: "A period's part is cut accordingly."
pub fn part(readings: &[u16], period: Int) -> &[u16] {
    match Rate::of_block(readings.len()) {
        Some(rate) if (1..=PERIODS as Int).contains(&period) => {
            let first = (period as usize - 1) * rate.period();
            &readings[first..first + rate.period()]
        }
        _ => &[],
    }
}

// Table for the containment curve (02, No. 4)

/// What a share is multiplied by in the table.
const SCALE: Int = 11_100;

/// "The share times 11,100, which is whole at every entry"; "500 serving for larger deviations".
fn entry(deviation: Int) -> Int {
    let served = deviation.min(500);
    containment().share(served).times(SCALE).exact()
}

/// "A constant table of 501 numbers, one for each deviation from 0 to 500 mHz."
pub fn table() -> Vec<Int> {
    (0..=500).map(entry).collect()
}

/// The response of a service that has the containment curve, by the table, in W (No. 5).
pub fn response_by_table(mw: Int, deviation: Int) -> Int {
    Fraction::new(1_000 * mw * entry(deviation), SCALE).rounded_up()
}

// Requirement

#[derive(Clone, Copy, Default, PartialEq, Eq, Debug)]
pub struct Row {
    pub bound: Int,
    pub start: Int,
    pub end: Int,
    pub sched: Int,
    pub back: Int,
    pub left: Int,
    pub flag: bool,
}

/// The rows of the periods whose bounds are given, and of the period after them, whose bound is taken as 0. In the form of
/// document 000, table 5: left is all bounds so far less all schedules so far, start is the end before.
pub fn requirement(rev: Int, er: Int, bounds: &[Int]) -> Vec<Row> {
    let mut rows: Vec<Row> = Vec::new();
    for i in 0..=bounds.len() {
        let bound = bounds.get(i).copied().unwrap_or(0);
        let left =
            rows.iter().map(|r| r.bound).sum::<Int>() - rows.iter().map(|r| r.sched).sum::<Int>();
        let start = if i == 0 { rev } else { rows[i - 1].end };
        let sched = (bound + left).min(er);
        let back = if i < 4 { 0 } else { rows[i - 4].sched };
        let end = start + back - bound;
        let flag = start <= 0 || end <= 0;
        rows.push(Row {
            bound,
            start,
            end,
            sched,
            back,
            left,
            flag,
        });
    }
    rows
}

// Ledger

/// The entries of one direction, a place for each of the eight periods.
#[derive(Clone, Copy, Default, PartialEq, Eq, Debug)]
pub struct Entries {
    pub bound: [Int; 8],
    pub start: [Int; 8],
    pub sched: [Int; 8],
}

impl Entries {
    /// The entries that the record rule asks for with these bounds.
    pub fn of(direction: &Direction, bounds: &[Int]) -> Entries {
        let mut entries = Entries::default();
        let rows = requirement(direction.rev(), direction.er(), bounds);
        for i in 0..bounds.len() {
            entries.bound[i] = rows[i].bound;
            entries.start[i] = rows[i].start;
            entries.sched[i] = rows[i].sched;
        }
        entries
    }

    /// The row of the period after `closed` of them, whose bound is not known yet: only start and back are looked at.
    fn next(&self, direction: &Direction, closed: usize) -> Row {
        requirement(direction.rev(), direction.er(), &self.bound[..closed])[closed]
    }
}

#[derive(Clone, Default, PartialEq, Eq, Debug)]
pub struct Record {
    pub terms: Terms,
    pub curves: [Curve; 3],
    pub size: Int,
    pub first: Int,
    pub state: Int,
    pub closed: Int,
    /// No. 7: "four totals each, for traders 1 to 4", here from place 0 on.
    pub bought: [Int; 4],
    pub sold: [Int; 4],
    pub delivered: Int,
    pub taken: Int,
    pub low: Entries,
    pub high: Entries,
}

impl Record {
    /// "Opening checks refusals 1, 2, 5, 3, 4 in that order."
    fn opening_refusal(&self) -> i64 {
        let t = &self.terms;
        if too_much(&t.low, &t.high) || (t.low.quantity() == 0 && t.high.quantity() == 0) {
            1
        } else if t.limits_break() {
            2
        } else if self.curves.iter().any(|c| !c.good()) {
            5
        } else if self.size > 10_000_000 || self.size < t.low.rev() + t.high.rev() {
            3
        } else if self.first < t.low.rev() || self.first > self.size - t.high.rev() {
            4
        } else {
            0
        }
    }

    pub fn open(terms: Terms, curves: [Curve; 3], size: Int, first: Int) -> (i64, Record) {
        let record = Record {
            terms,
            curves,
            size,
            first,
            state: first,
            ..Record::default()
        };
        match record.opening_refusal() {
            0 => (0, record),
            n => (n, Record::default()),
        }
    }

    /// Low and high start and back of the period after the closed ones; at most eight are closed.
    fn next(&self) -> (Row, Row) {
        let closed = self.closed as usize;
        (
            self.low.next(&self.terms.low, closed),
            self.high.next(&self.terms.high, closed),
        )
    }

    /// Low and high start of the period after the closed ones, 0 and 0 where more than eight are closed.
    pub fn next_starts(&self) -> (Int, Int) {
        if self.closed > 8 {
            return (0, 0);
        }
        let (low, high) = self.next();
        (low.start, high.start)
    }

    /// "Record rule." No. 7: "The record rule's limits bind the sums over traders. The state equals the first state plus all
    /// purchases less all sales, less delivered, plus taken."
    pub fn good(&self) -> bool {
        if self.opening_refusal() != 0 || self.closed > 8 {
            return false;
        }
        let closed = self.closed as usize;
        let entries_good = |direction: &Direction, entries: &Entries| {
            entries
                .bound
                .iter()
                .all(|&e| e >= 0 && e <= direction.greatest_bound())
                && *entries == Entries::of(direction, &entries.bound[..closed])
        };
        let (low, high) = self.next();
        let bought: Int = self.bought.iter().sum();
        let sold: Int = self.sold.iter().sum();
        entries_good(&self.terms.low, &self.low)
            && entries_good(&self.terms.high, &self.high)
            && bought <= 10_000_000 * self.closed
            && sold <= 10_000_000 * self.closed
            && self.delivered <= self.low.bound.iter().sum()
            && self.taken <= self.high.bound.iter().sum()
            && (0..=self.size).contains(&self.state)
            && self.state >= low.start
            && self.size - self.state >= high.start
            && self.state == self.first + bought - sold - self.delivered + self.taken
    }

    /// Cause 10: "eight periods closed, or record rule broken".
    fn stopped(&self) -> bool {
        self.closed == 8 || !self.good()
    }

    /// Floor and ceiling of the state with a purchase; at most eight periods are closed.
    pub fn floor_and_ceiling(&self) -> (Int, Int) {
        let (low, high) = self.next();
        (
            (low.start + low.back).max(0),
            self.size - (high.start + high.back).max(0),
        )
    }

    fn accepts(&self, p: Int) -> bool {
        let (floor, ceiling) = self.floor_and_ceiling();
        floor <= self.state + p && self.state + p <= ceiling
    }

    /// "Checking refuses only 10, then 8."
    pub fn check(&self, p: Int) -> i64 {
        if self.stopped() {
            10
        } else if !self.accepts(p) {
            8
        } else {
            0
        }
    }

    /// "Proposing gives the accepted p nearest 0" and refuses only 10.
    pub fn propose(&self) -> (i64, Int) {
        if self.stopped() {
            return (10, 0);
        }
        let (floor, ceiling) = self.floor_and_ceiling();
        (0, self.state.max(floor).min(ceiling) - self.state)
    }

    /// The bounds of readings that refusal 6 lets through, with the record's terms and curves.
    pub fn bounds(&self, readings: &[u16]) -> (Int, Int) {
        bounds(&self.terms.low, &self.terms.high, &self.curves, readings)
    }

    /// "Closing takes p, the readings, energy delivered low and energy taken high; checks 10, 8, 6, 9." No. 7: "19: trader not
    /// 1 to 4, checked after 10"; "a closing carried out adds its purchase to that trader's totals and to nobody else's".
    pub fn close(
        &mut self,
        p: Int,
        readings: &[u16],
        delivered: Int,
        taken: Int,
        trader: Int,
    ) -> i64 {
        if self.stopped() {
            return 10;
        }
        if !(1..=4).contains(&trader) {
            return 19;
        }
        if !self.accepts(p) {
            return 8;
        }
        if period_breaks(readings) {
            return 6;
        }
        let (low, high) = self.bounds(readings);
        let state = self.state + p - delivered + taken;
        if !(0..=low).contains(&delivered)
            || !(0..=high).contains(&taken)
            || !(0..=self.size).contains(&state)
        {
            return 9;
        }
        let i = self.closed as usize;
        self.low.bound[i] = low;
        self.high.bound[i] = high;
        self.low = Entries::of(&self.terms.low, &self.low.bound[..=i]);
        self.high = Entries::of(&self.terms.high, &self.high.bound[..=i]);
        self.closed += 1;
        self.state = state;
        let trader = trader as usize - 1;
        self.bought[trader] += p.max(0);
        self.sold[trader] += (-p).max(0);
        self.delivered += delivered;
        self.taken += taken;
        0
    }
}

// Monitor

/// "Checks: 1, 7, 11, each over all eight periods." A row has period, bound, start, end, sched, back, left, flag and verdict:
/// "a period passes exactly when the reported energy is at least start".
pub fn monitor(
    direction: &Direction,
    bounds: &[Int; 8],
    reported: &[Int; 8],
) -> Result<Vec<[Int; 9]>, i64> {
    if direction.quantity() == 0 || direction.quantity() > 1_000 {
        return Err(1);
    }
    if bounds.iter().any(|&e| e > direction.greatest_bound()) {
        return Err(7);
    }
    if reported.iter().any(|&r| r > 10_000_000) {
        return Err(11);
    }
    let rows = requirement(direction.rev(), direction.er(), bounds);
    let row = |i: usize| {
        let r = rows[i];
        let verdict = reported[i] >= r.start;
        let (flag, verdict) = (r.flag.into(), verdict.into());
        let period = i as Int + 1;
        [
            period, r.bound, r.start, r.end, r.sched, r.back, r.left, flag, verdict,
        ]
    };
    Ok((0..8).map(row).collect())
}

// Capability

#[derive(Clone, Copy, Debug)]
pub struct Levels {
    pub mil: Int,
    pub sil: Int,
    pub sel: Int,
    pub mel: Int,
    pub ol: Int,
}

impl Levels {
    fn good(&self) -> bool {
        let l = self;
        [l.mil, l.sil, l.sel, l.mel, l.ol]
            .iter()
            .all(|x| (-2_000_000..=2_000_000).contains(x))
            && l.mil <= l.sil
            && l.sil <= 0
            && 0 <= l.sel
            && l.sel <= l.mel
            && l.mil <= l.ol
            && l.ol <= l.mel
    }

    pub fn headroom(&self) -> Int {
        if (self.sel == 0 && self.sil == 0) || self.ol >= self.sel {
            self.mel - self.ol
        } else if self.ol <= self.sil {
            self.sil - self.ol
        } else {
            0
        }
    }

    pub fn footroom(&self) -> Int {
        if (self.sel == 0 && self.sil == 0) || self.ol <= self.sil {
            self.ol - self.mil
        } else if self.ol >= self.sel {
            self.ol - self.sel
        } else {
            0
        }
    }
}

fn points_good(points: &[(Int, Int)]) -> bool {
    (2..=5).contains(&points.len())
        && points
            .iter()
            .all(|(r, c)| (0..=4_000_000).contains(r) && (0..=4_000_000).contains(c))
        && points[0].0 == 0
        && points
            .windows(2)
            .all(|w| w[0].0 < w[1].0 && w[0].1 <= w[1].1)
}

/// "Linear between points, and past the last on the line of the last two; rounded down."
fn capability(points: &[(Int, Int)], room: Int) -> Int {
    let last = points.len() - 1;
    let i = (1..last).find(|&i| room <= points[i].0).unwrap_or(last);
    line(room, points[i - 1], points[i]).rounded_down()
}

/// A unit as the quantity of a direction asks for it.
#[derive(Clone, Debug)]
pub struct Unit {
    pub available: Int,
    pub offer: Int,
    pub bid: Int,
    pub levels: Levels,
    pub points: Vec<(Int, Int)>,
    pub limit: Int,
}

impl Unit {
    /// 01's: "Contracted quantity is the smaller of capability and the submitted limit." Low services stand on headroom, high
    /// ones on footroom (003, Response Capability).
    pub fn quantity_in_01(&self, direction: Int) -> Result<Int, i64> {
        if !(1..=2).contains(&direction)
            || !self.levels.good()
            || !points_good(&self.points)
            || !(0..=4_000_000).contains(&self.limit)
        {
            return Err(12);
        }
        let room = if direction == 1 {
            self.levels.headroom()
        } else {
            self.levels.footroom()
        };
        Ok(capability(&self.points, room).min(self.limit))
    }

    /// 02, No. 6: "The calculation takes both energies, 0 to 10,000,000 kWh, the direction (1 low, 2 high) and whether the unit
    /// is available (1 yes, 0 no); any other direction or availability is 12." "18: energy above its limit, checked after 12."
    pub fn quantity(&self, direction: Int) -> Result<Int, i64> {
        let quantity = self.quantity_in_01(direction)?;
        if self.available != 0 && self.available != 1 {
            return Err(12);
        }
        if self.offer > 10_000_000 || self.bid > 10_000_000 {
            return Err(18);
        }
        // "The contracted quantity is zero in the low direction when the offer energy is zero, and in the high direction when
        // the bid energy is zero."
        let none = match direction {
            1 => self.offer == 0,
            _ => self.bid == 0,
        };
        // "An unavailable unit also has quantity zero." "Otherwise it is the smaller of capability and limit, as in 01."
        if none || self.available == 0 {
            Ok(0)
        } else {
            Ok(quantity)
        }
    }
}

// Report

/// "Decimal digits, right-justified in nine columns, no sign, no leading zero; zero is one 0."
fn number(columns: &[u8]) -> Option<Int> {
    let text = std::str::from_utf8(columns).ok()?.trim_start_matches(' ');
    let digits = !text.is_empty() && text.bytes().all(|b| b.is_ascii_digit());
    if !digits || (text.starts_with('0') && text.len() > 1) {
        return None;
    }
    text.parse().ok()
}

/// A line of the input: as many numbers as `counted`, and a line feed.
fn numbers(line: &[u8], counted: usize) -> Option<Vec<Int>> {
    if line.len() != 9 * counted + 1 || line[9 * counted] != b'\n' {
        return None;
    }
    line[..9 * counted].chunks(9).map(number).collect()
}

/// Direction's quantities, bounds and reported energies; nothing for a malformed text.
fn read_report(input: &[u8]) -> Option<(Direction, [Int; 8], [Int; 8])> {
    if input.len() != 189 {
        return None;
    }
    let first = numbers(&input[..37], 4)?;
    if first[0] != 1 && first[0] != 2 {
        return None;
    }
    let (mut bounds, mut reported) = ([0; 8], [0; 8]);
    for (i, line) in input[37..].chunks(19).enumerate() {
        let period = numbers(line, 2)?;
        bounds[i] = period[0];
        reported[i] = period[1];
    }
    Some((Direction([first[1], first[2], first[3]]), bounds, reported))
}

/// "period in two columns and, in nine each, bound, start, end, sched, back, left; then flag and verdict in two columns"
pub fn row_text(row: &[Int; 9]) -> String {
    let [period, bound, start, end, sched, back, left, flag, verdict] = row;
    format!("{period:2}{bound:9}{start:9}{end:9}{sched:9}{back:9}{left:9}{flag:2}{verdict:2}")
}

/// "Checks: 13, 1, 7, 11, 14." `room` is the bytes that the output has.
pub fn report(input: &[u8], room: usize) -> Result<String, i64> {
    let (direction, bounds, reported) = read_report(input).ok_or(13)?;
    let rows = monitor(&direction, &bounds, &reported)?;
    if room < 488 {
        return Err(14);
    }
    Ok(rows.iter().map(|row| row_text(row) + "\n").collect())
}
