//! No. 10 of paper 02, stacking against separate books: two contracts of one direction and the one with both, and multiples of a
//! contract, each through soe_report; and the two contracts that README.md shows.

use crate::host;
use crate::host_cases::{good_bounds, ReportNumbers};
use crate::model::{self, Direction, Int};
use crate::random::Random;
use crate::readme;
use crate::tally::{printed, stop, Tally};

/// A contract in one direction: its MW, which give REV and ER, and its bounds.
#[derive(Clone, Copy, Debug)]
struct Contract {
    mw: Direction,
    bounds: [Int; 8],
}

/// What a report says of a contract: starts 1 to 9, of which the last is the end of period 8, and the schedules and lefts of the
/// eight periods.
#[derive(PartialEq, Debug)]
struct Table {
    starts: Vec<Int>,
    schedules: Vec<Int>,
    lefts: Vec<Int>,
}

impl Contract {
    /// "REV, ER and each bound added". The MW of each service are added, and with them REV and ER.
    fn combined(&self, other: &Contract) -> Contract {
        let mut both = *self;
        for service in 0..3 {
            both.mw.0[service] += other.mw.0[service];
        }
        for period in 0..8 {
            both.bounds[period] += other.bounds[period];
        }
        let volumes = |c: &Contract| (c.mw.rev(), c.mw.er());
        let (one, two) = (volumes(self), volumes(other));
        printed(
            "REV and ER added",
            (one.0 + two.0, one.1 + two.1),
            volumes(&both),
        );
        both
    }

    /// "REV, ER and all bounds" multiplied by `m`.
    fn times(&self, m: Int) -> Contract {
        let times = Contract {
            mw: Direction(self.mw.0.map(|mw| m * mw)),
            bounds: self.bounds.map(|e| m * e),
        };
        let (rev, er) = (m * self.mw.rev(), m * self.mw.er());
        printed(
            "REV and ER multiplied",
            (rev, er),
            (times.mw.rev(), times.mw.er()),
        );
        times
    }

    fn text(&self, direction: Int) -> Vec<u8> {
        let [dc, dm, dr] = self.mw.0;
        let numbers = ReportNumbers {
            first: [direction, dc, dm, dr],
            bounds: self.bounds,
            reported: [0; 8],
        };
        numbers.text()
    }

    /// What soe_report says of the contract, or its refusal. The number and the table are compared with the model's as well.
    fn reported(
        &self,
        topic: &'static str,
        direction: Int,
        tally: &mut Tally,
    ) -> Result<Table, i64> {
        let (number, output) = host::report(topic, &self.text(direction), 488, tally);
        match number {
            0 => Ok(Table::read(&output[..488])),
            _ => Err(-number),
        }
    }
}

impl Table {
    /// The columns of a printed table that No. 10 speaks of.
    fn read(text: &[u8]) -> Table {
        let text = std::str::from_utf8(text).expect("a table");
        let rows: Vec<Vec<Int>> = text
            .lines()
            .map(|line| line.split_whitespace().flat_map(str::parse).collect())
            .collect();
        let column = |n: usize| -> Vec<Int> { rows.iter().map(|row| row[n]).collect() };
        let mut starts = column(2);
        starts.extend(rows.last().map(|row| row[3]));
        Table {
            starts,
            schedules: column(4),
            lefts: column(6),
        }
    }

    /// Start i, from 1 to 9.
    fn start(&self, i: usize) -> Int {
        self.starts[i - 1]
    }

    /// What is left in period i, from 1 to 8.
    fn left(&self, i: usize) -> Int {
        self.lefts[i - 1]
    }

    fn times(&self, m: Int) -> Table {
        let times = |column: &[Int]| column.iter().map(|n| m * n).collect();
        Table {
            starts: times(&self.starts),
            schedules: times(&self.schedules),
            lefts: times(&self.lefts),
        }
    }
}

/// Start i of the contract with both beside the two separate ones: by how much it is above their sum. No. 10: it "is at least the
/// sum of the two separate starts"; "it equals that sum wherever neither contract has had anything left before". And exactly, it
/// is above it by what the two had left four periods before, less what the contract with both had.
fn above_the_sum(i: usize, one: &Table, other: &Table, both: &Table) -> Result<Int, &'static str> {
    let above = both.start(i) - (one.start(i) + other.start(i));
    let saved = match i {
        1..=4 => 0,
        _ => one.left(i - 4) + other.left(i - 4) - both.left(i - 4),
    };
    if above < 0 {
        return Err("every start at least the sum of the two separate starts");
    }
    if above != 0 && none_left_before(i, one, other) {
        return Err("the sum where neither contract has had anything left before");
    }
    if above != saved {
        return Err("above the sum by the left that combining saves four periods before");
    }
    Ok(above)
}

fn none_left_before(i: usize, one: &Table, other: &Table) -> bool {
    (1..i).all(|j| one.left(j) == 0 && other.left(j) == 0)
}

/// Two contracts, whose MW together are at most 1,000, and the one with both.
fn stack(topic: &'static str, direction: Int, pair: [Contract; 2], tally: &mut Tally) {
    let [a, b] = pair;
    let reports = [a, b, a.combined(&b)].map(|c| c.reported(topic, direction, tally));
    let [Ok(one), Ok(other), Ok(both)] = &reports else {
        let (input, found) = (format!("{pair:?}\n"), format!("{reports:?}"));
        stop(topic, input.as_bytes(), "three tables", &found)
    };
    for i in 1..=9 {
        let kind = match above_the_sum(i, one, other, both) {
            Ok(1..) => "above the sum",
            Ok(_) if none_left_before(i, one, other) => "the sum, nothing left before",
            Ok(_) => "the sum, something left before",
            Err(law) => {
                let input = format!("start {i} of {pair:?}\n");
                stop(topic, input.as_bytes(), law, &format!("{reports:?}"))
            }
        };
        tally.stack(i, kind);
    }
}

/// "Multiplying REV, ER and all bounds by one whole number, 0 or more, multiplies every start, schedule and left by it." 0 times a
/// contract has no MW, which the report refuses with 1; the model's requirement has its starts.
fn multiply(topic: &'static str, direction: Int, contract: Contract, tally: &mut Tally) {
    let once = contract.reported(topic, direction, tally);
    for m in [0, 1, 2, 7] {
        let times = contract.times(m);
        if times.mw.quantity() > 1_000 {
            continue;
        }
        let expected = match m {
            0 => Err(1),
            _ => once.as_ref().map(|table| table.times(m)).map_err(|&n| n),
        };
        let found = times.reported(topic, direction, tally);
        if found != expected {
            let input = format!("{m} times {contract:?}\n");
            let (expected, found) = (format!("{expected:?}"), format!("{found:?}"));
            stop(topic, input.as_bytes(), &expected, &found);
        }
    }
    let none = contract.times(0);
    let rows = model::requirement(none.mw.rev(), none.mw.er(), &none.bounds);
    let of_none = rows.iter().map(|r| (r.start, r.sched, r.left)).collect();
    printed("0 times a contract", vec![(0, 0, 0); 9], of_none);
}

/// 1 to 1,000 MW, over the services by chance.
fn any_mw(random: &mut Random, total: Int) -> Direction {
    let mut mw = [0; 3];
    let first = random.below(3);
    match random.below(3) {
        0 => mw[first] = total,
        _ => {
            mw[first] = random.within(0, total);
            mw[(first + 1) % 3] = random.within(0, total - mw[first]);
            mw[(first + 2) % 3] = total - mw.iter().sum::<Int>();
        }
    }
    Direction(mw)
}

/// Bounds which, added to the other contract's, are what the two recover together, or a kWh beside it.
fn beside(random: &mut Random, mw: &Direction, other: &Contract) -> [Int; 8] {
    let both = mw.er() + other.mw.er();
    other
        .bounds
        .map(|e| random.near(&[both - e]).clamp(0, mw.greatest_bound()))
}

/// Two contracts of 2 to 1,000 MW together.
fn any_pair(random: &mut Random) -> [Contract; 2] {
    let total = match random.below(4) {
        0 => 2,
        1 => 1_000,
        _ => random.between(2, 1_000),
    };
    let one = random.within(1, total - 1);
    let [one, other] = [one, total - one].map(|mw| any_mw(random, mw));
    let a = Contract {
        mw: one,
        bounds: good_bounds(random, &one),
    };
    let bounds = match random.below(3) {
        0 => beside(random, &other, &a),
        _ => good_bounds(random, &other),
    };
    [a, Contract { mw: other, bounds }]
}

pub fn any(random: &mut Random, count: usize, tally: &mut Tally) {
    for _ in 0..count {
        let direction = random.between(1, 2);
        stack("stacking", direction, any_pair(random), tally);
        let total = random.pick(&[1, 2, 142, 143, 500, 501, 1_000]);
        let mw = any_mw(random, total);
        let bounds = good_bounds(random, &mw);
        multiply("multiples", direction, Contract { mw, bounds }, tally);
    }
}

/// A contract of 1 MW with each two of a few bounds, none, at what a period recovers, beside it and the greatest, in two periods
/// after each other.
fn small(mw: Direction, period: usize) -> Vec<Contract> {
    let er = mw.er();
    let few = [0, 1, er - 1, er, er + 1, mw.greatest_bound()];
    let twos = few.iter().flat_map(|&e| few.map(|f| [e, f]));
    twos.map(|two| {
        let mut bounds = [0; 8];
        bounds[period..period + 2].copy_from_slice(&two);
        Contract { mw, bounds }
    })
    .collect()
}

pub fn edges(tally: &mut Tally) {
    for period in 0..7 {
        for a in small(Direction([1, 0, 0]), period) {
            for b in small(Direction([0, 1, 0]), period) {
                stack("stacking, edges", 1, [a, b], tally);
            }
        }
    }
}

/// Stops where a start was of a kind too few or too many. Before start 3 nothing can have been left, and what was left in periods
/// 2 to 5 shows at starts 6 to 9.
pub fn all_reached(tally: &Tally) {
    const KINDS: [&str; 3] = [
        "above the sum",
        "the sum, nothing left before",
        "the sum, something left before",
    ];
    for start in 1..=9 {
        let expected = match start {
            1..=2 => &KINDS[1..2],
            3..=5 => &KINDS[1..],
            _ => &KINDS[..],
        };
        let found = tally.stacked(start);
        if found != expected {
            let input = format!("start {start}\n");
            let (expected, found) = (format!("{expected:?}"), format!("{found:?}"));
            stop("stacking", input.as_bytes(), &expected, &found);
        }
    }
}

// The two contracts in README

const README: &str = "stacking, README";

/// A row has a name, the MW of DC, DM and DR, and the bounds.
fn contract_in(row: &str) -> Contract {
    let numbers: Vec<Int> = row.split(' ').skip(1).flat_map(str::parse).collect();
    match (numbers.first_chunk(), numbers.last_chunk()) {
        (Some(&mw), Some(&bounds)) if numbers.len() == 11 => Contract {
            mw: Direction(mw),
            bounds,
        },
        _ => stop(README, row.as_bytes(), "a name and eleven numbers", row),
    }
}

/// README's lines of a shell print each start of the two contracts and of the one with both, how far that is above the sum, what is
/// left in each, and how much combining saves; and README shows that.
pub fn readme(tally: &mut Tally) {
    let lines = readme::shell_lines("Two contracts as one", "while ");
    let contracts: Vec<Contract> = readme::handed_on(&lines)
        .map(|row| contract_in(row))
        .collect();
    let [a, b, both] = contracts[..] else {
        stop(
            README,
            lines.join("\n").as_bytes(),
            "three rows",
            "not three",
        )
    };
    let combined = a.combined(&b);
    printed("the MW added", combined.mw, both.mw);
    printed("the bounds added", combined.bounds, both.bounds);
    stack(README, 1, [a, b], tally);
    let rows = [a, b, both].map(|c| model::requirement(c.mw.rev(), c.mw.er(), &c.bounds));
    let row = |i: usize| {
        let [a, b, both] = [0, 1, 2].map(|c| rows[c][i]);
        let starts = format!(
            "{}{:8}{:7}{:7}{:6}",
            i + 1,
            a.start,
            b.start,
            both.start,
            both.start - a.start - b.start
        );
        match i {
            8 => starts,
            _ => format!(
                "{starts}{:9}{:6}{:6}{:6}",
                a.left,
                b.left,
                both.left,
                a.left + b.left - both.left
            ),
        }
    };
    let rows: Vec<String> = (0..9).map(row).collect();
    readme::run(README, &lines, &rows);
}
