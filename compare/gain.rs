//! By how much bounds fall by the watt rule (02, No. 5), on the readings of docs/readings.txt: the table of docs/WATTS.md.

use crate::model::{self, containment, regulation, Direction, Fraction, Int};
use crate::readme::{hold, read};
use crate::tally::{stop, Tally};
use crate::trace::{Runs, Script};

const TOPIC: &str = "gain";
const READINGS: &str = "docs/readings.txt";
const PAGE: &str = "docs/WATTS.md";

const QUANTITIES: [Int; 11] = [1, 2, 3, 4, 5, 10, 20, 30, 40, 50, 100];

/// What each MW of a quantity stands for, low, and the columns' first heading.
const CONTRACTS: [([Int; 3], &str); 3] = [
    ([1, 0, 0], "DC alone: 01"),
    ([0, 0, 1], "DR alone: 01"),
    ([1, 1, 1], "each of DC, DM, DR: 01"),
];

/// Holds docs/WATTS.md to the table.
pub fn compare(runs: &mut Runs, tally: &mut Tally) {
    hold(TOPIC, PAGE, &table(runs, tally));
}

/// For each quantity and contract 01's bound, the bound now and the fall in per cent. Each bound now is compared with
/// ledger_trace's.
pub fn table(runs: &mut Runs, tally: &mut Tally) -> Vec<String> {
    let readings = readings();
    let curves = [containment(), regulation(), regulation()];
    let none = Direction::default();
    let headings = CONTRACTS.map(|(_, heading)| format!("{heading}|now|%|"));
    let mut rows = vec![
        format!("|MW|{}", headings.concat()),
        format!("|{}", "-|".repeat(1 + 3 * headings.len())),
    ];
    for mw in QUANTITIES {
        let mut row = format!("|{mw}|");
        for (each, _) in CONTRACTS {
            let low = Direction(each.map(|n| n * mw));
            let mut script = Script::new(TOPIC);
            script.curves(&curves);
            script.read_all(&readings);
            script.energy(&low, &none);
            runs.add(script, tally);
            let [old, _] = model::energies_by_kilowatts(&low, &none, &curves, &readings);
            let [new, _] = model::energies(&low, &none, &curves, &readings);
            row += &format!("{}|{}|{}|", energy(old), energy(new), fall(old, new));
        }
        rows.push(row);
    }
    runs.run(tally);
    rows
}

/// The readings of the lines `read V N`.
fn readings() -> Vec<u16> {
    let mut readings = Vec::new();
    for line in read(READINGS).lines() {
        let numbers = line.strip_prefix("read ").and_then(|n| n.split_once(' '));
        match numbers.map(|(value, count)| (value.parse(), count.parse::<usize>())) {
            Some((Ok(value), Ok(count))) => readings.resize(readings.len() + count, value),
            _ => stop(TOPIC, format!("{READINGS}\n").as_bytes(), "read V N", line),
        }
    }
    readings
}

/// The bound and, in brackets, the energy that is rounded up to it, itself rounded up to a thousandth.
fn energy(kwh: Fraction) -> String {
    let thousandths = kwh.times(1_000).rounded_up();
    let (whole, rest) = (grouped(thousandths / 1_000), thousandths % 1_000);
    format!("{} ({whole}.{rest:03})", grouped(kwh.rounded_up()))
}

/// A number up to 999,999, with a comma after the thousands.
fn grouped(n: Int) -> String {
    match n {
        1_000.. => format!("{},{:03}", n / 1_000, n % 1_000),
        _ => n.to_string(),
    }
}

/// By how many per cent the energy falls, to the nearest hundredth.
fn fall(old: Fraction, new: Fraction) -> String {
    let fall = old.plus(new.times(-1)).by(old).times(100 * 100);
    let hundredths = fall.plus(Fraction::new(1, 2)).rounded_down();
    format!("{}.{:02}", hundredths / 100, hundredths % 100)
}
