//! Counts of cases, and the end of the program at a difference.

use crate::model::Int;
use std::collections::BTreeMap;
use std::fmt::{Debug, Display};
use std::fs;

#[derive(Default)]
pub struct Tally {
    counts: BTreeMap<(&'static str, &'static str), BTreeMap<i64, u64>>,
    kinds: BTreeMap<[&'static str; 4], u64>,
    falls: BTreeMap<(usize, &'static str), BTreeMap<Int, u64>>,
    amounts: BTreeMap<&'static str, BTreeMap<&'static str, u64>>,
    readings: BTreeMap<u16, u64>,
    stacked: BTreeMap<usize, BTreeMap<&'static str, u64>>,
}

impl Tally {
    /// A call of `topic` was compared, which gave `number`: a refusal, or 0.
    pub fn count(&mut self, topic: &'static str, call: &'static str, number: i64) {
        let numbers = self.counts.entry((topic, call)).or_default();
        *numbers.entry(number).or_default() += 1;
    }

    /// A compared event was of this kind: the state before, the state once what was due has happened, the event and its end.
    pub fn reach(&mut self, kind: [&'static str; 4]) {
        *self.kinds.entry(kind).or_default() += 1;
    }

    pub fn reached(&self) -> BTreeMap<[&'static str; 4], u64> {
        self.kinds.clone()
    }

    /// Low and high bound of a period of `count` readings are so many kWh below 01's.
    pub fn fall(&mut self, count: usize, by: [Int; 2]) {
        for (direction, by) in ["low", "high"].into_iter().zip(by) {
            let falls = self.falls.entry((count, direction)).or_default();
            *falls.entry(by).or_default() += 1;
        }
    }

    /// How many bounds of that count and direction are `by` below 01's.
    pub fn fell(&self, count: usize, direction: &'static str, by: Int) -> u64 {
        let falls = self.falls.get(&(count, direction));
        falls.and_then(|f| f.get(&by)).copied().unwrap_or(0)
    }

    /// A payment's exact sum was of this kind: its side of 0, and where it lies above the whole number below it.
    pub fn pay(&mut self, [side, place]: [&'static str; 2]) {
        let amounts = self.amounts.entry(side).or_default();
        *amounts.entry(place).or_default() += 1;
    }

    /// How many exact sums were of that kind.
    pub fn paid(&self, [side, place]: [&'static str; 2]) -> u64 {
        let amounts = self.amounts.get(side);
        amounts.and_then(|a| a.get(place)).copied().unwrap_or(0)
    }

    /// A test day had these readings.
    pub fn read(&mut self, readings: &[u16]) {
        for &reading in readings {
            *self.readings.entry(reading).or_default() += 1;
        }
    }

    /// The readings that test days had, each once, in order.
    pub fn readings(&self) -> impl Iterator<Item = &u16> {
        self.readings.keys()
    }

    /// A start of a combined contract was of this kind beside the two separate ones.
    pub fn stack(&mut self, start: usize, kind: &'static str) {
        let kinds = self.stacked.entry(start).or_default();
        *kinds.entry(kind).or_default() += 1;
    }

    /// The kinds of which that start was, in order.
    pub fn stacked(&self, start: usize) -> Vec<&'static str> {
        let kinds = self.stacked.get(&start);
        kinds.map_or(Vec::new(), |k| k.keys().copied().collect())
    }

    pub fn total(&self) -> u64 {
        self.counts.values().flat_map(|n| n.values()).sum()
    }

    /// A line for each topic and call: the cases, and how many gave which number.
    pub fn print(&self) {
        for ((topic, call), numbers) in &self.counts {
            let all: u64 = numbers.values().sum();
            println!("{topic:16} {call:12} {all:8}   {}", each(numbers));
        }
    }

    /// A line for each count of readings and direction: how many bounds are how far below 01's.
    pub fn print_falls(&self) {
        for ((count, direction), falls) in &self.falls {
            println!("{count:16} {direction:12} {}", each(falls));
        }
    }

    /// A line for each side of 0: how many exact sums lay where.
    pub fn print_amounts(&self) {
        for (side, amounts) in &self.amounts {
            println!("{side:16} {}", each(amounts));
        }
    }

    /// A line for each start: how many were of which kind.
    pub fn print_stacked(&self) {
        for (start, kinds) in &self.stacked {
            println!("start {start:10} {}", each(kinds));
        }
    }

    /// How many readings test days had, how many different ones, and the ends of these.
    pub fn print_readings(&self) {
        let all: u64 = self.readings.values().sum();
        let (first, last) = (self.readings().next(), self.readings().last());
        let ends = first
            .zip(last)
            .map_or(String::new(), |(a, b)| format!(" from {a} to {b}"));
        println!("{all:16} {} different{ends}", self.readings.len());
    }

    /// A line for each state, before what was due and after it: how often each event led where, or got which refusal.
    pub fn print_kinds(&self) {
        let kinds: Vec<_> = self.kinds.iter().collect();
        for same in kinds.chunk_by(|a, b| a.0[..2] == b.0[..2]) {
            let [before, now, ..] = same[0].0;
            let each = same
                .iter()
                .map(|([.., event, end], c)| format!("{event} > {end}: {c}"));
            let each: Vec<String> = each.collect();
            println!("{before:16} {now:16} {}", each.join(", "));
        }
    }
}

fn each<T: Display>(counts: &BTreeMap<T, u64>) -> String {
    let each: Vec<String> = counts.iter().map(|(n, c)| format!("{n}: {c}")).collect();
    each.join(", ")
}

/// Prints the first difference and the input that shows it, and ends the program with status 1.
pub fn stop(topic: &str, input: &[u8], expected: &str, found: &str) -> ! {
    let path = "target/compare/difference.txt";
    println!("compare: DIFFERENCE in {topic}");
    match fs::write(path, input) {
        Ok(()) => println!("the input, also in {path}:"),
        Err(e) => println!("the input ({path}: {e}):"),
    }
    let shown = input.len().min(8_000);
    print!("{}", String::from_utf8_lossy(&input[..shown]));
    if shown < input.len() {
        println!("... ({} bytes in all)", input.len());
    }
    println!("expected: {expected}");
    println!("found:    {found}");
    std::process::exit(1)
}

/// Stops where the model does not give what a paper prints.
pub fn printed<T: Debug + PartialEq>(what: &str, paper: T, model: T) {
    if paper != model {
        let (paper, model) = (format!("{paper:?}"), format!("{model:?}"));
        let input = format!("{what}: the paper and the model\n");
        stop("papers", input.as_bytes(), &paper, &model);
    }
}
