//! The program ledger_trace: texts for it with the lines that the model expects, and runs of it.

use crate::model::{self, Curve, Direction, Entries, Fraction, Int, Record, Terms};
use crate::tally::{printed, stop, Tally};
use std::fs::{self, File};
use std::process::{Command, Stdio};

/// The bytes of input that ledger_trace reads.
pub const GREATEST_INPUT: usize = 1_000_000;

/// The readings that ledger_trace takes in all, until they are empty again.
pub const MOST_READINGS: usize = 288_001;

/// A line that ledger_trace has to print.
struct Line {
    text: String,
    /// The bytes of the script's text up to and with the call that prints it.
    fed: usize,
    /// The call and its number, on a call's first line.
    call: Option<(&'static str, i64)>,
    /// The readings of a period and 01's bounds of them, where the line's are compared with these.
    by_kilowatts: Option<(usize, [Int; 2])>,
}

/// A list of calls as text, beside what the model answers to each.
pub struct Script {
    topic: &'static str,
    pub text: String,
    lines: Vec<Line>,
    curves: [Curve; 3],
    pub record: Record,
    readings: Vec<u16>,
}

fn join(numbers: &[Int]) -> String {
    numbers.iter().map(|n| format!(" {n}")).collect()
}

impl Script {
    /// No readings, no points and the blank record of a refused opening, as ledger_trace starts.
    pub fn empty(topic: &'static str) -> Script {
        Script {
            topic,
            text: String::new(),
            lines: Vec::new(),
            curves: Default::default(),
            record: Record::default(),
            readings: Vec::new(),
        }
    }

    /// Starts from the same, made by lines of its own, so that the text means the same after any other.
    pub fn new(topic: &'static str) -> Script {
        let mut script = Script::empty(topic);
        script.clear();
        for service in 0..3 {
            script.curve(service, &Curve::default());
        }
        script.open(&Terms::default(), 0, 0);
        script.lines[0].call = None;
        script
    }

    fn feed(&mut self, word: &str, numbers: &[Int]) {
        self.text += word;
        self.text += &join(numbers);
        self.text += "\n";
    }

    fn expect(&mut self, call: &'static str, number: i64, numbers: &[Int]) {
        let text = format!("{call} {number}{}", join(numbers));
        self.push(text, Some((call, number)));
    }

    fn push(&mut self, text: String, call: Option<(&'static str, i64)>) {
        let fed = self.text.len();
        self.lines.push(Line {
            text,
            fed,
            call,
            by_kilowatts: None,
        });
    }

    fn expect_record(&mut self) {
        let r = &self.record;
        let (low, high) = r.next_starts();
        let mut numbers = vec![r.closed, r.state, low, high];
        numbers.extend(r.bought);
        numbers.extend(r.sold);
        numbers.extend([r.delivered, r.taken]);
        self.push(format!("record{}", join(&numbers)), None);
    }

    /// The model's last line is the one that a paper prints.
    pub fn printed(&self, line: &str) {
        printed(&self.text, line, &self.lines.last().unwrap().text);
    }

    /// Each line of the text, with the answers to it.
    pub fn answers(&self) -> Vec<(&str, Vec<&str>)> {
        let mut answers = Vec::new();
        let mut fed = 0;
        for line in self.text.split_inclusive('\n') {
            fed += line.len();
            let given = self.lines.iter().filter(|l| l.fed == fed);
            answers.push((line.trim_end(), given.map(|l| l.text.as_str()).collect()));
        }
        answers
    }

    /// The services are counted from 0 here, from 1 in the text.
    pub fn curve(&mut self, service: usize, curve: &Curve) {
        let mut numbers = vec![service as Int + 1];
        numbers.extend(curve.0.iter().flat_map(|&(d, h)| [d, h]));
        self.feed("curve", &numbers);
        self.curves[service] = curve.clone();
    }

    pub fn curves(&mut self, curves: &[Curve; 3]) {
        for service in 0..3 {
            self.curve(service, &curves[service]);
        }
    }

    pub fn open(&mut self, terms: &Terms, size: Int, first: Int) {
        let (l, h) = (terms.low.0, terms.high.0);
        let (export, import) = (terms.export_limit, terms.import_limit);
        self.feed(
            "open",
            &[
                l[0], l[1], l[2], h[0], h[1], h[2], export, import, size, first,
            ],
        );
        let (number, record) = Record::open(*terms, self.curves.clone(), size, first);
        self.record = record;
        self.expect("open", number, &[]);
        self.expect_record();
    }

    pub fn read(&mut self, value: u16, count: usize) {
        self.feed("read", &[value.into(), count as Int]);
        self.readings.resize(self.readings.len() + count, value);
    }

    /// Each value as often as it comes in a row.
    pub fn read_all(&mut self, readings: &[u16]) {
        for run in readings.chunk_by(|a, b| a == b) {
            self.read(run[0], run.len());
        }
    }

    pub fn clear(&mut self) {
        self.feed("clear", &[]);
        self.readings.clear();
    }

    pub fn check(&mut self, p: Int) {
        self.feed("check", &[p]);
        let number = self.record.check(p);
        self.expect("check", number, &[]);
        self.expect_record();
    }

    pub fn propose(&mut self) {
        self.feed("propose", &[]);
        let (number, p) = self.record.propose();
        self.expect("propose", number, &[p]);
        self.expect_record();
    }

    pub fn close(&mut self, p: Int, delivered: Int, taken: Int, trader: Int) -> i64 {
        self.feed("close", &[p, delivered, taken, trader]);
        let record = &mut self.record;
        let number = record.close(p, &self.readings, delivered, taken, trader);
        self.readings.clear();
        self.expect("close", number, &[]);
        self.expect_record();
        number
    }

    /// Makes the record's numbers those of `wanted`; terms and curves stay.
    pub fn make_up(&mut self, wanted: &Record) {
        let (now, wanted) = (numbers(&self.record), numbers(wanted));
        for ((k, from), (_, to)) in now.into_iter().zip(wanted) {
            if from != to {
                self.put(k, to);
            }
        }
    }

    pub fn put(&mut self, k: Int, value: Int) {
        self.feed("put", &[k, value]);
        *place(&mut self.record, k) = value;
    }

    fn period(&mut self, call: &'static str, low: &Direction, high: &Direction) -> (i64, Int, Int) {
        let (l, h) = (low.0, high.0);
        self.feed(call, &[l[0], l[1], l[2], h[0], h[1], h[2]]);
        let (number, l, h) = model::period_energy(low, high, &self.curves, &self.readings);
        self.readings.clear();
        self.expect(call, number, &[l, h]);
        (number, l, h)
    }

    pub fn energy(&mut self, low: &Direction, high: &Direction) -> (i64, Int, Int) {
        self.period("energy", low, high)
    }

    /// Period energy of readings that nothing refuses; what the program prints is compared with 01's bounds of them too. No. 5:
    /// "Bounds can only fall or stay." Low and high, the bound and 01's.
    pub fn energy_and_kilowatts(&mut self, low: &Direction, high: &Direction) -> [(Int, Int); 2] {
        let count = self.readings.len();
        let by_kilowatts = model::energies_by_kilowatts(low, high, &self.curves, &self.readings)
            .map(Fraction::rounded_up);
        let (_, low, high) = self.energy(low, high);
        self.lines.last_mut().unwrap().by_kilowatts = Some((count, by_kilowatts));
        [(low, by_kilowatts[0]), (high, by_kilowatts[1])]
    }

    /// Period energy, then the same by table of the same readings. No. 4: "Energies by table equal those by interpolation."
    pub fn energy_and_table(&mut self, low: &Direction, high: &Direction) -> (i64, Int, Int) {
        let readings = self.readings.clone();
        self.energy(low, high);
        self.read_all(&readings);
        self.period("table", low, high)
    }

    pub fn respond(&mut self, mw: Int, deviation: Int) {
        self.feed("respond", &[mw, deviation]);
        let response = model::response(mw, &model::containment(), deviation);
        assert_eq!(model::response_by_table(mw, deviation), response);
        self.push(format!("respond {response}"), Some(("respond", 0)));
    }

    pub fn block(&mut self) {
        self.feed("block", &[]);
        let (number, period, place) = model::block_check(&self.readings);
        self.expect("block", number, &[period as Int, place as Int]);
    }

    pub fn part(&mut self, period: Int) {
        self.feed("part", &[period]);
        let part = model::part(&self.readings, period);
        let ends = [part.first(), part.last()].map(|r| r.map_or(0, |&r| Int::from(r)));
        let text = format!("part {}{}", part.len(), join(&ends));
        let number = if part.is_empty() { 6 } else { 0 };
        self.push(text, Some(("part", number)));
    }

    /// Text that is not as the format says, after which nothing is read.
    pub fn malformed(&mut self, text: &str) {
        let line = self.text.matches('\n').count() + 1;
        self.text += text;
        self.push(format!("malformed {line}"), Some(("malformed", 0)));
    }

    /// Lines that print nothing, until the text has `length` bytes; one byte more makes it too long.
    pub fn fill(&mut self, length: usize) {
        while self.text.len() + 16 < length {
            self.clear();
        }
        let digits = length - self.text.len() - "put 0 \n".len();
        self.put(0, "1".repeat(digits).parse().unwrap());
        if length > GREATEST_INPUT {
            self.lines.clear();
            self.push("malformed 0".to_string(), Some(("malformed", 0)));
        }
    }
}

/// The number of a record that `put` names with `k`.
fn place(r: &mut Record, k: Int) -> &mut Int {
    fn entry(low: &mut Entries, tens: Int, i: usize) -> &mut Int {
        match tens {
            0 => &mut low.bound[i],
            1 => &mut low.start[i],
            _ => &mut low.sched[i],
        }
    }
    match k {
        0 => &mut r.size,
        1 => &mut r.first,
        2 => &mut r.state,
        3 => &mut r.closed,
        6 => &mut r.delivered,
        7 => &mut r.taken,
        11..=38 => entry(&mut r.low, k / 10 - 1, (k % 10) as usize - 1),
        41..=68 => entry(&mut r.high, k / 10 - 4, (k % 10) as usize - 1),
        71..=74 => &mut r.bought[k as usize - 71],
        _ => &mut r.sold[k as usize - 81],
    }
}

/// What `put` can name: the numbers that come once, six entries of each period, and two totals of each trader.
pub fn places() -> impl Iterator<Item = Int> {
    let periods = (1..=6).flat_map(|tens| (1..=8).map(move |i| 10 * tens + i));
    let traders = (7..=8).flat_map(|tens| (1..=4).map(move |w| 10 * tens + w));
    (0..4).chain(6..8).chain(periods).chain(traders)
}

/// A record's numbers with their names.
pub fn numbers(record: &Record) -> Vec<(Int, Int)> {
    let mut record = record.clone();
    places().map(|k| (k, *place(&mut record, k))).collect()
}

/// How far both bounds of a line of an energy are below 01's, where each is so by 0 to 2 kWh. More cannot be: three services lose
/// less than a kW each to the rounding by kilowatts, together less than 1.5 kWh in half an hour, and the last rounding adds the
/// rest.
fn falls(line: &str, by_kilowatts: [Int; 2]) -> Option<[Int; 2]> {
    let (low, high) = line.strip_prefix("energy 0 ")?.split_once(' ')?;
    let bounds: [Int; 2] = [low.parse().ok()?, high.parse().ok()?];
    let falls = [0, 1].map(|i| by_kilowatts[i] - bounds[i]);
    falls.iter().all(|by| (0..=2).contains(by)).then_some(falls)
}

/// The scripts that go into one run of ledger_trace, one after the other.
pub struct Runs {
    program: String,
    scripts: Vec<Script>,
    length: usize,
}

impl Runs {
    pub fn new(program: String) -> Runs {
        Runs {
            program,
            scripts: Vec::new(),
            length: 0,
        }
    }

    pub fn add(&mut self, mut script: Script, tally: &mut Tally) {
        assert!(script.text.len() <= GREATEST_INPUT);
        if self.length + script.text.len() > GREATEST_INPUT {
            self.run(tally);
        }
        self.length += script.text.len();
        // The answers are there; a block's readings need not be kept for them.
        script.readings = Vec::new();
        self.scripts.push(script);
    }

    /// A script that has to have a run of its own.
    pub fn alone(&mut self, script: Script, tally: &mut Tally) {
        self.run(tally);
        self.scripts.push(script);
        self.run(tally);
    }

    /// Runs ledger_trace on what was added, and compares line by line.
    pub fn run(&mut self, tally: &mut Tally) {
        let scripts = std::mem::take(&mut self.scripts);
        self.length = 0;
        if scripts.is_empty() {
            return;
        }
        let input: String = scripts.iter().map(|s| s.text.as_str()).collect();
        let path = "target/compare/input.txt";
        fs::write(path, &input).expect(path);
        let output = Command::new(&self.program)
            .stdin(Stdio::from(File::open(path).expect(path)))
            .output()
            .unwrap_or_else(|e| panic!("{}: {e}", self.program));
        let printed = String::from_utf8_lossy(&output.stdout).into_owned();
        let mut found = printed.lines();
        for script in &scripts {
            for line in &script.lines {
                let found = found.next().unwrap_or("(no line)");
                let fed = script.text[..line.fed].as_bytes();
                if let Some((count, bounds)) = line.by_kilowatts {
                    let Some(falls) = falls(found, bounds) else {
                        let expected = format!("bounds from 0 to 2 below {bounds:?}, 01's");
                        stop(script.topic, fed, &expected, found);
                    };
                    tally.fall(count, falls);
                }
                if found != line.text {
                    stop(script.topic, fed, &line.text, found);
                }
                if let Some((call, number)) = line.call {
                    tally.count(script.topic, call, number);
                }
            }
        }
        if let Some(line) = found.next() {
            stop("end of output", input.as_bytes(), "(no line)", line);
        }
        if !output.status.success() || !printed.ends_with('\n') {
            let status = format!("{}, {} bytes", output.status, printed.len());
            stop("end of run", input.as_bytes(), "success", &status);
        }
    }
}
