//! Cases for the test day: seeds and lengths at their limits, splits, readings at both ends, lines damaged at every byte, and the
//! day from seed to ledger that README.md shows.

use crate::day::call;
use crate::host;
use crate::host_cases::BYTES;
use crate::model::Int;
use crate::random::Random;
use crate::readme::{self, read};
use crate::tally::{printed, stop, Tally};
use crate::test_day;
use crate::trace::Script;
use std::io::{ErrorKind, Write};
use std::process::{Command, Output, Stdio};

const GREATEST: u32 = 2_147_483_647;

const SEEDS: [u32; 12] = [
    0,
    1,
    2,
    0xffff,
    0x1_0000,
    GREATEST - 1,
    GREATEST,
    GREATEST + 1,
    GREATEST + 2,
    0xc000_0000,
    u32::MAX - 1,
    u32::MAX,
];

// From C

/// The seed before `new`: the step's factor is odd, and this is what undoes it.
fn seed_before(new: Int) -> u32 {
    const MODULUS: Int = 1 << 31;
    let mut factor: Int = 1;
    for _ in 0..5 {
        factor = (factor * (2 - 1_103_515_245 * factor)).rem_euclid(MODULUS);
    }
    ((new - 12_345) * factor).rem_euclid(MODULUS) as u32
}

/// Fills a buffer whole and in two parts, the second from the returned seed. No. 9: this "equals filling the whole", and "readings
/// lie from 49,500 to 50,500 for every seed".
fn in_parts(topic: &'static str, seed: u32, count: usize, first: usize, tally: &mut Tally) {
    let whole = host::test_day(topic, seed, count, tally);
    let (returned, mut parts) = host::test_day(topic, seed, first, tally);
    let Ok(returned) = u32::try_from(returned) else {
        return;
    };
    let (last, rest) = host::test_day(topic, returned, count - first, tally);
    parts.extend(rest);
    let parts = (last, parts);
    let range = 49_500..=50_500;
    if whole != parts || !whole.1.iter().all(|r| range.contains(r)) {
        let input = format!("soe_test_day, seed {seed}, {count} readings, {first} and the rest\n");
        let expected = format!("in {range:?}, and as the whole: {whole:?}");
        stop(topic, input.as_bytes(), &expected, &format!("{parts:?}"));
    }
    tally.read(&whole.1);
}

/// The step is that of the C standard's example of rand: from seed 1 its numbers are these, and a reading is 49,500 plus the
/// remainder of one by 1,001.
fn known() {
    const RAND: [Int; 8] = [16_838, 5_758, 10_113, 17_515, 31_051, 5_627, 23_010, 7_419];
    let mut seed = 1;
    for number in RAND {
        seed = test_day::next_seed(seed);
        printed("rand of the C standard", number, seed / 65_536);
    }
    let mut readings = [0; 8];
    printed("the last seed", Ok(seed), test_day::fill(1, &mut readings));
    let expected = RAND.map(|number| (49_500 + number % 1_001) as u16);
    printed("the readings of seed 1", expected, readings);
}

pub fn edges(tally: &mut Tally) {
    const TOPIC: &str = "test day, edges";
    known();
    for seed in SEEDS {
        for count in 0..=5 {
            for first in 0..=count {
                in_parts(TOPIC, seed, count, first, tally);
            }
        }
        for first in [0, 1, 1_799, 3_599, 3_600] {
            in_parts(TOPIC, seed, 3_600, first, tally);
        }
        for count in [3_599, 3_601, 28_800, 36_000] {
            host::test_day(TOPIC, seed, count, tally);
        }
    }
    // New seeds at which the quotient by 65,536 steps, and such at which its remainder by 1,001 turns.
    for quotient in [
        0, 1, 2, 1_000, 1_001, 1_002, 2_001, 2_002, 16_384, 32_766, 32_767,
    ] {
        for past in [0, 1, 2, 0x7fff, 0x8000, 0xfffe, 0xffff] {
            let new = 0x1_0000 * quotient + past;
            let seed = seed_before(new);
            printed("the seed before", new, test_day::next_seed(seed.into()));
            in_parts(TOPIC, seed, 2, 1, tally);
        }
    }
}

pub fn any(random: &mut Random, count: usize, tally: &mut Tally) {
    for _ in 0..count {
        let greatest = random.pick(&[GREATEST, GREATEST, GREATEST, u32::MAX]);
        let seed = random.within(0, greatest.into()) as u32;
        let length = random.pick(&[0, 1, 2, 3, 4, 5, 63, 64, 65, 3_600]);
        let first = random.below(length + 1);
        in_parts("test day", seed, length, first, tally);
    }
}

/// Stops where a reading from 49,500 to 50,500 never came.
pub fn all_reached(tally: &Tally) {
    if !(49_500..=50_500).eq(tally.readings().copied()) {
        stop("test day", b"", "each from 49,500 to 50,500", "not each");
    }
}

// The program test_readings

/// Hands the program a text; it may have ended before it read all of it.
fn run(program: &str, text: &[u8]) -> Output {
    let mut child = Command::new(program)
        .stdin(Stdio::piped())
        .stdout(Stdio::piped())
        .spawn()
        .unwrap_or_else(|e| panic!("{program}: {e}"));
    let mut input = child.stdin.take().unwrap();
    match input.write_all(text) {
        Err(e) if e.kind() != ErrorKind::BrokenPipe => panic!("{program}: {e}"),
        _ => drop(input),
    }
    child
        .wait_with_output()
        .unwrap_or_else(|e| panic!("{program}: {e}"))
}

/// Compares what the program prints.
fn line(topic: &'static str, program: &str, text: &[u8], tally: &mut Tally) {
    let (number, expected) = test_day::printed(text);
    let output = run(program, text);
    if !output.status.success() || output.stdout != expected.as_bytes() {
        let found = String::from_utf8_lossy(&output.stdout);
        let found = format!("{}\n{found}", output.status);
        stop(topic, text, &expected, &found);
    }
    tally.count(topic, "line", number);
}

/// A byte left out and one put in at each place, and the text cut and lengthened.
fn damaged(program: &str, text: &[u8], tally: &mut Tally) {
    const TOPIC: &str = "lines, damaged";
    for at in 0..=text.len() {
        line(TOPIC, program, &text[..at], tally);
        for byte in BYTES {
            let mut longer = text.to_vec();
            longer.insert(at, byte);
            line(TOPIC, program, &longer, tally);
        }
    }
    for at in 0..text.len() {
        let mut shorter = text.to_vec();
        shorter.remove(at);
        line(TOPIC, program, &shorter, tally);
    }
    for more in [1, 2, 12, 100, 4_096, 1_000_000] {
        for byte in [b'\n', b'1', b' '] {
            let mut longer = text.to_vec();
            longer.resize(text.len() + more, byte);
            line(TOPIC, program, &longer, tally);
        }
    }
}

/// Seeds at their limits and at each count of digits, also such as are small in 32 bits; other numbers; and lines with each byte
/// value at each place.
pub fn lines(program: &str, tally: &mut Tally) {
    const TOPIC: &str = "lines, edges";
    let tens = (0..=11).map(|n| 10_u64.pow(n));
    let around = tens.flat_map(|ten| [ten - 1, ten, 2 * ten + 1]);
    let wide = [1 << 31, 1 << 32, 1 << 33, 3 << 31, u64::MAX];
    let beside = wide
        .into_iter()
        .flat_map(|n| [n - 1, n, n.saturating_add(1)]);
    for n in around.chain(beside).chain(SEEDS.map(u64::from)) {
        let text = format!("{n}\n");
        line(TOPIC, program, text.as_bytes(), tally);
        for front in ["0", "00", " ", "+", "-"] {
            let text = format!("{front}{text}");
            line(TOPIC, program, text.as_bytes(), tally);
        }
    }
    for text in ["1234567890\n", "2147483647\n", "0\n", "7\n"] {
        for at in 0..text.len() {
            for byte in 0..=u8::MAX {
                let mut bytes = text.as_bytes().to_vec();
                bytes[at] = byte;
                line("lines, damaged", program, &bytes, tally);
            }
        }
        damaged(program, text.as_bytes(), tally);
    }
    stored(tally);
}

/// The text that `rt ci` holds the program to is the model's for the line it is given.
fn stored(tally: &mut Tally) {
    const TOPIC: &str = "lines, stored";
    let input = read("crates/test_readings/stdin");
    let (number, expected) = test_day::printed(input.as_bytes());
    let stored = read("crates/test_readings/stdout");
    if stored != expected {
        stop(TOPIC, input.as_bytes(), &expected, &stored);
    }
    tally.count(TOPIC, "stored", number);
}

/// A random line, and a random one with a byte or two changed.
pub fn any_line(random: &mut Random, program: &str, tally: &mut Tally) {
    let number = match random.below(3) {
        0 => random.near(&[GREATEST.into(), 2 * Int::from(GREATEST)]),
        _ => {
            let digits = random.between(1, 10) as u32;
            random.between(0, Int::pow(10, digits) - 1)
        }
    };
    let mut text = format!("{number}\n").into_bytes();
    line("lines", program, &text, tally);
    for _ in 0..=random.below(2) {
        let at = random.below(text.len());
        text[at] = random.pick(&BYTES);
    }
    line("lines, damaged", program, &text, tally);
}

// From seed to ledger

const README: &str = "test day, README";

/// What the model answers where the rows that the lines hand on are periods: their seed, purchase and delivered. Each seed is the
/// one that the period before returned, each purchase the proposal, and delivered is the bound.
fn from_seed_to_ledger(lines: &[String]) -> Vec<String> {
    let mut script = Script::empty(README);
    for opening in read("docs/day.txt").lines().take(4) {
        call(&mut script, opening);
    }
    let mut seed = Ok(1);
    for row in readme::handed_on(lines) {
        let numbers: Vec<Int> = row.split(' ').flat_map(str::parse).collect();
        let &[given, bought, delivered] = &numbers[..] else {
            stop(README, row.as_bytes(), "seed, purchase and delivered", row)
        };
        let mut readings = [0; 3_600];
        printed("the seed that was returned", seed, Ok(given));
        seed = test_day::fill(given, &mut readings);
        printed("the proposal", script.record.propose(), (0, bought));
        printed("the bound", script.record.bounds(&readings), (delivered, 0));
        for reading in readings {
            script.read(reading, 1);
        }
        script.close(bought, delivered, 0, 1);
    }
    let answers = script.answers().into_iter().map(|(_, lines)| lines);
    answers
        .filter(|lines| !lines.is_empty())
        .map(|lines| lines.join(" "))
        .collect()
}

/// README's lines of a shell print what the model answers, and README shows that.
pub fn readme(tally: &mut Tally) {
    let lines = readme::shell_lines("A test day", "{\n");
    let rows = from_seed_to_ledger(&lines);
    readme::run(README, &lines, &rows);
    for _ in rows {
        tally.count(README, "answer", 0);
    }
}
