//! The day of docs/day.txt, which README.md shows: given to the model line by line, compared, and README held to it.

use crate::model::{Curve, Direction, Terms};
use crate::readme::{hold, read};
use crate::tally::{stop, Tally};
use crate::trace::{Runs, Script};

const TOPIC: &str = "day";

pub fn compare(runs: &mut Runs, tally: &mut Tally) {
    let day = read("docs/day.txt");
    let mut script = Script::empty(TOPIC);
    for line in day.lines() {
        call(&mut script, line);
    }
    if script.text != day {
        stop(TOPIC, day.as_bytes(), &script.text, &day);
    }
    let rows = rows(&script);
    runs.alone(script, tally);
    hold(TOPIC, "README.md", &rows);
}

/// Gives the model a line, one of those that a day has.
pub fn call(script: &mut Script, line: &str) {
    let mut words = line.split(' ');
    let word = words.next().unwrap_or("");
    let numbers: Vec<_> = words.map_while(|number| number.parse().ok()).collect();
    match (word, &numbers[..]) {
        ("curve", [service @ 1..=3, points @ ..]) => {
            let points = points.chunks_exact(2).map(|p| (p[0], p[1]));
            script.curve(*service as usize - 1, &Curve(points.collect()));
        }
        ("open", &[ldc, ldm, ldr, hdc, hdm, hdr, export_limit, import_limit, size, first]) => {
            let terms = Terms {
                low: Direction([ldc, ldm, ldr]),
                high: Direction([hdc, hdm, hdr]),
                export_limit,
                import_limit,
            };
            script.open(&terms, size, first);
        }
        ("read", &[value, count]) => script.read(value as u16, count as usize),
        ("check", &[p]) => script.check(p),
        ("propose", []) => script.propose(),
        ("close", &[p, delivered, taken, trader]) => {
            script.close(p, delivered, taken, trader);
        }
        _ => {
            let input = format!("{line}\n");
            stop(TOPIC, input.as_bytes(), "a call of a day", line)
        }
    }
}

/// README's two columns: left the line read, right the answers to it. A record that is the last one shown is left out.
fn rows(script: &Script) -> Vec<String> {
    let row = |left: &str, right: &str| format!("    {left:51}{right}").trim_end().to_string();
    let mut rows = Vec::new();
    let mut shown = "";
    for (line, mut answers) in script.answers() {
        match answers.last() {
            Some(&record) if record == shown => answers.truncate(answers.len() - 1),
            Some(&record) => shown = record,
            None => {}
        }
        rows.push(row(line, answers.first().unwrap_or(&"")));
        rows.extend(answers.iter().skip(1).map(|answer| row("", answer)));
    }
    rows
}
