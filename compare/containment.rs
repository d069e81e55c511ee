//! The table for the containment curve (02, No. 4) where it is written down: what the program containment_table prints, the text
//! stored of it and the constant in the code, each held to the model's table.

use crate::model;
use crate::readme::read;
use crate::tally::{stop, Tally};
use std::process::Command;

const TOPIC: &str = "containment";
const STORED: &str = "crates/containment_table/stdout";
const CONSTANT: &str = "crates/energy/src/containment_table.rt";

pub fn compare(program: &str, tally: &mut Tally) {
    let output = Command::new(program)
        .output()
        .unwrap_or_else(|e| panic!("{program}: {e}"));
    if !output.status.success() {
        let (input, status) = (format!("{program}\n"), output.status.to_string());
        stop(TOPIC, input.as_bytes(), "success", &status);
    }
    let printed = String::from_utf8_lossy(&output.stdout);
    hold("printed", program, &printed, tally);
    hold("stored", STORED, &read(STORED), tally);
    hold("constant", CONSTANT, &constant(&read(CONSTANT)), tally);
}

/// The numbers between `= [` and `];`, each with a comma after it, as lines of nine columns.
fn constant(code: &str) -> String {
    let numbers = code
        .split_once("= [")
        .and_then(|(_, rest)| rest.split_once("];"))
        .map_or("", |(numbers, _)| numbers);
    numbers
        .trim_end()
        .split_terminator(',')
        .map(|number| format!("{:>9}\n", number.trim()))
        .collect()
}

/// "One number a line, right-justified in nine columns": each entry's line, then the end of the text.
fn hold(call: &'static str, place: &str, text: &str, tally: &mut Tally) {
    let table = model::table();
    let mut lines = text.split_inclusive('\n');
    for entry in 0..=table.len() {
        let expected = table.get(entry).map(|number| format!("{number:9}\n"));
        let found = lines.next();
        if found != expected.as_deref() {
            let input = format!("{place}, entry {entry}\n");
            let (expected, found) = (format!("{expected:?}"), format!("{found:?}"));
            stop(TOPIC, input.as_bytes(), &expected, &found);
        }
        tally.count(TOPIC, call, 0);
    }
}
