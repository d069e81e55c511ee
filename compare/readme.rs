//! README.md and the other pages: what they show is held to the model, and README's lines of a shell are run.

use crate::tally::stop;
use std::fs;
use std::process::Command;

pub fn read(path: &str) -> String {
    fs::read_to_string(path).unwrap_or_else(|e| panic!("{path}: {e}"))
}

/// The paragraph of a page that has the first row has all of them and nothing else.
pub fn hold(topic: &str, page: &str, rows: &[String]) {
    let text = read(page);
    let mut paragraphs = text.split("\n\n").map(str::lines);
    let block = paragraphs.find(|lines| lines.clone().any(|line| line == rows[0]));
    let mut found = block.unwrap_or("".lines());
    for row in rows.iter().map(String::as_str).chain(["(no line)"]) {
        let line = found.next().unwrap_or("(no line)");
        if line != row {
            stop(topic, format!("{page}\n").as_bytes(), row, line);
        }
    }
}

/// The lines of a shell in a section of README: the paragraph of it that begins with `first`.
pub fn shell_lines(section: &str, first: &str) -> Vec<String> {
    let page = read("README.md");
    let heading = format!("{section}\n");
    let section = page.split("\n## ").find(|s| s.starts_with(&heading));
    let mut paragraphs = section.unwrap_or("").split("\n\n");
    let beginning = format!("    {first}");
    let lines = paragraphs.find(|p| p.starts_with(&beginning)).unwrap_or("");
    lines
        .lines()
        .map(|l| l.strip_prefix("    ").unwrap_or(l).to_string())
        .collect()
}

/// The rows that these lines hand on, between `<<END` and `END`.
pub fn handed_on(lines: &[String]) -> impl Iterator<Item = &String> {
    let rows = lines.iter().skip_while(|l| !l.ends_with("<<END")).skip(1);
    rows.take_while(|&l| l != "END")
}

/// README shows these rows, and its lines of a shell print them.
pub fn run(topic: &str, lines: &[String], rows: &[String]) {
    let shown: Vec<String> = rows.iter().map(|row| format!("    {row}")).collect();
    hold(topic, "README.md", &shown);
    let commands = lines.join("\n");
    let output = Command::new("sh").args(["-c", &commands]).output();
    let output = output.unwrap_or_else(|e| panic!("sh: {e}"));
    let found = String::from_utf8_lossy(&output.stdout);
    let expected = rows.join("\n") + "\n";
    if !output.status.success() || found != expected {
        let found = format!("{}\n{found}", output.status);
        stop(topic, commands.as_bytes(), &expected, &found);
    }
}
