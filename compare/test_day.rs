//! No. 9 of paper 02, a test day anyone can repeat, written out from the paper alone.

use crate::model::Int;

/// "From a seed of 0 to 2,147,483,647 each step makes the next seed: 1,103,515,245 times the old, plus 12,345, modulo
/// 2,147,483,648."
pub fn next_seed(old: Int) -> Int {
    (1_103_515_245 * old + 12_345) % 2_147_483_648
}

/// "The reading is 49,500 plus the remainder of (new seed divided by 65,536, rounded down) by 1,001."
pub fn reading(new: Int) -> Int {
    49_500 + (new / 65_536) % 1_001
}

/// "Fill a lent buffer of any length and return the last seed, for length 0 the given one." "21: seed too large; the buffer stays."
pub fn fill(seed: Int, buffer: &mut [u16]) -> Result<Int, i64> {
    if seed > 2_147_483_647 {
        return Err(21);
    }
    let mut last = seed;
    for place in buffer {
        last = next_seed(last);
        *place = reading(last) as u16;
    }
    Ok(last)
}

/// "The line is one to ten digits without a leading zero, zero as one 0, and a line feed." So it is what a number prints as.
fn seed_in(text: &[u8]) -> Option<Int> {
    let number: Int = std::str::from_utf8(text).ok()?.trim_end().parse().ok()?;
    let as_printed = format!("{number}\n").as_bytes() == text;
    (as_printed && (0..10_000_000_000).contains(&number)).then_some(number)
}

/// "A program reads the seed as one line of decimal digits and writes one period of 3,600, one reading a line in nine columns."
/// "Any other input prints 13 and a seed too large 21, in nine columns and a line feed." The number, 0 for readings, and the text.
pub fn printed(text: &[u8]) -> (i64, String) {
    let mut readings = [0; 3_600];
    let filled = seed_in(text)
        .ok_or(13)
        .and_then(|seed| fill(seed, &mut readings));
    match filled {
        Ok(_) => (0, readings.iter().map(|r| format!("{r:9}\n")).collect()),
        Err(number) => (number, format!("{number:9}\n")),
    }
}
