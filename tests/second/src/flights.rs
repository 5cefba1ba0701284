//! The programs `record` and `name_fixes` once more: the lines of a flight, the names of their
//! cells, and the coverage text of the cells flown.

use crate::coverage::{fewest, ground_of, name_of_span, span_of, text_of};
use crate::coverage::{Growing, Span, FIRST, LONGEST};
use crate::ellipsoid::geodetic_code;
use crate::grid::{cell_of, Answer, Name};
use crate::ground::fix_code;

/// The most digits of a number: as many as the greatest one of 63 bits has.
const MOST_DIGITS: usize = 19;

/// What a flight comes to: its text, how many fixes are in it, and the number and the refusal of each
/// line left out.
#[derive(Debug, PartialEq, Eq)]
pub struct Flown {
    pub text: Vec<u8>,
    pub taken: u64,
    pub left_out: Vec<(u64, u64)>,
}

impl Flown {
    /// How many lines were left out with this refusal.
    pub fn refused(&self, with: u64) -> usize {
        let so = |(_, refusal): &&(u64, u64)| *refusal == with;
        self.left_out.iter().filter(so).count()
    }
}

/// The lines of an input. Each ends with a line end, but the last one may lack it.
pub fn lines(input: &[u8]) -> Vec<&[u8]> {
    let mut lines: Vec<&[u8]> = input.split(|&byte| byte == b'\n').collect();
    if lines.last().is_some_and(|last| last.is_empty()) {
        lines.pop();
    }
    lines
}

/// A whole number in decimal, with a minus sign before it where it is negative.
pub fn number(bytes: &[u8]) -> Option<i64> {
    let digits = bytes.strip_prefix(b"-").unwrap_or(bytes);
    if digits.len() > MOST_DIGITS || !digits.iter().all(u8::is_ascii_digit) {
        return None;
    }
    std::str::from_utf8(bytes).ok()?.parse().ok()
}

/// "`longitude z`, two whole numbers in decimal"; a carriage return may stand before the line end.
pub fn fix(line: &[u8]) -> Option<(i64, i64)> {
    let line = line.strip_suffix(b"\r").unwrap_or(line);
    let words: Vec<&[u8]> = line.split(|&byte| byte == b' ').collect();
    match words[..] {
        [longitude, z] => Some((number(longitude)?, number(z)?)),
        _ => None,
    }
}

/// The code of a line's cell; refuses 5, 2, 6. A line that is no fix is like one out of range.
pub fn line_code(n: u64, s: u64, resolution: u64, line: &[u8]) -> Answer<u64> {
    let (longitude, z) = fix(line).unwrap_or((i64::MAX, i64::MAX));
    fix_code(n, s, resolution, longitude, z)
}

/// The same with an eccentricity, where the line is `longitude sine` (02, W-203). None where the
/// request leaves the cell open.
pub fn geodetic_line_code(
    n: u64,
    s: u64,
    resolution: u64,
    eccentricity: u64,
    line: &[u8],
) -> Option<Answer<u64>> {
    let (longitude, sine) = fix(line).unwrap_or((i64::MAX, i64::MAX));
    geodetic_code(n, s, resolution, longitude, sine, eccentricity)
}

/// "For each line the name of its cell, or the refusal number."
pub fn named(n: u64, s: u64, resolution: u64, input: &[u8]) -> Vec<u8> {
    named_by(input, |line| line_code(n, s, resolution, line))
}

/// The same with the code of each line by another rule.
pub fn named_by(input: &[u8], code: impl Fn(&[u8]) -> Answer<u64>) -> Vec<u8> {
    let mut output = Vec::new();
    for line in lines(input) {
        match code(line) {
            Ok(code) => output.extend(cell_of(code).expect("a cell's code").name),
            Err(refusal) => output.extend(refusal.to_string().bytes()),
        }
        output.push(b'\n');
    }
    output
}

/// "The coverage text of the cells flown", of version 1, which "skips a fix that is refused, and a line that is
/// no fix". A fix whose cell would make the text too long is refused with 13, and the flight goes on.
pub fn recorded(n: u64, s: u64, resolution: u64, input: &[u8]) -> Flown {
    recorded_by(n, s, input, |line| line_code(n, s, resolution, line))
}

/// The same with the code of each line by another rule.
pub fn recorded_by(n: u64, s: u64, input: &[u8], code: impl Fn(&[u8]) -> Answer<u64>) -> Flown {
    let mut ground = Growing::new();
    let flown = each_line(input, |line| {
        ground.add(&cell_of(code(line)?).expect("a cell's code").name)
    });
    Flown {
        text: text_of(FIRST, n, s, &ground.names()),
        ..flown
    }
}

/// The same with the text made anew of the codes of all fixes for each line.
pub fn recorded_anew(n: u64, s: u64, input: &[u8], code: impl Fn(&[u8]) -> Answer<u64>) -> Flown {
    let mut spans: Vec<Span> = Vec::new();
    let mut text = text_of(FIRST, n, s, &[]);
    let flown = each_line(input, |line| {
        let code = code(line)?;
        let with = [&spans[..], &[span_of(code).expect("a cell's code")]].concat();
        let cells = fewest(&ground_of(with.clone()));
        let names: Vec<Name> = cells.iter().map(name_of_span).collect();
        let longer = text_of(FIRST, n, s, &names);
        if longer.len() > LONGEST {
            return Err(13);
        }
        (spans, text) = (with, longer);
        Ok(())
    });
    Flown { text, ..flown }
}

/// What is said of a flight at its end.
pub fn counts(taken: u64, bad: usize, full: usize) -> String {
    let fixes = if taken == 1 { "fix" } else { "fixes" };
    let lines = if bad == 1 { "line" } else { "lines" };
    format!("{taken} {fixes} taken, {bad} {lines} refused with 6, {full} with 13")
}

/// How many lines are taken, and the number and the refusal of the others.
fn each_line(input: &[u8], mut take: impl FnMut(&[u8]) -> Answer<()>) -> Flown {
    let mut flown = Flown {
        text: Vec::new(),
        taken: 0,
        left_out: Vec::new(),
    };
    for (at, line) in (1..).zip(lines(input)) {
        match take(line) {
            Ok(()) => flown.taken += 1,
            Err(refusal) => flown.left_out.push((at, refusal)),
        }
    }
    flown
}
