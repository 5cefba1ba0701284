//! Document 02's W-207, a summary kept beside the text: "486 counters, one for each resolution-2
//! cell, all zero before the first face is read, in code order, each then the number of covered
//! finest cells inside it, and the heading's n and s".
//!
//! The ground is ranges of finest cells, and each range is shared out over the cells of resolution
//! 2, which are 9^13 finest cells each. A question looks at every one of them that lies inside.

use crate::coverage::{arrangement_of_text, checked_text, ground_of_text, name_of_span, span_of};
use crate::coverage::{Refused, Span, TextAnswer};
use crate::grid::{arrangement_of, code_of, finest_cells, name_code, resolution_of};
use crate::grid::{Answer, Name};

/// As many as there are cells of resolution 2.
pub const COUNTERS: usize = 486;

pub type Counters = [u64; COUNTERS];

/// "9^13": the counter of a district that is done.
pub fn full() -> u64 {
    finest_cells(2)
}

/// What is kept beside a text.
#[derive(Clone, Copy, Debug, PartialEq, Eq)]
pub struct Summary {
    pub n: u64,
    pub s: u64,
    pub counters: Counters,
}

/// The finest cells of the cells of resolution 2, in code order.
pub fn districts() -> impl Iterator<Item = Span> {
    (0..COUNTERS as u64).map(|nth| nth * full()..(nth + 1) * full())
}

/// The counters of an accepted text.
pub fn counters(text: &[u8]) -> Counters {
    let mut counters = [0; COUNTERS];
    for range in ground_of_text(text) {
        let mut from = range.start;
        while from < range.end {
            let nth = from / full();
            let to = range.end.min((nth + 1) * full());
            counters[nth as usize] += to - from;
            from = to;
        }
    }
    counters
}

/// The summary of a text; refuses 13, 10, 9.
pub fn summarize(text: &[u8]) -> TextAnswer<Summary> {
    checked_text(text)?;
    let (n, s) = arrangement_of_text(text);
    Ok(Summary {
        n,
        s,
        counters: counters(text),
    })
}

/// "Answered from the counters, yes exactly when each one inside the cell is 9^13"; refuses 5 "for a
/// kept n or s above 3", 4, "2 for a finer cell asked, after 4", "14 for a question of another
/// arrangement than the one kept".
pub fn question(n: u64, s: u64, counters: &Counters, code: u64) -> Answer<bool> {
    if n > 3 || s > 3 {
        return Err(5);
    }
    let asked = span_of(code).ok_or(4u64)?;
    if resolution_of(code) > 2 {
        return Err(2);
    }
    if arrangement_of(code) != (n, s) {
        return Err(14);
    }
    let inside = |of: &Span| asked.start <= of.start && of.end <= asked.end;
    Ok(districts()
        .zip(counters)
        .filter(|(of, _)| inside(of))
        .all(|(_, &count)| count == full()))
}

/// What `coverage summary FILE` prints: each district that has anything, with its name, its count,
/// and `done` or the percentage, cut to a whole number; or the refusal number.
pub fn printed(text: &[u8]) -> String {
    let kept = match summarize(text) {
        Ok(kept) => kept,
        Err(Refused { refusal, .. }) => return format!("{refusal}\n"),
    };
    let line = |(of, count): (Span, u64)| {
        let name = String::from_utf8(name_of_span(&of)).expect("a name");
        match count {
            0 => String::new(),
            _ if count == full() => format!("{name} {count} done\n"),
            _ => format!("{name} {count} {}%\n", 100 * count / full()),
        }
    };
    districts().zip(kept.counters).map(line).collect()
}

/// What `coverage summary FILE NAME` prints. The name is read first, in the text's arrangement.
pub fn printed_answer(text: &[u8], name: &Name) -> String {
    let answer = || -> TextAnswer<bool> {
        name_code(0, 0, name)?;
        let kept = summarize(text)?;
        let code = code_of(kept.n, kept.s, name);
        Ok(question(kept.n, kept.s, &kept.counters, code)?)
    };
    match answer() {
        Ok(true) => "yes\n".into(),
        Ok(false) => "no\n".into(),
        Err(Refused { refusal, .. }) => format!("{refusal}\n"),
    }
}
