//! A summary kept beside a text: its counters, and questions answered from them.

use super::codes::{arrangement, parts};
use super::coverage::{checked, walk};
use super::NINE;
use jeguarivo::{Summary, SummaryAsk};

/// The finest cells of a cell of resolution 2.
const FULL: u64 = NINE[13];

#[inline(never)]
pub extern "C" fn summary(text: *const u8, length: usize) -> Summary {
    let text = unsafe { std::slice::from_raw_parts(text, length) };
    let check = checked(text);
    if check.refusal != 0 {
        return Summary {
            place: check.place,
            ..Summary::refused(check.refusal)
        };
    }
    let mut counters = [0; 486];
    walk(text, |depth, start| {
        let (first, size) = ((start / FULL) as usize, NINE[15 - depth]);
        if size < FULL {
            counters[first] += size;
        } else {
            let inside = &mut counters[first..first + (size / FULL) as usize];
            inside.iter_mut().for_each(|counter| *counter += FULL);
        }
    });
    Summary {
        refusal: 0,
        place: 0,
        n: check.n,
        s: check.s,
        counters,
    }
}

#[inline(never)]
pub extern "C" fn summary_ask(n: u64, s: u64, counters: &[u64; 486], code: u64) -> SummaryAsk {
    if n > 3 || s > 3 {
        return SummaryAsk::refused(5);
    }
    if parts(code).is_none() {
        return SummaryAsk::refused(4);
    }
    let size = NINE[15 - (code >> 4 & 15) as usize];
    if size < FULL {
        return SummaryAsk::refused(2);
    }
    if arrangement(code) != (n, s) {
        return SummaryAsk::refused(14);
    }
    let first = ((code >> 8) / FULL) as usize;
    let inside = &counters[first..first + (size / FULL) as usize];
    SummaryAsk {
        refusal: 0,
        covered: inside.iter().all(|&counter| counter == FULL) as u64,
    }
}
