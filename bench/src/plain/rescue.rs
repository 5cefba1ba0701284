//! Hand-edited texts made proper: the whole cells are sorted by their codes, then those named already or inside another are left out and nine siblings
//! become their parent; the changes are sorted by place and kind.

use super::coverage::LONGEST;
use super::writing::{merged, text_of, FULL};
use super::NINE;
use jeguarivo::Rescue;

/// What a text of the looser form holds: the code and place of each letter and digit that is whole and of each with a list, and what was changed so far,
/// each 8 times its place plus its kind.
#[derive(Default)]
struct Found {
    wholes: Vec<(u64, u64)>,
    lists: Vec<(u64, u64)>,
    changes: Vec<u64>,
}

/// The heading's refusal 13, 10 or 9, with the place. Version 1 only.
fn heading(text: &[u8]) -> Result<(), (u64, u64)> {
    if text.len() > LONGEST {
        return Err((13, 0));
    }
    if text.len() >= 5 && &text[..3] == b"CVR" && text[3..5] != [0, 1] {
        return Err((10, 0));
    }
    let right = |at: usize, byte: u8| match at {
        5 | 6 => (b'0'..=b'3').contains(&byte),
        _ => byte == b"CVR\0\x01"[at],
    };
    match (0..7).find(|&at| !text.get(at).is_some_and(|&byte| right(at, byte))) {
        Some(at) => Err((9, at as u64)),
        None => Ok(()),
    }
}

/// One pass over the text, with the changes of kind 2 and 3.
fn read(text: &[u8]) -> Result<Found, (u64, u64)> {
    heading(text)?;
    let mut found = Found::default();
    let (mut starts, mut lasts, mut depth, mut at) = ([0; 16], [0; 16], 0, 7);
    while at < text.len() {
        let (byte, place) = (text[at], at as u64);
        let digit = match byte {
            b'N'..=b'S' if depth == 0 => byte - b'N',
            b'0'..=b'8' if depth > 0 => byte - b'0',
            b')' if depth > 0 => {
                depth -= 1;
                at += 1;
                continue;
            }
            _ => return Err((9, place)),
        };
        if byte <= lasts[depth] {
            found.changes.push(place << 3 | 2);
        }
        lasts[depth] = byte;
        let start = starts[depth] + digit as u64 * NINE[15 - depth];
        let code = start << 8 | (depth as u64) << 4;
        if depth < 15 && text.get(at + 1) == Some(&b'(') {
            found.lists.push((code, place));
            if text.get(at + 2) == Some(&b')') {
                found.changes.push((place + 1) << 3 | 3);
            }
            depth += 1;
            starts[depth] = start;
            lasts[depth] = 0;
            at += 2;
        } else {
            found.wholes.push((code, place));
            at += 1;
        }
    }
    match depth {
        0 => Ok(found),
        _ => Err((9, at as u64)),
    }
}

fn end_of(code: u64) -> u64 {
    (code >> 8) + NINE[15 - (code >> 4 & 15) as usize]
}

/// The codes of the whole cells, rising, none twice or inside another; the others are changes of kind 1.
fn thinned(mut wholes: Vec<(u64, u64)>, changes: &mut Vec<u64>) -> Vec<u64> {
    wholes.sort_unstable();
    let (mut kept, mut end) = (Vec::with_capacity(wholes.len()), 0);
    for (code, place) in wholes {
        if code >> 8 < end {
            changes.push(place << 3 | 1);
        } else {
            kept.push(code);
            end = end_of(code);
        }
    }
    kept
}

/// The cells of the answer, without n and s, that are no whole cells of the text.
fn made(cells: &[u64], kept: &[u64]) -> Vec<u64> {
    let (mut made, mut kept) = (Vec::new(), kept.iter().peekable());
    for &cell in cells {
        if kept.next_if(|&&code| code >> 4 == cell).is_none() {
            made.push(cell);
            let end = end_of(cell << 4);
            while kept.next_if(|&&code| code >> 8 < end).is_some() {}
        }
    }
    made
}

/// The changes of kind 4: the first letter or digit of each of these cells.
fn firsts(made: &[u64], lists: &[(u64, u64)], changes: &mut Vec<u64>) {
    if made.is_empty() {
        return;
    }
    let mut met = vec![false; made.len()];
    for (code, place) in lists {
        if let Ok(nth) = made.binary_search(&(code >> 4)) {
            if !std::mem::replace(&mut met[nth], true) {
                changes.push(place << 3 | 4);
            }
        }
    }
}

fn refused(refusal: u64, place: u64) -> Rescue {
    Rescue {
        place,
        ..Rescue::refused(refusal)
    }
}

#[inline(never)]
pub extern "C" fn coverage_rescue(
    text: *const u8,
    length: usize,
    proper: *mut u8,
    room: usize,
    changes: *mut u64,
    change_room: usize,
) -> Rescue {
    let text = unsafe { std::slice::from_raw_parts(text, length) };
    let mut found = match read(text) {
        Ok(found) => found,
        Err((refusal, place)) => return refused(refusal, place),
    };
    let kept = thinned(found.wholes, &mut found.changes);
    let cells = merged(&kept);
    firsts(&made(&cells, &kept), &found.lists, &mut found.changes);
    let (n, s) = ((text[5] - b'0') as u64, (text[6] - b'0') as u64);
    let written = text_of(FULL, n, s, &cells);
    if written.len() > room || 2 * found.changes.len() > change_room {
        return refused(8, 0);
    }
    found.changes.sort_unstable();
    unsafe { std::slice::from_raw_parts_mut(proper, written.len()) }.copy_from_slice(&written);
    let lent = unsafe { std::slice::from_raw_parts_mut(changes, 2 * found.changes.len()) };
    for (pair, change) in lent.chunks_exact_mut(2).zip(&found.changes) {
        pair.copy_from_slice(&[change >> 3, change & 7]);
    }
    Rescue {
        refusal: 0,
        place: 0,
        length: written.len() as u64,
        changes: found.changes.len() as u64,
    }
}
