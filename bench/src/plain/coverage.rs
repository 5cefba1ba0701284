//! Coverage texts, read in one pass with a stack of levels: check, list and ask.

use super::codes::{arrangement, parts};
use super::NINE;
use jeguarivo::{Ask, Check, List};

pub const LONGEST: usize = 65_536;

/// What a text's heading says of its body: its version, the greatest depth, and where it starts. At version 2 N and S stand only whole.
#[derive(Clone, Copy)]
struct Heading {
    version: u64,
    depth: usize,
    body: usize,
}

/// The list that is open at a depth: its last digit and one, the number of its whole nodes, and the number of finest cells before
/// the cell that it divides.
#[derive(Clone, Copy, Default)]
struct Level {
    next: u8,
    whole: u8,
    start: u64,
}

impl Level {
    fn new(start: u64) -> Level {
        Level {
            next: 0,
            whole: 0,
            start,
        }
    }
}

/// The heading, or its refusal 13, 10 or 9, with the place.
fn heading(text: &[u8]) -> Result<Heading, (u64, u64)> {
    if text.len() > LONGEST {
        return Err((13, 0));
    }
    if text.len() >= 5 && &text[..3] == b"CVR" && (text[3] != 0 || !(1..=2).contains(&text[4])) {
        return Err((10, 0));
    }
    let right = |at: usize, byte: u8| match at {
        0..=2 => byte == b"CVR"[at],
        3 => byte == 0,
        4 => byte == 1 || byte == 2,
        5 | 6 => (b'0'..=b'3').contains(&byte),
        _ => (b'a'..=b'p').contains(&byte),
    };
    let body = match text.get(4) {
        Some(2) => 8,
        _ => 7,
    };
    if let Some(at) = (0..body).find(|&at| !text.get(at).is_some_and(|&byte| right(at, byte))) {
        return Err((9, at as u64));
    }
    Ok(read_heading(text))
}

/// The heading of a text whose heading is known to be good.
fn read_heading(text: &[u8]) -> Heading {
    match text[4] {
        1 => Heading {
            version: 1,
            depth: 15,
            body: 7,
        },
        _ => Heading {
            version: 2,
            depth: (text[7] - b'a') as usize,
            body: 8,
        },
    }
}

/// Reads a text and calls `visit(depth, start, whole)` for each letter and digit: the resolution of its cell, the finest cells before that, and
/// whether it is whole.
#[inline(always)]
fn read(text: &[u8], mut visit: impl FnMut(usize, u64, bool)) -> Result<Heading, (u64, u64)> {
    let heading = heading(text)?;
    let (deepest, caps) = (heading.depth, heading.version == 1);
    let (mut levels, mut depth, mut at) = ([Level::default(); 16], 0, heading.body);
    while at < text.len() {
        let level = &mut levels[depth];
        let digit = match text[at] {
            letter @ b'N'..=b'S' if depth == 0 => letter - b'N',
            digit @ b'0'..=b'8' if depth > 0 => digit - b'0',
            b')' if depth > 0 && level.next > 0 && level.whole < 9 => {
                depth -= 1;
                at += 1;
                continue;
            }
            _ => return Err((9, at as u64)),
        };
        if digit < level.next {
            return Err((9, at as u64));
        }
        level.next = digit + 1;
        let start = level.start + digit as u64 * NINE[15 - depth];
        if depth < deepest
            && text.get(at + 1) == Some(&b'(')
            && (depth > 0 || caps || (1..5).contains(&digit))
        {
            visit(depth, start, false);
            depth += 1;
            levels[depth] = Level::new(start);
            at += 2;
        } else {
            level.whole += 1;
            if depth > 0 && level.whole == 9 && (depth == deepest || at + 1 < text.len()) {
                return Err((9, at as u64 + (depth < deepest) as u64));
            }
            visit(depth, start, true);
            at += 1;
        }
    }
    match depth {
        0 => Ok(heading),
        _ => Err((9, at as u64)),
    }
}

/// The same walk over a text that is known to be accepted.
#[inline(always)]
pub fn walk(text: &[u8], mut visit: impl FnMut(usize, u64)) {
    let (mut starts, mut depth) = ([0; 17], 0);
    let mut bytes = text[read_heading(text).body..].iter().peekable();
    while let Some(&byte) = bytes.next() {
        if byte == b')' {
            depth -= 1;
            continue;
        }
        let digit = byte - if depth == 0 { b'N' } else { b'0' };
        let start = starts[depth] + digit as u64 * NINE[15 - depth];
        if bytes.next_if(|&&byte| byte == b'(').is_some() {
            depth += 1;
            starts[depth] = start;
        } else {
            visit(depth, start);
        }
    }
}

pub fn checked(text: &[u8]) -> Check {
    let (mut cells, mut size) = (0, 0);
    match read(text, |depth, _, whole| {
        if whole {
            cells += 1;
            size += NINE[15 - depth];
        }
    }) {
        Ok(heading) => Check {
            refusal: 0,
            place: 0,
            version: heading.version,
            depth: heading.depth as u64,
            n: (text[5] - b'0') as u64,
            s: (text[6] - b'0') as u64,
            cells,
            size,
        },
        Err((refusal, place)) => Check {
            place,
            ..Check::refused(refusal)
        },
    }
}

#[inline(never)]
pub extern "C" fn coverage_check(text: *const u8, length: usize) -> Check {
    checked(unsafe { std::slice::from_raw_parts(text, length) })
}

#[inline(never)]
pub extern "C" fn coverage_list(
    text: *const u8,
    length: usize,
    codes: *mut u64,
    room: usize,
) -> List {
    let text = unsafe { std::slice::from_raw_parts(text, length) };
    let check = checked(text);
    if check.refusal != 0 {
        return List {
            place: check.place,
            ..List::refused(check.refusal)
        };
    }
    if check.cells > room as u64 {
        return List::refused(8);
    }
    let mut codes =
        unsafe { std::slice::from_raw_parts_mut(codes, check.cells as usize) }.iter_mut();
    let both = (check.n << 2) | check.s;
    walk(text, |depth, start| {
        if let Some(code) = codes.next() {
            *code = (start << 8) | (depth as u64) << 4 | both;
        }
    });
    List {
        refusal: 0,
        place: 0,
        count: check.cells,
    }
}

/// No list holds nine whole nodes, so a cell is covered exactly where one whole cell holds it. Codes rise as the letters and digits stand, so a later
/// one exists where not all are counted.
#[inline(never)]
pub extern "C" fn coverage_ask(text: *const u8, length: usize, code: u64) -> Ask {
    let text = unsafe { std::slice::from_raw_parts(text, length) };
    if parts(code).is_none() {
        return Ask::refused(4);
    }
    let (n, s) = arrangement(code);
    let (first, size) = (code >> 8, NINE[15 - (code >> 4 & 15) as usize]);
    let (mut covered, mut not_above, mut all) = (false, 0, 0);
    let read = read(text, |depth, start, whole| {
        covered |= whole && start <= first && first + size <= start + NINE[15 - depth];
        not_above += ((start << 4 | depth as u64) <= code >> 4) as u64;
        all += 1;
    });
    match read {
        Err((refusal, place)) => Ask {
            place,
            ..Ask::refused(refusal)
        },
        Ok(_) if text[5..7] != [b'0' + n as u8, b'0' + s as u8] => Ask::refused(14),
        Ok(_) => Ask {
            refusal: 0,
            place: 0,
            covered: covered as u64,
            settled: not_above + (not_above < all) as u64,
        },
    }
}
