//! One cell more in a text, in place: one run of bytes is put in or taken out, found on the way down to the cell.

use super::codes::{arrangement, parts};
use super::coverage::{coverage_check, LONGEST};
use jeguarivo::Add;

/// What makes a text cover a cell too: nothing; the name's bytes from one on, each in the list of the one before it, put in at a place; the bytes from one
/// place to before another taken out. Or the nodes of a list are nine whole ones then, and they end at a place.
enum Edit {
    Covered,
    Put { at: usize, from: usize },
    Cut { from: usize, to: usize },
    Full { end: usize },
}

/// The bytes of a cell's name, and how many they are.
fn name(code: u64) -> ([u8; 16], usize) {
    let (face, mut path, resolution) = parts(code).expect("a cell's code");
    let mut name = [0; 16];
    name[0] = b'N' + face as u8;
    for i in (1..=resolution as usize).rev() {
        name[i] = b'0' + (path % 9) as u8;
        path /= 9;
    }
    (name, 1 + resolution as usize)
}

/// Whether the node at a place holds no list.
fn is_whole(text: &[u8], at: usize) -> bool {
    text.get(at + 1) != Some(&b'(')
}

/// The place behind the node that holds a list.
fn past_list(text: &[u8], at: usize) -> usize {
    let mut depth = 0;
    for (i, &byte) in text[at + 1..].iter().enumerate() {
        depth += (byte == b'(') as usize;
        depth -= (byte == b')') as usize;
        if depth == 0 {
            return at + 2 + i;
        }
    }
    text.len()
}

/// How many whole nodes stand from a place on.
fn run(text: &[u8], at: usize) -> usize {
    let stands = |i: &usize| text[*i] != b')' && is_whole(text, *i);
    (at..text.len()).take_while(stands).count()
}

/// The node at a place, whose bytes end at another, becomes whole.
fn becomes_whole(text: &[u8], at: usize, end: usize, wholes: usize) -> Edit {
    let after = run(text, end);
    if wholes + 1 + after == 9 {
        return Edit::Full { end: end + after };
    }
    Edit::Cut {
        from: at + 1,
        to: end,
    }
}

/// What makes the nodes from a place on cover the cell of the name's bytes from the k-th on.
fn edit_at(text: &[u8], from: usize, name: &[u8], k: usize) -> Edit {
    let (byte, last) = (name[k], k + 1 == name.len());
    let (mut at, mut wholes) = (from, 0);
    while at < text.len() && text[at] != b')' && text[at] < byte {
        if is_whole(text, at) {
            wholes += 1;
            at += 1;
        } else {
            at = past_list(text, at);
        }
    }
    if text.get(at) != Some(&byte) {
        let after = if last { run(text, at) } else { 0 };
        return match last && wholes + 1 + after == 9 {
            true => Edit::Full { end: at + after },
            false => Edit::Put { at, from: k },
        };
    }
    if is_whole(text, at) {
        return Edit::Covered;
    }
    if last {
        return becomes_whole(text, at, past_list(text, at), wholes);
    }
    match edit_at(text, at + 2, name, k + 1) {
        Edit::Full { end } => becomes_whole(text, at, end + 1, wholes),
        edit => edit,
    }
}

/// Adds a cell to the accepted text that the first `end` bytes are: its length then, or 15, 13 or 8.
pub fn add_to(text: &mut [u8], end: usize, code: u64) -> Result<usize, u64> {
    let (bytes, count) = name(code);
    let name = &bytes[..count];
    let (body, depth, caps) = match text[4] {
        1 => (7, 15, true),
        _ => (8, (text[7] - b'a') as usize, false),
    };
    let edit = edit_at(&text[..end], body, name, 0);
    let cap = name[0] == b'N' || name[0] == b'S';
    let outside = count - 1 > if cap && !caps { 0 } else { depth };
    match edit {
        Edit::Covered => Ok(end),
        _ if outside => Err(15),
        Edit::Full { .. } => Ok(end),
        Edit::Cut { from, to } => {
            text.copy_within(to..end, from);
            Ok(end - (to - from))
        }
        Edit::Put { at, from } => put(text, end, &name[from..], at),
    }
}

/// Puts bytes in at a place, each in the list of the one before it.
fn put(text: &mut [u8], end: usize, name: &[u8], at: usize) -> Result<usize, u64> {
    let more = 3 * name.len() - 2;
    if end + more > LONGEST {
        return Err(13);
    }
    if end + more > text.len() {
        return Err(8);
    }
    text.copy_within(at..end, at + more);
    for (i, &byte) in name.iter().enumerate() {
        text[at + 2 * i] = byte;
        if i + 1 < name.len() {
            text[at + 2 * i + 1] = b'(';
        }
    }
    text[at + 2 * name.len() - 1..at + more].fill(b')');
    Ok(end + more)
}

#[inline(never)]
pub extern "C" fn coverage_add(text: *mut u8, room: usize, length: u64, code: u64) -> Add {
    let text = unsafe { std::slice::from_raw_parts_mut(text, room) };
    if parts(code).is_none() {
        return Add::refused(4);
    }
    if length > LONGEST as u64 {
        return Add::refused(13);
    }
    if length > room as u64 {
        return Add::refused(8);
    }
    let check = coverage_check(text.as_ptr(), length as usize);
    if check.refusal != 0 {
        return Add {
            place: check.place,
            ..Add::refused(check.refusal)
        };
    }
    if arrangement(code) != (check.n, check.s) {
        return Add::refused(14);
    }
    match add_to(text, length as usize, code) {
        Ok(length) => Add {
            length: length as u64,
            ..Add::refused(0)
        },
        Err(refusal) => Add::refused(refusal),
    }
}
