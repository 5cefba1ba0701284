//! Neighbour sheets: at each whole cell of the walk over the text its record is made, and compared or written.

use super::codes::{cell_of, code_of};
use super::coverage::{checked, walk};
use super::neighbour::step;
use jeguarivo::{Sheet, SheetLength};

const RECORD: usize = 40;

/// A code, and its neighbours up, right, down and left, low byte first.
fn record(n: u64, s: u64, code: u64) -> [u8; RECORD] {
    let mut bytes = [0; RECORD];
    bytes[..8].copy_from_slice(&code.to_le_bytes());
    if let Some(cell) = cell_of(code) {
        for direction in 0..4 {
            let beside = code_of(n, s, step(n, s, cell, direction));
            let at = 8 + 8 * direction as usize;
            bytes[at..at + 8].copy_from_slice(&beside.to_le_bytes());
        }
    }
    bytes
}

/// The records of an accepted text, one after the other.
fn records(text: &[u8], n: u64, s: u64, mut visit: impl FnMut([u8; RECORD])) {
    let both = (n << 2) | s;
    walk(text, |depth, start| {
        visit(record(n, s, (start << 8) | (depth as u64) << 4 | both))
    });
}

#[inline(never)]
pub extern "C" fn sheet_check(
    text: *const u8,
    length: usize,
    sheet: *const u8,
    sheet_length: usize,
) -> Sheet {
    let text = unsafe { std::slice::from_raw_parts(text, length) };
    let sheet = unsafe { std::slice::from_raw_parts(sheet, sheet_length) };
    let check = checked(text);
    if check.refusal != 0 {
        return Sheet {
            place: check.place,
            ..Sheet::refused(check.refusal)
        };
    }
    let mut sent = sheet.chunks(RECORD);
    let (mut right, mut agreed) = (true, 0);
    records(text, check.n, check.s, |ours| {
        right = right && sent.next() == Some(&ours[..]);
        agreed += right as u64;
    });
    right = right && sent.next().is_none();
    Sheet {
        refusal: 0,
        place: 0,
        right: right as u64,
        record: if right { 0 } else { agreed },
    }
}

#[inline(never)]
pub extern "C" fn sheet_write(
    text: *const u8,
    length: usize,
    sheet: *mut u8,
    room: usize,
) -> SheetLength {
    let text = unsafe { std::slice::from_raw_parts(text, length) };
    let check = checked(text);
    if check.refusal != 0 {
        return SheetLength {
            place: check.place,
            ..SheetLength::refused(check.refusal)
        };
    }
    let bytes = RECORD * check.cells as usize;
    if room < bytes {
        return SheetLength::refused(8);
    }
    let sheet = unsafe { std::slice::from_raw_parts_mut(sheet, bytes) };
    let mut places = sheet.chunks_mut(RECORD);
    records(text, check.n, check.s, |ours| {
        if let Some(place) = places.next() {
            place.copy_from_slice(&ours);
        }
    });
    SheetLength {
        refusal: 0,
        place: 0,
        length: bytes as u64,
    }
}
