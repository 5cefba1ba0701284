//! Codes, cells and names, digit by digit. A code says n and s in its last four bits.

use super::{Place, NINE, THREE};
use jeguarivo::{Cell, Code, Name};

/// 16 times (face x 9^15 + path x 9^(15-k)) x 16 + k, plus 4n + s.
pub fn code_of(n: u64, s: u64, cell: Place) -> u64 {
    let (mut row, mut column, mut path) = (cell.row, cell.column, 0);
    let mut weight = NINE[15 - cell.resolution as usize];
    for _ in 0..cell.resolution {
        path += (row % 3 * 3 + column % 3) * weight;
        weight *= 9;
        row /= 3;
        column /= 3;
    }
    ((cell.face * NINE[15] + path) << 8) | (cell.resolution << 4) | (n << 2) | s
}

/// n and s.
#[inline]
pub fn arrangement(code: u64) -> (u64, u64) {
    (code >> 2 & 3, code & 3)
}

/// The face, the digits as a number below 9^k, and k; or none where a code is no cell's.
#[inline]
pub fn parts(code: u64) -> Option<(u64, u64, u64)> {
    let (resolution, rest) = (code >> 4 & 15, code >> 8);
    if rest >= 6 * NINE[15] {
        return None;
    }
    let unit = NINE[15 - resolution as usize];
    let path = rest % NINE[15];
    if path % unit != 0 {
        return None;
    }
    Some((rest / NINE[15], path / unit, resolution))
}

pub fn cell_of(code: u64) -> Option<Place> {
    let (face, mut path, resolution) = parts(code)?;
    let (mut row, mut column, mut weight) = (0, 0, 1);
    for _ in 0..resolution {
        let digit = path % 9;
        path /= 9;
        row += digit / 3 * weight;
        column += digit % 3 * weight;
        weight *= 3;
    }
    Some(Place {
        face,
        resolution,
        row,
        column,
    })
}

#[inline(never)]
pub extern "C" fn cell_code(
    n: u64,
    s: u64,
    face: u64,
    resolution: u64,
    row: u64,
    column: u64,
) -> Code {
    if n > 3 || s > 3 {
        return Code::refused(5);
    }
    if resolution > 15 {
        return Code::refused(2);
    }
    if face > 5 {
        return Code::refused(1);
    }
    let m = THREE[resolution as usize];
    if row >= m || column >= m {
        return Code::refused(3);
    }
    let place = Place {
        face,
        resolution,
        row,
        column,
    };
    Code {
        refusal: 0,
        code: code_of(n, s, place),
    }
}

#[inline(never)]
pub extern "C" fn code_cell(code: u64) -> Cell {
    let (n, s) = arrangement(code);
    match cell_of(code) {
        Some(Place {
            face,
            resolution,
            row,
            column,
        }) => Cell {
            refusal: 0,
            n,
            s,
            face,
            resolution,
            row,
            column,
        },
        None => Cell::refused(4),
    }
}

#[inline(never)]
pub extern "C" fn name_code(n: u64, s: u64, name: *const u8, length: usize) -> Code {
    if n > 3 || s > 3 {
        return Code::refused(5);
    }
    let name = unsafe { std::slice::from_raw_parts(name, length) };
    if name.len() > 16 {
        return Code::refused(2);
    }
    let Some((&letter, digits)) = name.split_first() else {
        return Code::refused(1);
    };
    if !(b'N'..=b'S').contains(&letter) {
        return Code::refused(1);
    }
    let mut path = (letter - b'N') as u64;
    for &byte in digits {
        let digit = byte.wrapping_sub(b'0');
        if digit > 8 {
            return Code::refused(3);
        }
        path = path * 9 + digit as u64;
    }
    let resolution = digits.len();
    Code {
        refusal: 0,
        code: ((path * NINE[15 - resolution]) << 8) | (resolution as u64) << 4 | (n << 2) | s,
    }
}

#[inline(never)]
pub extern "C" fn code_name(code: u64, name: *mut u8, room: usize) -> Name {
    let Some((face, mut path, resolution)) = parts(code) else {
        return Name::refused(4);
    };
    let length = resolution as usize + 1;
    if room < length {
        return Name::refused(8);
    }
    let name = unsafe { std::slice::from_raw_parts_mut(name, length) };
    for byte in name[1..].iter_mut().rev() {
        *byte = b'0' + (path % 9) as u8;
        path /= 9;
    }
    name[0] = b'N' + face as u8;
    let (n, s) = arrangement(code);
    Name {
        refusal: 0,
        n,
        s,
        length: length as u64,
    }
}
