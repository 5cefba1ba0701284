//! Many codes to cells and back, one after the other and digit by digit. A cell is seven numbers with its refusal first, and six without.

use super::codes::{arrangement, cell_of, code_of};
use super::{Place, THREE};
use jeguarivo::Count;
use std::slice::{from_raw_parts, from_raw_parts_mut};

fn seven(code: u64) -> [u64; 7] {
    let (n, s) = arrangement(code);
    match cell_of(code) {
        Some(Place {
            face,
            resolution,
            row,
            column,
        }) => [0, n, s, face, resolution, row, column],
        None => [4, 0, 0, 0, 0, 0, 0],
    }
}

fn two(cell: &[u64]) -> [u64; 2] {
    let &[n, s, face, resolution, row, column] = cell else {
        unreachable!("six numbers")
    };
    if n > 3 || s > 3 {
        return [5, 0];
    }
    if resolution > 15 {
        return [2, 0];
    }
    if face > 5 {
        return [1, 0];
    }
    let m = THREE[resolution as usize];
    if row >= m || column >= m {
        return [3, 0];
    }
    let place = Place {
        face,
        resolution,
        row,
        column,
    };
    [0, code_of(n, s, place)]
}

fn answered(count: usize) -> Count {
    Count {
        refusal: 0,
        count: count as u64,
    }
}

#[inline(never)]
pub unsafe extern "C" fn code_cells(
    codes: *const u64,
    count: usize,
    numbers: *mut u64,
    room: usize,
) -> Count {
    if room / 7 < count {
        return Count::refused(8);
    }
    let (codes, numbers) = unsafe {
        (
            from_raw_parts(codes, count),
            from_raw_parts_mut(numbers, room),
        )
    };
    for (&code, cell) in codes.iter().zip(numbers.chunks_exact_mut(7)) {
        cell.copy_from_slice(&seven(code));
    }
    answered(count)
}

#[inline(never)]
pub unsafe extern "C" fn cell_codes(
    numbers: *const u64,
    count: usize,
    codes: *mut u64,
    room: usize,
) -> Count {
    if room / 2 < count / 6 {
        return Count::refused(8);
    }
    let (numbers, codes) = unsafe {
        (
            from_raw_parts(numbers, count),
            from_raw_parts_mut(codes, room),
        )
    };
    for (cell, code) in numbers.chunks_exact(6).zip(codes.chunks_exact_mut(2)) {
        code.copy_from_slice(&two(cell));
    }
    answered(count / 6)
}
