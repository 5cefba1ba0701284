//! Document 02's W-202, naming a whole season's log: codes into rows and columns, and back, many at a time. "The old path
//! stays, and both agree on every cell and refusal", so a batch is here the old path once for each code or cell.

use crate::grid::{cell_code, code_cell, Answer};

/// The numbers of a cell that comes from a code: its refusal, n, s, face, resolution, row, column.
pub const SEVEN: usize = 7;

/// The numbers of a cell that is to get a code: the same without the refusal.
pub const SIX: usize = 6;

/// The numbers that it gets: its refusal and code.
pub const TWO: usize = 2;

/// "A bad code gets its own refusal and zeros in its place."
pub fn numbers_of(code: u64) -> [u64; SEVEN] {
    match code_cell(code) {
        Ok((n, s, at)) => [0, n, s, at.face, at.resolution, at.row, at.column],
        Err(refusal) => [refusal, 0, 0, 0, 0, 0, 0],
    }
}

/// "A bad cell gets its own refusal and zeros in its place."
pub fn code_of(cell: [u64; SIX]) -> [u64; TWO] {
    let [n, s, face, resolution, row, column] = cell;
    match cell_code(n, s, face, resolution, row, column) {
        Ok(code) => [0, code],
        Err(refusal) => [refusal, 0],
    }
}

/// Puts an answer at the front of lent numbers; refuses 8 "only where the room is short, and then nothing is changed".
fn lend(answer: &[u64], lent: &mut [u64]) -> Answer<()> {
    let own = lent.get_mut(..answer.len()).ok_or(8u64)?;
    own.copy_from_slice(answer);
    Ok(())
}

/// The numbers of each code, one after the other, and how many codes there are.
pub fn code_cells(codes: &[u64], lent: &mut [u64]) -> Answer<u64> {
    let numbers: Vec<u64> = codes.iter().flat_map(|&code| numbers_of(code)).collect();
    lend(&numbers, lent)?;
    Ok(codes.len() as u64)
}

/// The code of each cell, of six numbers, and how many cells there are; fewer than six at the end are no cell.
pub fn cell_codes(numbers: &[u64], lent: &mut [u64]) -> Answer<u64> {
    let cells = numbers.chunks_exact(SIX);
    let count = cells.len() as u64;
    let cell = |numbers: &[u64]| numbers.try_into().expect("six numbers");
    let codes: Vec<u64> = cells.flat_map(|numbers| code_of(cell(numbers))).collect();
    lend(&codes, lent)?;
    Ok(count)
}
