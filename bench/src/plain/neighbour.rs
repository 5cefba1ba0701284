//! Neighbours: out of a code, one step, and into a code again.

use super::codes::{arrangement, cell_of, code_of};
use super::{Place, THREE};
use jeguarivo::Code;

#[inline(never)]
pub extern "C" fn neighbour(code: u64, direction: u64) -> Code {
    if direction > 3 {
        return Code::refused(3);
    }
    let (n, s) = arrangement(code);
    match cell_of(code) {
        Some(cell) => Code {
            refusal: 0,
            code: code_of(n, s, step(n, s, cell, direction)),
        },
        None => Code::refused(4),
    }
}

pub fn step(n: u64, s: u64, cell: Place, direction: u64) -> Place {
    let last = THREE[cell.resolution as usize] - 1;
    let (row, column) = (cell.row, cell.column);
    match direction {
        0 if row > 0 => Place {
            row: row - 1,
            ..cell
        },
        1 if column < last => Place {
            column: column + 1,
            ..cell
        },
        2 if row < last => Place {
            row: row + 1,
            ..cell
        },
        3 if column > 0 => Place {
            column: column - 1,
            ..cell
        },
        _ => across(n, s, cell, direction, last),
    }
}

fn across(n: u64, s: u64, cell: Place, direction: u64, last: u64) -> Place {
    let (row, column) = (cell.row, cell.column);
    let to = |face, row, column| Place {
        face,
        row,
        column,
        ..cell
    };
    match (cell.face, direction) {
        // the edges down, right, up and left of N meet turns 0 to 3
        (0, 2) => to(n + 1, 0, column),
        (0, 1) => to((n + 1) % 4 + 1, 0, last - row),
        (0, 0) => to((n + 2) % 4 + 1, 0, last - column),
        (0, _) => to((n + 3) % 4 + 1, 0, row),
        // the edges up, right, down and left of S meet turns 0 to 3
        (5, 0) => to(s + 1, last, column),
        (5, 1) => to((s + 1) % 4 + 1, last, row),
        (5, 2) => to((s + 2) % 4 + 1, last, last - column),
        (5, _) => to((s + 3) % 4 + 1, last, last - row),
        (face, 1) => to(face % 4 + 1, row, 0),
        (face, 3) => to((face + 2) % 4 + 1, row, last),
        (face, 0) => match (face + 3 - n) % 4 {
            0 => to(0, last, column),
            1 => to(0, last - column, last),
            2 => to(0, 0, last - column),
            _ => to(0, column, 0),
        },
        (face, _) => match (face + 3 - s) % 4 {
            0 => to(5, 0, column),
            1 => to(5, column, last),
            2 => to(5, last, last - column),
            _ => to(5, last - column, 0),
        },
    }
}
