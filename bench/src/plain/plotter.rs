//! Marks and frames in metres: the plane's numbers times the side, then divided by the side of a face in units.

use super::codes::{arrangement, cell_of};
use super::THREE;
use jeguarivo::{Frame, FrameAnswer, MarkAnswer};

/// The side of a face in units, M.
const UNITS: i64 = 28_697_814;

fn is_side(side: f64) -> bool {
    (1.0..=1_073_741_824.0).contains(&side)
}

fn metres(units: i64, side: f64) -> f64 {
    units as f64 * side / UNITS as f64
}

/// Whether a point is in the belt, or in N or S without their outer edges.
fn in_image(n: u64, s: u64, x: i64, y: i64) -> bool {
    let above = |face: u64| {
        let left = face as i64 * UNITS;
        left < x && x < left + UNITS
    };
    if y > UNITS / 2 {
        y < UNITS / 2 * 3 && above(n)
    } else if y < -UNITS / 2 {
        y > -UNITS / 2 * 3 && above(s)
    } else {
        (0..4 * UNITS).contains(&x)
    }
}

#[inline(never)]
pub extern "C" fn mark_point(side: f64, n: u64, s: u64, x: i64, y: i64) -> MarkAnswer {
    if !is_side(side) {
        return MarkAnswer::refused(19);
    }
    if n > 3 || s > 3 {
        return MarkAnswer::refused(5);
    }
    if !in_image(n, s, x, y) {
        return MarkAnswer::refused(7);
    }
    MarkAnswer {
        refusal: 0,
        kind: 1,
        numbers: [metres(x, side), metres(y, side), 0.0, 0.0],
    }
}

/// The box of a code's cell, or 19 or 4.
fn box_of(side: f64, code: u64) -> Result<Frame, u64> {
    if !is_side(side) {
        return Err(19);
    }
    let cell = cell_of(code).ok_or(4u64)?;
    let (n, s) = arrangement(code);
    let (face, above) = match cell.face {
        0 => (n, UNITS / 2 * 3),
        5 => (s, -UNITS / 2),
        face => (face - 1, UNITS / 2),
    };
    let cell_side = UNITS / THREE[cell.resolution as usize] as i64;
    let left = face as i64 * UNITS + cell.column as i64 * cell_side;
    let top = above - cell.row as i64 * cell_side;
    Ok(Frame {
        left: metres(left, side),
        bottom: metres(top - cell_side, side),
        right: metres(left + cell_side, side),
        top: metres(top, side),
    })
}

#[inline(never)]
pub extern "C" fn mark_code(side: f64, code: u64) -> MarkAnswer {
    match box_of(side, code) {
        Ok(edges) => MarkAnswer {
            refusal: 0,
            kind: 2,
            numbers: [edges.left, edges.bottom, edges.right, edges.top],
        },
        Err(refusal) => MarkAnswer::refused(refusal),
    }
}

fn answer(frame: Result<Frame, u64>) -> FrameAnswer {
    match frame {
        Ok(edges) => FrameAnswer {
            refusal: 0,
            left: edges.left,
            bottom: edges.bottom,
            right: edges.right,
            top: edges.top,
        },
        Err(refusal) => FrameAnswer::refused(refusal),
    }
}

#[inline(never)]
pub extern "C" fn frame_first(side: f64, code: u64) -> FrameAnswer {
    answer(box_of(side, code))
}

#[inline(never)]
pub extern "C" fn frame_grow(side: f64, frame: Frame, code: u64) -> FrameAnswer {
    let edges = [frame.left, frame.bottom, frame.right, frame.top];
    if !is_side(side) || edges.iter().any(|edge| edge.is_nan()) {
        return FrameAnswer::refused(19);
    }
    let further = |out: bool, own: f64, other: f64| if out { other } else { own };
    answer(box_of(side, code).map(|other| Frame {
        left: further(other.left < frame.left, frame.left, other.left),
        bottom: further(other.bottom < frame.bottom, frame.bottom, other.bottom),
        right: further(other.right > frame.right, frame.right, other.right),
        top: further(other.top > frame.top, frame.top, other.top),
    }))
}
