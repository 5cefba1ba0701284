//! Document 01's "From a fix to a cell": the cell of a fix, and the ground nucleus; with 02's
//! W-201, by which a longitude may be 1,800,000,000.
//!
//! Again a cell is a name. The digits of a row and of a column are found one by one, each the
//! greatest whose edge isn't past the fix; where a root comes in, that is decided by signs and
//! by squares of whole numbers, so nothing is ever rounded.

use crate::big::Whole;
use crate::grid::{cell_of, code_of, face_square, nucleus, Answer, Arranged};
use crate::grid::{FINEST, LETTERS, M};

/// z = 1, in its units.
pub const ONE: i64 = 1_000_000_000_000_000_000;

/// Half a turn, and the quarter turn of one face, in units of longitude.
pub const HALF_TURN: i64 = 1_800_000_000;
pub const QUARTER: i64 = 900_000_000;

/// Is the fix in the belt? "3|z| <= 2 x 10^18".
pub fn in_belt(z: i64) -> bool {
    3 * i128::from(z).abs() <= 2 * i128::from(ONE)
}

/// The first k ternary digits of a value from 0 on and below 1, which is known only by whether
/// w/m is at most the value. So floor(m value) is the number that the digits spell: each digit
/// is the greatest that keeps w/m at most the value, and 0 always does.
fn ternary_digits(resolution: u64, at_most: impl Fn(i128, i128) -> bool) -> Vec<u8> {
    assert!(at_most(0, 1) && !at_most(1, 1), "a value off its face");
    let (mut w, mut m) = (0, 1);
    let mut digits = Vec::new();
    for _ in 0..resolution {
        (w, m) = (3 * w, 3 * m);
        let fits = |digit: &u8| at_most(w + i128::from(*digit), m);
        let digit = [2, 1].into_iter().find(fits).unwrap_or(0);
        w += i128::from(digit);
        digits.push(digit);
    }
    digits
}

/// The name of a face, and digits of a row and a column.
fn name_by_digits(face: u64, rows: &[u8], columns: &[u8]) -> Vec<u8> {
    let mut name = vec![LETTERS[face as usize]];
    name.extend(rows.iter().zip(columns).map(|(r, c)| b'0' + 3 * r + c));
    name
}

/// "Belt: face c of O to R, column floor(a m / 900,000,000), row
/// floor(m (2 x 10^18 - 3z) / (4 x 10^18))."
fn belt_cell(resolution: u64, c: u64, a: i64, z: i64) -> Vec<u8> {
    let (a, z, one) = (i128::from(a), i128::from(z), i128::from(ONE));
    let columns = ternary_digits(resolution, |w, m| w * i128::from(QUARTER) <= m * a);
    let rows = ternary_digits(resolution, |w, m| w * 4 * one <= m * (2 * one - 3 * z));
    name_by_digits(c + 1, &rows, &columns)
}

/// The digits of 1/2 + x h / 1,800,000,000, with h = sqrt(root) / 10^9. That w/m is at most this
/// is (2w - m) x 9 x 10^17 <= m x sqrt(root): "decided by sign and by whole-number squares".
pub fn digits_over_root(resolution: u64, x: i128, root: u128) -> Vec<u8> {
    let square = |value: i128| Whole::new((value * value) as u128);
    let under_root = square(x).times(&Whole::new(root));
    ternary_digits(resolution, |w, m| {
        let left = (2 * w - m) * (i128::from(ONE) / 10 * 9);
        let left_square = || Whole::new(left.unsigned_abs()).squared();
        let right_square = || square(m).times(&under_root);
        match (left > 0, x > 0) {
            (false, true) => true,
            (true, false) => false,
            (true, true) => left_square() <= right_square(),
            // neither side is above 0, so the one further from it is less
            (false, false) => left_square() >= right_square(),
        }
    })
}

/// One turn of a cap's triangles: "(u, v) -> (-v, u)" in the north, "(u, v) -> (v, -u)" in the
/// south.
fn turned(north: bool, (u, v): (i128, i128)) -> (i128, i128) {
    if north {
        (-v, u)
    } else {
        (v, -u)
    }
}

/// The turns of face c against the face that a cap lies at: (c - at) mod 4.
fn turns(c: u64, at: u64) -> u64 {
    (c as i64 - at as i64).rem_euclid(4) as u64
}

/// "North cap" and "South cap". Here u and v are given in h / 1,800,000,000, which makes
/// t h = (a/900,000,000 - 1/2) h the whole number 2a - 900,000,000, and h/2 900,000,000.
fn cap_cell(north: bool, at: u64, resolution: u64, c: u64, a: i64, z: i64) -> Vec<u8> {
    let quarter = i128::from(QUARTER);
    let start = (
        2 * i128::from(a) - quarter,
        if north { -quarter } else { quarter },
    );
    let (p, q) = (0..turns(c, at)).fold(start, |point, _| turned(north, point));
    let root = 3 * u128::from(ONE.abs_diff(z.abs()));
    let columns = digits_over_root(resolution, p, root);
    let rows = digits_over_root(resolution, -q, root);
    name_by_digits(if north { 0 } else { 5 }, &rows, &columns)
}

/// 02, W-201: 1,800,000,000 "is read as -1,800,000,000, with the same cell".
fn as_read(longitude: i64) -> i64 {
    if longitude == HALF_TURN {
        -HALF_TURN
    } else {
        longitude
    }
}

/// The name of the cell of a fix.
pub fn name_of_fix(n: u64, s: u64, resolution: u64, longitude: i64, z: i64) -> Vec<u8> {
    // "Let c be the quotient and a the remainder of L + 1,800,000,000 by 900,000,000."
    let east = as_read(longitude) + HALF_TURN;
    let (c, a) = ((east / QUARTER) as u64, east % QUARTER);
    if in_belt(z) {
        belt_cell(resolution, c, a, z)
    } else if z > 0 {
        cap_cell(true, n, resolution, c, a, z)
    } else {
        cap_cell(false, s, resolution, c, a, z)
    }
}

/// The code of the cell of a fix; refuses 5, 2, 6.
pub fn fix_code(n: u64, s: u64, resolution: u64, longitude: i64, z: i64) -> Answer<u64> {
    if n > 3 || s > 3 {
        return Err(5);
    }
    if resolution > FINEST {
        return Err(2);
    }
    if !(-HALF_TURN..=HALF_TURN).contains(&longitude) || !(-ONE..=ONE).contains(&z) {
        return Err(6);
    }
    let name = name_of_fix(n, s, resolution, longitude, z);
    Ok(code_of(n, s, &name))
}

// ---------------------------------------------------------------- the ground nucleus

/// A fraction's floor: the whole number w with w <= value < w + 1. The divisor is above 0.
fn floor(numerator: i128, divisor: i128) -> i64 {
    let near = numerator / divisor;
    [near - 1, near]
        .into_iter()
        .find(|w| w * divisor <= numerator && numerator < (w + 1) * divisor)
        .expect("a cut fraction is less than 1 off") as i64
}

/// The ground point of a belt point: a/900,000,000 is the way along the face, and the row's rule
/// 1/2 - Y/M = (2 x 10^18 - 3z) / (4 x 10^18) gives z = 4 x 10^18 Y / (3M).
fn belt_ground(c: u64, x: i64, y: i64) -> (i64, i64) {
    let along = i128::from(x - c as i64 * M) * i128::from(QUARTER);
    let east = floor(along, i128::from(M)) + c as i64 * QUARTER;
    let z = floor(4 * i128::from(ONE) * i128::from(y), 3 * i128::from(M));
    (east - HALF_TURN, z)
}

/// Does a point, turned back, lie in the triangle where a face's turns start? There v = -h/2 and
/// u = t h with -1/2 <= t < 1/2 (in the south v = +h/2). "On a seam of two triangles the point
/// counts as the western edge (t = -1/2) of the eastern one."
fn in_triangle(north: bool, (u, v): (i128, i128)) -> bool {
    let half = if north { -v } else { v };
    half > 0 && -half <= u && u < half
}

/// The ground point of a cap's point, given from the middle of the cap in units, so p = x/M and
/// q = y/M. With u and v in units too, h = 2|v|/M, t = u/(2|v|), and h h = 3 (1 - |z|) gives
/// |z| = 1 - 4 v v / (3 M M).
fn cap_ground(north: bool, at: u64, x: i64, y: i64) -> (i64, i64) {
    if (x, y) == (0, 0) {
        return (-HALF_TURN, if north { ONE } else { -ONE });
    }
    let start = |c: u64| {
        // four turns are none, so the turns left to four lead back
        let back = 4 - turns(c, at);
        (0..back).fold((i128::from(x), i128::from(y)), |to, _| turned(north, to))
    };
    let mut fitting = (0..4).filter(|&c| in_triangle(north, start(c)));
    let c = fitting.next().expect("the four triangles fill the cap");
    assert!(fitting.next().is_none(), "a point in two triangles");
    let (u, v) = start(c);
    let twice = 2 * v.abs();
    let a = floor((2 * u + twice) * i128::from(QUARTER), 2 * twice);
    // at most 3 x 2^50 x 10^18, below 2^112
    let divisor = 3 * i128::from(M) * i128::from(M);
    let z = (divisor - 4 * v * v) * i128::from(ONE);
    let z = floor(if north { z } else { -z }, divisor);
    (a + c as i64 * QUARTER - HALF_TURN, z)
}

/// The longitude and z that the rules, taken over real numbers, send to a point of a face, each
/// floored.
pub fn ground_of_point(n: u64, s: u64, face: u64, x: i64, y: i64) -> (i64, i64) {
    let square = face_square(n, s, face);
    let from_middle = (x - square.left - M / 2, y - square.top + M / 2);
    match face {
        0 => cap_ground(true, n, from_middle.0, from_middle.1),
        5 => cap_ground(false, s, from_middle.0, from_middle.1),
        _ => belt_ground(face - 1, x, y),
    }
}

/// The ground nucleus of a code; refuses 4.
pub fn ground_nucleus(code: u64) -> Answer<(i64, i64)> {
    let (x, y) = nucleus(code)?;
    let Arranged { n, s, name } = cell_of(code).expect("it has a nucleus");
    let face = u64::from(name[0] - b'N');
    Ok(ground_of_point(n, s, face, x, y))
}
