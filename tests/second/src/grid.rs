//! Document 01's "Faces, rows, names, codes", "The plane" and "Neighbours and shapes", with the
//! codes of document 02's W-210, which say their arrangement, and the cells that meet at a corner
//! of its W-204.
//!
//! A cell is its name here: a face letter, then a digit for each resolution. Codes, rows,
//! squares and neighbours are worked out from the name, one digit at a time, and the way back
//! to a name is a search. Each public entry answers a value or one of 01's refusal numbers.

/// The bytes of a cell's name: a letter `N` to `S`, then up to 15 digits `0` to `8`.
pub type Name = Vec<u8>;

/// What an entry answers: a value, or a refusal number.
pub type Answer<T> = Result<T, u64>;

/// "Faces 0 to 5 are N, O, P, Q, R, S."
pub const LETTERS: [u8; 6] = *b"NOPQRS";

/// The finest resolution.
pub const FINEST: u64 = 15;

/// "A face side is M = 2 x 3^15 = 28,697,814 units."
pub const M: i64 = 28_697_814;

/// Directions: "0 to 3 are up, right, down, left".
pub const UP: u64 = 0;
pub const RIGHT: u64 = 1;
pub const DOWN: u64 = 2;
pub const LEFT: u64 = 3;

/// A cell's place: face, resolution, row and column.
#[derive(Clone, Copy, Debug, PartialEq, Eq)]
pub struct Place {
    pub face: u64,
    pub resolution: u64,
    pub row: u64,
    pub column: u64,
}

/// What a code is of: an arrangement and a cell's name.
#[derive(Clone, Debug, PartialEq, Eq)]
pub struct Arranged {
    pub n: u64,
    pub s: u64,
    pub name: Name,
}

/// A square of the plane, and which of its edges it owns: up, right, down, left.
#[derive(Clone, Copy, Debug, PartialEq, Eq)]
pub struct Square {
    pub left: i64,
    pub top: i64,
    pub side: i64,
    pub owns: [bool; 4],
}

/// 000, section 4, numbered as the entry `jgv_shape` answers them.
#[derive(Clone, Copy, Debug, PartialEq, Eq)]
pub enum Shape {
    Quad = 0,
    Cap = 1,
    Dart = 2,
    SkewQuad = 3,
}

// ---------------------------------------------------------------- names

/// The face of a name: how many letters come before its own.
fn face_of(name: &[u8]) -> u64 {
    u64::from(name[0] - b'N')
}

/// The values of the digits, coarsest first.
fn digits_of(name: &[u8]) -> impl Iterator<Item = u8> + '_ {
    name[1..].iter().map(|byte| byte - b'0')
}

/// The name of a face and digits.
fn name_of(face: u64, digits: &[u8]) -> Name {
    let mut name = vec![LETTERS[face as usize]];
    name.extend(digits.iter().map(|digit| b'0' + digit));
    name
}

/// "Each digit is 3 times the ternary digit of i plus that of j": (row part, column part).
const PARTS: [(u8, u8); 9] = [
    (0, 0),
    (0, 1),
    (0, 2),
    (1, 0),
    (1, 1),
    (1, 2),
    (2, 0),
    (2, 1),
    (2, 2),
];

fn parts(digit: u8) -> (u8, u8) {
    PARTS[usize::from(digit)]
}

/// The other way round.
fn digit_of(row: u8, column: u8) -> u8 {
    row + row + row + column
}

/// 3^k: the cells along a face's side at resolution k.
pub fn cells_along(resolution: u64) -> u64 {
    (0..resolution).fold(1, |m, _| m + m + m)
}

/// "A cell's size is its number of finest cells": nine times that of its children.
pub fn finest_cells(resolution: u64) -> u64 {
    (resolution..FINEST).fold(1, |size, _| size * 9)
}

/// The row and the column that a name's digits spell, in base three each.
fn row_and_column(name: &[u8]) -> (u64, u64) {
    let mut at = (0, 0);
    for digit in digits_of(name) {
        let (row, column) = parts(digit);
        at = (at.0 * 3 + u64::from(row), at.1 * 3 + u64::from(column));
    }
    at
}

/// The name of the cell in this row and column, found by narrowing the face down: of the nine
/// parts of a block of cells, the one that holds the row and the column.
fn name_of_place(place: Place) -> Name {
    let (mut top, mut left, mut side) = (0, 0, cells_along(place.resolution));
    let mut digits = Vec::new();
    for _ in 0..place.resolution {
        side /= 3;
        let start = |digit: u8| {
            let (row, column) = parts(digit);
            (top + u64::from(row) * side, left + u64::from(column) * side)
        };
        let holds = |from: u64, at: u64| from <= at && at < from + side;
        let digit = (0..9)
            .find(|&d| holds(start(d).0, place.row) && holds(start(d).1, place.column))
            .expect("the row and the column are below 3^k");
        (top, left) = start(digit);
        digits.push(digit);
    }
    name_of(place.face, &digits)
}

/// The refusal of bytes that are no name, by the order 2, 1, 3.
fn checked_name(bytes: &[u8]) -> Answer<Name> {
    if bytes.len() > 16 {
        return Err(2);
    }
    match bytes.split_first() {
        Some((letter, rest)) if LETTERS.contains(letter) => {
            let all_digits = rest.iter().all(|byte| b"012345678".contains(byte));
            if all_digits {
                Ok(bytes.to_vec())
            } else {
                Err(3)
            }
        }
        _ => Err(1),
    }
}

// ---------------------------------------------------------------- codes

/// 01's code, "(face x 9^15 + path x 9^(15-k)) x 16 + k". The bracket is the number of finest
/// cells that come before the cell: whole faces, then for each digit whole cells of its size.
pub fn old_code_of(name: &[u8]) -> u64 {
    let mut size = finest_cells(0);
    let mut before = face_of(name) * size;
    for digit in digits_of(name) {
        size /= 9;
        before += u64::from(digit) * size;
    }
    before * 16 + (name.len() as u64 - 1)
}

/// "A code becomes 16 times the old code, plus 4n + s."
pub fn code_of(n: u64, s: u64, name: &[u8]) -> u64 {
    16 * old_code_of(name) + 4 * n + s
}

/// The n and s with this 4n + s; 4n + s is below 16, so what is over a multiple of 16 tells it.
pub fn arrangement_of(code: u64) -> (u64, u64) {
    arrangements()
        .find(|(n, s)| 4 * n + s == code % 16)
        .expect("each number below 16 is some arrangement's")
}

/// All sixteen arrangements.
pub fn arrangements() -> impl Iterator<Item = (u64, u64)> {
    (0..4).flat_map(|n| (0..4).map(move |s| (n, s)))
}

/// The resolution that a cell's code says.
pub fn resolution_of(code: u64) -> u64 {
    code / 16 % 16
}

/// The arrangement and the cell with this code, if it is some cell's.
pub fn cell_of(code: u64) -> Option<Arranged> {
    let (n, s) = arrangement_of(code);
    let name = old_cell_of(code / 16)?;
    Some(Arranged { n, s, name })
}

/// The cell with 01's code, if it is some cell's. "Code order is the byte order of names", so
/// each byte is the last one whose cell's code isn't above the code sought.
fn old_cell_of(code: u64) -> Option<Name> {
    let mut name = Name::new();
    for place in 0..=code % 16 {
        let bytes: &[u8] = if place == 0 { &LETTERS } else { b"012345678" };
        name.push(bytes[0]);
        for &byte in bytes.iter().rev() {
            *name.last_mut()? = byte;
            if old_code_of(&name) <= code {
                break;
            }
        }
    }
    (old_code_of(&name) == code).then_some(name)
}

/// The arrangement and the cell with this code, or refusal 4: "a code is no cell's".
fn checked_code(code: u64) -> Answer<Arranged> {
    cell_of(code).ok_or(4)
}

/// Refusal 5: "n or s given as a number above 3".
fn checked_arrangement(n: u64, s: u64) -> Answer<()> {
    if n > 3 || s > 3 {
        Err(5)
    } else {
        Ok(())
    }
}

/// The code of a cell given by face, resolution, row and column; refuses 5, 2, 1, 3.
pub fn cell_code(n: u64, s: u64, face: u64, resolution: u64, row: u64, column: u64) -> Answer<u64> {
    checked_arrangement(n, s)?;
    if resolution > FINEST {
        return Err(2);
    }
    if face > 5 {
        return Err(1);
    }
    if row.max(column) >= cells_along(resolution) {
        return Err(3);
    }
    let place = Place {
        face,
        resolution,
        row,
        column,
    };
    Ok(code_of(n, s, &name_of_place(place)))
}

/// n and s, and the face, resolution, row and column of a code: "a code's name, row and column
/// come with them". Refuses 4.
pub fn code_cell(code: u64) -> Answer<(u64, u64, Place)> {
    let Arranged { n, s, name } = checked_code(code)?;
    let (row, column) = row_and_column(&name);
    let place = Place {
        face: face_of(&name),
        resolution: name.len() as u64 - 1,
        row,
        column,
    };
    Ok((n, s, place))
}

/// The code of a name in an arrangement, which names do not say; refuses 5, 2, 1, 3.
pub fn name_code(n: u64, s: u64, bytes: &[u8]) -> Answer<u64> {
    checked_arrangement(n, s)?;
    Ok(code_of(n, s, &checked_name(bytes)?))
}

/// Writes a code's name to the front of a lent buffer, and answers n, s and its length; refuses
/// 4, 8. "A refusal changes no lent byte; an answer changes only its own length."
pub fn code_name(code: u64, buffer: &mut [u8]) -> Answer<(u64, u64, u64)> {
    let Arranged { n, s, name } = checked_code(code)?;
    if buffer.len() < name.len() {
        return Err(8);
    }
    for (lent, byte) in buffer.iter_mut().zip(&name) {
        *lent = *byte;
    }
    Ok((n, s, name.len() as u64))
}

/// The cell that holds a cell, in its arrangement: its name without the last digit. Refuses 4, 12.
pub fn parent(code: u64) -> Answer<u64> {
    let Arranged { n, s, mut name } = checked_code(code)?;
    name.pop();
    if name.is_empty() {
        return Err(12);
    }
    Ok(code_of(n, s, &name))
}

/// One of the nine cells in a cell, in its arrangement: its name and one digit more. Refuses 3,
/// 4, 12.
pub fn child(code: u64, digit: u64) -> Answer<u64> {
    if digit > 8 {
        return Err(3);
    }
    let Arranged { n, s, mut name } = checked_code(code)?;
    name.push(b'0' + digit as u8);
    if name.len() > 16 {
        return Err(12);
    }
    Ok(code_of(n, s, &name))
}

/// The number of finest cells in a cell; refuses 4.
pub fn size(code: u64) -> Answer<u64> {
    Ok(finest_cells(checked_code(code)?.name.len() as u64 - 1))
}

// ---------------------------------------------------------------- the plane

/// The square of a face. N lies above face n and S below face s, and "they own none of their
/// outer edges"; O to R stand side by side, "each face with its left, top and bottom edge".
pub fn face_square(n: u64, s: u64, face: u64) -> Square {
    let (column, top, owns) = match face {
        0 => (n, M + M / 2, [false; 4]),
        5 => (s, -(M / 2), [false; 4]),
        _ => (face - 1, M / 2, [true, false, true, true]),
    };
    Square {
        left: column as i64 * M,
        top,
        side: M,
        owns,
    }
}

/// The square of a child. "A cell owns its left and top edges, except that a cell on a face's
/// border follows the face": along an edge that it shares with its parent it has the parent's
/// right to that edge (000, section 5).
fn child_square(parent: Square, digit: u8) -> Square {
    let (row, column) = parts(digit);
    let side = parent.side / 3;
    let [up, right, down, left] = parent.owns;
    Square {
        left: parent.left + i64::from(column) * side,
        top: parent.top - i64::from(row) * side,
        side,
        owns: [
            if row == 0 { up } else { true },
            if column == 2 { right } else { false },
            if row == 2 { down } else { false },
            if column == 0 { left } else { true },
        ],
    }
}

/// The square of a cell, from its face's down.
pub fn square_of(n: u64, s: u64, name: &[u8]) -> Square {
    digits_of(name).fold(face_square(n, s, face_of(name)), child_square)
}

/// Is the point in the square, its own edges with it and the others without?
pub fn holds(square: Square, x: i64, y: i64) -> bool {
    let [up, right, down, left] = square.owns;
    let (x_right, y_bottom) = (square.left + square.side, square.top - square.side);
    (x > square.left || left && x == square.left)
        && (x < x_right || right && x == x_right)
        && (y < square.top || up && y == square.top)
        && (y > y_bottom || down && y == y_bottom)
}

/// The one choice that holds, if any. Two would break "every point of the image is in exactly
/// one cell of each resolution".
fn the_only<T: Copy>(choices: impl Iterator<Item = T>, holds: impl Fn(T) -> bool) -> Option<T> {
    let mut holding = choices.filter(|&choice| holds(choice));
    let only = holding.next();
    assert!(holding.next().is_none(), "a point in two cells");
    only
}

/// The cell that owns a planar point, if any does.
fn name_of_point(n: u64, s: u64, resolution: u64, x: i64, y: i64) -> Option<Name> {
    let face = the_only(0..6, |face| holds(face_square(n, s, face), x, y))?;
    let mut square = face_square(n, s, face);
    let mut digits = Vec::new();
    for _ in 0..resolution {
        let digit = the_only(0..9, |digit| holds(child_square(square, digit), x, y))
            .expect("a cell's point is in one of its children");
        square = child_square(square, digit);
        digits.push(digit);
    }
    Some(name_of(face, &digits))
}

/// The square of a code: "entries that took n and s beside a code now read them from it".
/// Refuses 4.
pub fn square(code: u64) -> Answer<Square> {
    let Arranged { n, s, name } = checked_code(code)?;
    Ok(square_of(n, s, &name))
}

/// "The nucleus is the middle." The nine children stand around it, so it is the middle of the
/// middle child too; at the finest, the side is 2 and the middle one unit from each edge.
pub fn nucleus(code: u64) -> Answer<(i64, i64)> {
    let mut square = square(code)?;
    while square.side > 2 {
        square = child_square(square, 4);
    }
    Ok((square.left + 1, square.top - 1))
}

/// "Vertices are given top left, top right, bottom right, bottom left, whether owned or not."
pub fn vertices(code: u64) -> Answer<([i64; 4], [i64; 4])> {
    let square = square(code)?;
    let (left, top) = (square.left, square.top);
    let (right, bottom) = (left + square.side, top - square.side);
    Ok(([left, right, right, left], [top, top, bottom, bottom]))
}

/// The code of the cell that owns a planar point; refuses 5, 2, 7.
pub fn point_code(n: u64, s: u64, resolution: u64, x: i64, y: i64) -> Answer<u64> {
    checked_arrangement(n, s)?;
    if resolution > FINEST {
        return Err(2);
    }
    let name = name_of_point(n, s, resolution, x, y).ok_or(7u64)?;
    Ok(code_of(n, s, &name))
}

// ---------------------------------------------------------------- shapes

/// The shape of a cell, by 000's patterns for names with three cells to a side: quads are
/// (O|P|Q|R)(0|1|..|8)*, caps (N|S)4*, darts (N|S)((0|4|8)+ | (2|4|6)+) but for the caps.
/// So is 01's rule: i = j has the digits 0, 4, 8 and i + j = m - 1 has 2, 4, 6.
pub fn shape_of(name: &[u8]) -> Shape {
    let made_of = |digits: &[u8]| name[1..].iter().all(|byte| digits.contains(byte));
    if !b"NS".contains(&name[0]) {
        Shape::Quad
    } else if made_of(b"4") {
        Shape::Cap
    } else if made_of(b"048") || made_of(b"246") {
        Shape::Dart
    } else {
        Shape::SkewQuad
    }
}

/// The number of a code's shape; refuses 4.
pub fn shape(code: u64) -> Answer<u64> {
    Ok(shape_of(&checked_code(code)?.name) as u64)
}

// ---------------------------------------------------------------- neighbours

/// 01's table, first line: up from column j of O to R into N, as (row, column).
pub fn up_into_n(turn: u64, m: u64, j: u64) -> (u64, u64) {
    match turn {
        0 => (m - 1, j),
        1 => (m - 1 - j, m - 1),
        2 => (0, m - 1 - j),
        3 => (j, 0),
        _ => unreachable!("a turn is 0 to 3"),
    }
}

/// 01's table, second line: down from column j of O to R into S, as (row, column).
pub fn down_into_s(turn: u64, m: u64, j: u64) -> (u64, u64) {
    match turn {
        0 => (0, j),
        1 => (j, m - 1),
        2 => (m - 1, m - 1 - j),
        3 => (m - 1 - j, 0),
        _ => unreachable!("a turn is 0 to 3"),
    }
}

/// The table over one digit of a name. Each ternary digit of 0, m - 1, j and m - 1 - j is
/// 0, 2, that of j and 2 less that of j, so the table with m = 3 holds for each digit alone.
fn turned_digit(north: bool, turn: u64, column: u8) -> u8 {
    let table = if north { up_into_n } else { down_into_s };
    let (row, column) = table(turn, 3, u64::from(column));
    digit_of(row as u8, column as u8)
}

/// The turn from face c of O to R to a cap that lies at face `at`: (c - at) mod 4, which is
/// the number of steps east from `at` to c.
fn turn_to(c: u64, at: u64) -> u64 {
    (0..4)
        .find(|steps| (at + steps) % 4 == c)
        .expect("c and at are 0 to 3")
}

/// A plain step inside a square of digits: the digits after it, and whether it stayed inside.
/// Where a digit leaves its block of nine it comes in at the other side, and the step goes on
/// in the digit before it. With no digit left the step has left the face.
fn plain_step(digits: &[u8], direction: u64) -> (Vec<u8>, bool) {
    let mut digits = digits.to_vec();
    for digit in digits.iter_mut().rev() {
        let (row, column) = parts(*digit);
        let (moved, inside) = match direction {
            UP => (digit_of((row + 2) % 3, column), row > 0),
            RIGHT => (digit_of(row, (column + 1) % 3), column < 2),
            DOWN => (digit_of((row + 1) % 3, column), row < 2),
            _ => (digit_of(row, (column + 2) % 3), column > 0),
        };
        *digit = moved;
        if inside {
            return (digits, true);
        }
    }
    (digits, false)
}

/// From face c of O to R up into N, or down into S: the table, digit by digit.
fn belt_to_cap(north: bool, at: u64, c: u64, digits: &[u8]) -> Name {
    let turn = turn_to(c, at);
    let turned: Vec<u8> = digits
        .iter()
        .map(|&digit| turned_digit(north, turn, parts(digit).1))
        .collect();
    name_of(if north { 0 } else { 5 }, &turned)
}

/// From N or S back, "by the inverse". "The down, right, up and left edges of N meet turns 0 to
/// 3; for S it is the up, right, down and left edges." Each digit of the belt's column is the
/// one that the table sends to the digit at hand.
fn cap_to_belt(north: bool, at: u64, direction: u64, digits: &[u8]) -> Name {
    let edges = if north {
        [DOWN, RIGHT, UP, LEFT]
    } else {
        [UP, RIGHT, DOWN, LEFT]
    };
    let met = |c: &u64| edges[turn_to(*c, at) as usize] == direction;
    let c = (0..4).find(met).expect("each edge meets one face");
    let row = if north { 0 } else { 2 };
    let belt: Vec<u8> = digits
        .iter()
        .map(|&digit| {
            let column = (0..3).find(|&j| turned_digit(north, turn_to(c, at), j) == digit);
            digit_of(row, column.expect("the cell lies on the edge"))
        })
        .collect();
    name_of(c + 1, &belt)
}

/// The cell one step from a cell.
pub fn neighbour_of(n: u64, s: u64, name: &[u8], direction: u64) -> Name {
    let (face, digits) = (face_of(name), digits_of(name).collect::<Vec<u8>>());
    let (moved, inside) = plain_step(&digits, direction);
    match (face, direction) {
        _ if inside => name_of(face, &moved),
        (0, _) => cap_to_belt(true, n, direction, &digits),
        (5, _) => cap_to_belt(false, s, direction, &digits),
        (_, UP) => belt_to_cap(true, n, face - 1, &digits),
        (_, DOWN) => belt_to_cap(false, s, face - 1, &digits),
        // "Right and left go round O, P, Q, R in the same row."
        (4, RIGHT) => name_of(1, &moved),
        (1, LEFT) => name_of(4, &moved),
        (_, RIGHT) => name_of(face + 1, &moved),
        (_, _) => name_of(face - 1, &moved),
    }
}

/// The code of the cell one step from a code, in its arrangement; refuses 3, 4.
pub fn neighbour(code: u64, direction: u64) -> Answer<u64> {
    if direction > 3 {
        return Err(3);
    }
    let Arranged { n, s, name } = checked_code(code)?;
    Ok(code_of(n, s, &neighbour_of(n, s, &name, direction)))
}

// ---------------------------------------------------------------- cells that meet at a corner

/// "Above resolution 0, those that are neighbours of at least two of the cell's neighbours, and
/// neither it nor a neighbour of it", by a search among the neighbours' neighbours. In the byte
/// order of names.
pub fn corners_of(n: u64, s: u64, name: &[u8]) -> Vec<Name> {
    if name.len() == 1 {
        return Vec::new();
    }
    let around = |of: &[u8]| (0..4).map(|d| neighbour_of(n, s, of, d)).collect();
    let near: Vec<Name> = around(name);
    let further: Vec<Vec<Name>> = near.iter().map(|one| around(one)).collect();
    let of_two = |x: &Name| further.iter().filter(|four| four.contains(x)).count() >= 2;
    let mut found: Vec<Name> = further.concat();
    found.retain(|x| of_two(x) && x != name && !near.contains(x));
    found.sort();
    found.dedup();
    found
}

/// "At resolution 0 the number is 0. Above that it is 3 for a cell in a corner of its face (row and
/// column each first or last), and 4 for every other cell, whatever its shape." Refuses 4.
pub fn corner_count(code: u64) -> Answer<u64> {
    let (_, _, at) = code_cell(code)?;
    let outer = [0, cells_along(at.resolution) - 1];
    Ok(match at.resolution {
        0 => 0,
        _ if outer.contains(&at.row) && outer.contains(&at.column) => 3,
        _ => 4,
    })
}

/// The codes of those cells "in rising code order", to the first of the lent ones, and how many;
/// refuses 4, and 8 where the room is short.
pub fn corner_cells(code: u64, lent: &mut [u64]) -> Answer<u64> {
    let Arranged { n, s, name } = checked_code(code)?;
    let corners = corners_of(n, s, &name);
    let mut codes: Vec<u64> = corners.iter().map(|name| code_of(n, s, name)).collect();
    codes.sort();
    lent.get_mut(..codes.len())
        .ok_or(8u64)?
        .copy_from_slice(&codes);
    Ok(codes.len() as u64)
}
