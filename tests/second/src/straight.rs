//! Request W-212: straight lines through cells, from the request's words. Neighbours are handed in,
//! so that the same rule goes through this program's and through the proved library's.

use crate::grid::{DOWN, LEFT, RIGHT, UP};
use std::collections::HashSet;
use std::fmt::Debug;
use std::hash::Hash;

/// A cell, and the direction in which it is left.
#[derive(Clone, Debug, PartialEq, Eq, Hash)]
pub struct Heading<C> {
    pub cell: C,
    pub direction: u64,
}

fn opposite(direction: u64) -> u64 {
    match direction {
        UP => DOWN,
        RIGHT => LEFT,
        DOWN => UP,
        _ => RIGHT,
    }
}

/// The same cell, left by the edge opposite.
fn reversed<C: Clone>(heading: &Heading<C>) -> Heading<C> {
    Heading {
        cell: heading.cell.clone(),
        direction: opposite(heading.direction),
    }
}

/// "Leaving each by the edge opposite the one they entered by": a cell is entered by the one edge
/// whose neighbour is the cell that was left.
fn onward<C: PartialEq>(neighbour: &impl Fn(&C, u64) -> C, from: &Heading<C>) -> Heading<C> {
    let cell = neighbour(&from.cell, from.direction);
    let leads_back = |&edge: &u64| neighbour(&cell, edge) == from.cell;
    let entered: Vec<u64> = (0..4).filter(leads_back).collect();
    assert_eq!(entered.len(), 1, "edges that lead back");
    Heading {
        cell,
        direction: opposite(entered[0]),
    }
}

/// A heading and so many that follow it.
fn follow<C: Clone + PartialEq>(
    neighbour: &impl Fn(&C, u64) -> C,
    first: &Heading<C>,
    moves: usize,
) -> Vec<Heading<C>> {
    let mut all = vec![first.clone()];
    for _ in 0..moves {
        all.push(onward(neighbour, &all[all.len() - 1]));
    }
    all
}

/// The headings of a line of so many cells, held to what the request says of it: the cells are
/// different, the first heading comes again, and "flying it backwards visits the same cells in
/// reverse".
pub fn line<C: Clone + Debug + Eq + Hash>(
    neighbour: &impl Fn(&C, u64) -> C,
    first: &Heading<C>,
    length: usize,
) -> Vec<Heading<C>> {
    let mut there = follow(neighbour, first, length);
    let back = follow(neighbour, &reversed(first), length);
    let in_reverse: Vec<Heading<C>> = there.iter().rev().map(reversed).collect();
    assert!(back == in_reverse, "backwards from {first:?}");
    assert_eq!(there.pop().as_ref(), Some(first), "the first again");
    let cells: HashSet<&C> = there.iter().map(|heading| &heading.cell).collect();
    assert_eq!(cells.len(), length, "different cells from {first:?}");
    there
}
