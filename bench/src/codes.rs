//! Codes to cells and names and back, and neighbours.

use crate::inputs::{arrangement, code, codes, Random};
use crate::library::{CellCode, CodeCell, CodeName, Fold, NameCode, Neighbour};
use crate::measure::{compare, pair, Plan, Row, Work};
use crate::plain::codes::{cell_code, code_cell, code_name, name_code};
use crate::plain::neighbour::neighbour;
use jeguarivo::{jgv_cell_code, jgv_code_cell, jgv_code_name, jgv_name_code, jgv_neighbour};

pub fn run(plan: Plan, random: &mut Random) -> Vec<Row> {
    let count = plan.count(10_000_000);
    let mixed = codes(random, count);
    let finest: Vec<u64> = (0..plan.count(1_000_000) as u64)
        .map(|i| code(random, 15) | arrangement(i))
        .collect();
    let mut rows = cells(plan, "code to cell and back", &mixed, Some(0.75));
    rows.extend(cells(plan, "the same, only resolution 15", &finest, None));
    rows.extend(names(plan, "code to name and back", &mixed, Some(1.0)));
    rows.extend(names(plan, "the same, only resolution 15", &finest, None));
    rows.extend(neighbours(
        plan,
        "neighbours, all directions",
        &mixed[..plan.count(1_000_000)],
        Some(1.1),
    ));
    rows.extend(neighbours(
        plan,
        "the same, only resolution 15",
        &finest,
        None,
    ));
    rows
}

/// Codes in a turn.
const PART: usize = 20_000;

fn part(codes: &[u64], turn: usize) -> &[u64] {
    &codes[turn * PART..][..PART]
}

fn in_parts<'a>(name: &'a str, codes: &[u64], answers: usize) -> Work<'a> {
    Work {
        name,
        items: PART * answers,
        turns: codes.len() / PART,
    }
}

fn cells(plan: Plan, work: &str, codes: &[u64], goal: Option<f64>) -> Vec<Row> {
    let (library, plain) = (
        (jgv_code_cell as CodeCell, jgv_cell_code as CellCode),
        (code_cell as CodeCell, cell_code as CellCode),
    );
    let sides = pair(goal, library, plain, |(out, back), turn| {
        part(codes, turn).iter().fold(0, |sum, &code| {
            let cell = out(code);
            let again = back(
                cell.n,
                cell.s,
                cell.face,
                cell.resolution,
                cell.row,
                cell.column,
            );
            again.fold(cell.fold(sum))
        })
    });
    compare(plan, in_parts(work, codes, 1), sides)
}

fn names(plan: Plan, work: &str, codes: &[u64], goal: Option<f64>) -> Vec<Row> {
    let (library, plain) = (
        (jgv_code_name as CodeName, jgv_name_code as NameCode),
        (code_name as CodeName, name_code as NameCode),
    );
    let sides = pair(goal, library, plain, |(out, back), turn| {
        let mut name = [0; 16];
        part(codes, turn).iter().fold(0, |sum, &code| {
            let written = unsafe { out(code, name.as_mut_ptr(), name.len()) };
            let again =
                unsafe { back(written.n, written.s, name.as_ptr(), written.length as usize) };
            again.fold(written.fold(sum))
        })
    });
    compare(plan, in_parts(work, codes, 1), sides)
}

/// All four directions, in the code's arrangement.
fn neighbours(plan: Plan, work: &str, codes: &[u64], goal: Option<f64>) -> Vec<Row> {
    let sides = pair::<Neighbour>(goal, jgv_neighbour, neighbour, |step, turn| {
        part(codes, turn).iter().fold(0, |sum, &code| {
            (0..4).fold(sum, |sum, direction| step(code, direction).fold(sum))
        })
    });
    compare(plan, in_parts(work, codes, 4), sides)
}
