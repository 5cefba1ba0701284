//! Batches of codes to cells and back (W-202), beside plain Rust that goes digit by digit.

use crate::inputs::{arrangement, code, codes, Random};
use crate::library::Batch;
use crate::measure::{compare, pair, Plan, Row, Work};
use crate::plain::batches::{cell_codes, code_cells};
use jeguarivo::{jgv_cell_codes, jgv_code_cells};
use std::cell::RefCell;

pub fn run(plan: Plan, random: &mut Random) -> Vec<Row> {
    let mixed = codes(random, plan.count(10_000_000));
    let finest: Vec<u64> = (0..plan.count(1_000_000) as u64)
        .map(|i| code(random, 15) | arrangement(i))
        .collect();
    let mut rows = row(plan, "batches: codes to cells and back", &mixed, Some(0.5));
    rows.extend(row(plan, "the same, only resolution 15", &finest, None));
    rows
}

/// Codes in a turn, and in a batch.
const PART: usize = 20_000;
const BATCH: usize = 1_000;

type Both = (Batch, Batch);

/// What a caller lends, batch after batch.
struct Room {
    seven: Vec<u64>,
    six: Vec<u64>,
    two: Vec<u64>,
}

impl Room {
    fn new() -> Room {
        let [seven, six, two] = [7, 6, 2].map(|numbers| vec![0; numbers * BATCH]);
        Room { seven, six, two }
    }

    /// Both entries on a part of the codes. Between them the refusals are left out, as a caller does: the way back takes cells without.
    /// `all` is called with the seven numbers of each batch; the sum is over the codes that come back, which depend on all of them.
    fn there_and_back(
        &mut self,
        (out, back): Both,
        codes: &[u64],
        mut all: impl FnMut(&[u64]),
    ) -> u64 {
        let Room { seven, six, two } = self;
        let mut sum = 0;
        for batch in codes.chunks_exact(BATCH) {
            let cells = unsafe { out(batch.as_ptr(), BATCH, seven.as_mut_ptr(), seven.len()) };
            all(seven);
            for (cell, kept) in seven.chunks_exact(7).zip(six.chunks_exact_mut(6)) {
                kept.copy_from_slice(&cell[1..]);
            }
            let again = unsafe { back(six.as_ptr(), six.len(), two.as_mut_ptr(), two.len()) };
            sum ^= cells.refusal ^ cells.count ^ again.refusal ^ again.count;
            sum = two
                .iter()
                .fold(sum, |sum: u64, &number| sum.rotate_left(5) ^ number);
        }
        sum
    }
}

fn row(plan: Plan, work: &str, codes: &[u64], goal: Option<f64>) -> Vec<Row> {
    let library: Both = (jgv_code_cells, jgv_cell_codes);
    let plain: Both = (code_cells, cell_codes);
    // before the clock starts: every number of every cell, on both sides
    let room = RefCell::new(Room::new());
    let numbers = |sides: Both| {
        let mut sum: u64 = 0;
        room.borrow_mut().there_and_back(sides, codes, |seven| {
            sum = seven
                .iter()
                .fold(sum, |sum, &number| sum.rotate_left(5) ^ number);
        });
        sum
    };
    if numbers(library) != numbers(plain) {
        eprintln!("bench: {work}: the numbers of the cells differ");
        std::process::exit(1);
    }
    let sides = pair(goal, library, plain, |sides, turn| {
        room.borrow_mut()
            .there_and_back(sides, &codes[turn * PART..][..PART], |_| ())
    });
    let work = Work {
        name: work,
        items: PART,
        turns: codes.len() / PART,
    };
    compare(plan, work, sides)
}
