//! Adding cells to a text: the fixes of a survey, one after the other, at resolutions 9 and 12; and one fix at a full text.

use crate::inputs::{code, survey, swath, Random};
use crate::library::{CoverageAdd, Fold};
use crate::measure::{compare, pair, Plan, Row, Work};
use crate::plain::adding::coverage_add;
use crate::plain::fixes::fix_code;
use jeguarivo::jgv_coverage_add;
use std::cell::RefCell;

const GOAL: Option<f64> = Some(1.2);

/// The row from which the time for one fix at a full text is taken.
pub const FULL: &str = "add to a full text, a fix";

pub fn run(plan: Plan, random: &mut Random) -> Vec<Row> {
    let mut rows = Vec::new();
    for resolution in [9, 12] {
        rows.extend(flight(plan, random, resolution));
    }
    rows.extend(full(plan, random));
    rows
}

/// From the heading on, each fix in its turn. A flight at resolution 12 fills the text, and a pass takes seconds: a slice is one pass.
fn flight(plan: Plan, random: &mut Random, resolution: u64) -> Vec<Row> {
    let fixes = survey(random, plan.count(100_000));
    let of = |&(longitude, z): &(i64, i64)| fix_code(0, 0, resolution, longitude, z).code;
    let codes: Vec<u64> = fixes.iter().map(of).collect();
    let text = RefCell::new(vec![0; 65_536]);
    let sides = pair::<CoverageAdd>(GOAL, jgv_coverage_add, coverage_add, |add, _| {
        let mut text = text.borrow_mut();
        text[..7].copy_from_slice(b"CVR\0\x0100");
        let mut length = 7;
        let sum = codes.iter().fold(0, |sum, &code| {
            let answer = unsafe { add(text.as_mut_ptr(), text.len(), length, code) };
            if answer.refusal == 0 {
                length = answer.length;
            }
            answer.fold(sum)
        });
        text[..length as usize]
            .iter()
            .fold(sum, |sum, &byte| sum.rotate_left(5) ^ byte as u64)
    });
    let name = format!("add at resolution {resolution}, a fix");
    let plan = Plan {
        rounds: plan.rounds.min(3),
        slices: 1,
        ..plan
    };
    compare(plan, Work::new(&name, codes.len()), sides)
}

/// Cells that are covered, and others, each added to the same text of nearly 65,536 bytes.
fn full(plan: Plan, random: &mut Random) -> Vec<Row> {
    let (codes, whole) = swath(random, 12, 65_536);
    let mut added = Vec::new();
    for i in 0..32 {
        added.push(match i % 2 {
            0 => codes[random.below(codes.len() as u64) as usize],
            _ => code(random, 12),
        });
    }
    eprintln!("bench: a full text: {} bytes", whole.len());
    let text = RefCell::new(vec![0; 65_536]);
    let sides = pair::<CoverageAdd>(GOAL, jgv_coverage_add, coverage_add, |add, _| {
        let mut text = text.borrow_mut();
        added.iter().fold(0, |sum, &code| {
            text[..whole.len()].copy_from_slice(&whole);
            unsafe { add(text.as_mut_ptr(), text.len(), whole.len() as u64, code) }.fold(sum)
        })
    });
    compare(plan, Work::new(FULL, added.len()), sides)
}
