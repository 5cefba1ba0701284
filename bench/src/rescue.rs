//! Hand-edited texts of 1, 4, 16 and 64 KiB made proper; and one that is proper, and one with every list in falling order.

use crate::inputs::{edited, falling, swath, Random};
use crate::library::{CoverageRescue, Fold};
use crate::measure::{compare, pair, Plan, Row, Work};
use crate::plain::rescue::coverage_rescue;
use jeguarivo::jgv_coverage_rescue;
use std::cell::RefCell;

const GOAL: Option<f64> = Some(1.1);

pub fn run(plan: Plan, random: &mut Random) -> Vec<Row> {
    let mut rows = Vec::new();
    for size in [1, 4, 16, 64] {
        let text = edited(random, 12, size * 1024);
        rows.extend(rescue(
            plan,
            GOAL,
            &format!("rescue {size} KiB, a byte"),
            &text,
        ));
    }
    let (_, proper) = swath(random, 12, 64 * 1024);
    rows.extend(rescue(
        plan,
        None,
        "rescue a proper text of 64 KiB, a byte",
        &proper,
    ));
    let backward = falling(&proper);
    rows.extend(rescue(
        plan,
        None,
        "rescue 64 KiB in falling order, a byte",
        &backward,
    ));
    rows
}

fn rescue(plan: Plan, goal: Option<f64>, name: &str, text: &[u8]) -> Vec<Row> {
    let rooms = RefCell::new((vec![0; text.len()], vec![0; 4 * text.len()]));
    let pass = |rescue: CoverageRescue, _| {
        let mut rooms = rooms.borrow_mut();
        let (proper, changes) = &mut *rooms;
        let answer = unsafe {
            rescue(
                text.as_ptr(),
                text.len(),
                proper.as_mut_ptr(),
                proper.len(),
                changes.as_mut_ptr(),
                changes.len(),
            )
        };
        answer.fold(proper[answer.length as usize - 1] as u64)
    };
    let mut all = Vec::new();
    for entry in [jgv_coverage_rescue, coverage_rescue as CoverageRescue] {
        rooms.borrow_mut().0.fill(0);
        rooms.borrow_mut().1.fill(0);
        pass(entry, 0);
        all.push(rooms.borrow().clone());
    }
    assert!(all[0] == all[1], "the proper texts or the changes differ");
    let changed = all[0]
        .1
        .chunks(2)
        .take_while(|change| change[1] > 0)
        .count();
    eprintln!("bench: {name}: {} bytes, {changed} changes", text.len());
    let sides = pair::<CoverageRescue>(goal, jgv_coverage_rescue, coverage_rescue, pass);
    compare(plan, Work::new(name, text.len()), sides)
}
