//! Coverage texts of 1, 4, 16 and 64 KiB: check, list, ask and write; two of them compared; their summaries and their neighbour sheets.

use crate::inputs::{code, swath, Random};
use crate::library::{
    AskSummary, CoverageAsk, CoverageCheck, CoverageCompare, CoverageList, CoverageWrite, Fold,
    SheetCheck, SheetWrite, TextSummary,
};
use crate::measure::{compare, pair, Plan, Row, Work};
use crate::plain::comparing::coverage_compare;
use crate::plain::coverage::{coverage_ask, coverage_check, coverage_list};
use crate::plain::sheets::{sheet_check, sheet_write};
use crate::plain::summary::{summary, summary_ask};
use crate::plain::writing::{coverage_write, write as written, FULL};
use jeguarivo::{
    jgv_coverage_ask, jgv_coverage_check, jgv_coverage_compare, jgv_coverage_list,
    jgv_coverage_write, jgv_sheet_check, jgv_sheet_write, jgv_summary, jgv_summary_ask,
};
use std::cell::RefCell;

const GOAL: Option<f64> = Some(1.1);

const LIST_GOAL: Option<f64> = Some(0.95);
const WRITE_GOAL: Option<f64> = Some(1.05);

/// A text, the cells it was written from, and cells to ask for: half of them covered.
struct Text {
    size: usize,
    codes: Vec<u64>,
    text: Vec<u8>,
    asked: Vec<u64>,
    /// Another text, of about the same length: half of the cells are this one's, half are others.
    other: Vec<u8>,
}

pub fn run(plan: Plan, random: &mut Random) -> Vec<Row> {
    let texts: Vec<Text> = [1, 4, 16, 64].map(|size| text(random, size)).into();
    let mut rows = Vec::new();
    for work in [
        check,
        list,
        ask,
        write,
        compare_two,
        summarize,
        check_sheet,
        write_sheet,
    ] {
        texts.iter().for_each(|text| rows.extend(work(plan, text)));
    }
    rows.extend(ask_summary(plan, random, &texts[3]));
    rows
}

fn text(random: &mut Random, size: usize) -> Text {
    let (codes, text) = swath(random, 12, size * 1024);
    let asked = (0..8)
        .map(|i| {
            if i % 2 == 0 {
                codes[random.below(codes.len() as u64) as usize]
            } else {
                code(random, 12)
            }
        })
        .collect();
    let (others, _) = swath(random, 12, size * 1024 / 2);
    let mut mixed = [&codes[..codes.len() / 2], &others].concat();
    mixed.sort_unstable();
    mixed.dedup();
    let mut other = written(FULL, 0, 0, &mixed);
    while other.len() > 65_536 {
        mixed.truncate(mixed.len() - mixed.len() / 50); // cells at the end, so that it is a text
        other = written(FULL, 0, 0, &mixed);
    }
    eprintln!(
        "bench: {size} KiB: {} bytes from {} cells of resolution 12, compared with {} bytes",
        text.len(),
        codes.len(),
        other.len()
    );
    Text {
        size,
        codes,
        text,
        asked,
        other,
    }
}

fn check(plan: Plan, at: &Text) -> Vec<Row> {
    let sides = pair::<CoverageCheck>(GOAL, jgv_coverage_check, coverage_check, |check, _| {
        unsafe { check(at.text.as_ptr(), at.text.len()) }.fold(0)
    });
    let name = format!("check {} KiB, a byte", at.size);
    compare(plan, Work::new(&name, at.text.len()), sides)
}

fn list(plan: Plan, at: &Text) -> Vec<Row> {
    let codes = RefCell::new(vec![0; at.text.len()]);
    let pass = |list: CoverageList, _| {
        let mut codes = codes.borrow_mut();
        let answer = unsafe {
            list(
                at.text.as_ptr(),
                at.text.len(),
                codes.as_mut_ptr(),
                codes.len(),
            )
        };
        answer.fold(codes[answer.count as usize - 1])
    };
    let mut all = Vec::new();
    for entry in [jgv_coverage_list, coverage_list as CoverageList] {
        codes.borrow_mut().fill(0);
        pass(entry, 0);
        all.push(codes.borrow().clone());
    }
    assert!(all[0] == all[1], "the lists differ");
    let sides = pair::<CoverageList>(LIST_GOAL, jgv_coverage_list, coverage_list, pass);
    let name = format!("list {} KiB, a byte", at.size);
    compare(plan, Work::new(&name, at.text.len()), sides)
}

fn ask(plan: Plan, at: &Text) -> Vec<Row> {
    let sides = pair::<CoverageAsk>(GOAL, jgv_coverage_ask, coverage_ask, |ask, _| {
        at.asked.iter().fold(0, |sum, &code| {
            unsafe { ask(at.text.as_ptr(), at.text.len(), code) }.fold(sum)
        })
    });
    let name = format!("ask {} KiB, a byte", at.size);
    compare(
        plan,
        Work::new(&name, at.text.len() * at.asked.len()),
        sides,
    )
}

fn write(plan: Plan, at: &Text) -> Vec<Row> {
    let room = RefCell::new(vec![0; at.text.len()]);
    let sides = pair::<CoverageWrite>(
        WRITE_GOAL,
        jgv_coverage_write,
        coverage_write,
        |write, _| {
            let mut room = room.borrow_mut();
            let answer = unsafe {
                write(
                    1,
                    15,
                    0,
                    0,
                    at.codes.as_ptr(),
                    at.codes.len(),
                    room.as_mut_ptr(),
                    room.len(),
                )
            };
            answer.fold((room[..answer.length as usize] == at.text) as u64)
        },
    );
    let name = format!("write {} KiB, a byte", at.size);
    compare(plan, Work::new(&name, at.text.len()), sides)
}

fn compare_two(plan: Plan, at: &Text) -> Vec<Row> {
    let both = at.text.len() + at.other.len();
    let rooms = RefCell::new([(); 3].map(|_| vec![0; 3 * both]));
    let pass = |compare: CoverageCompare, _| {
        let mut rooms = rooms.borrow_mut();
        let [firsts, seconds, boths] = rooms.each_mut();
        let answer = unsafe {
            compare(
                at.text.as_ptr(),
                at.text.len(),
                at.other.as_ptr(),
                at.other.len(),
                firsts.as_mut_ptr(),
                firsts.len(),
                seconds.as_mut_ptr(),
                seconds.len(),
                boths.as_mut_ptr(),
                boths.len(),
            )
        };
        answer.fold(boths[answer.both_cells as usize - 1])
    };
    let mut all = Vec::new();
    for entry in [jgv_coverage_compare, coverage_compare as CoverageCompare] {
        rooms.borrow_mut().iter_mut().for_each(|room| room.fill(0));
        pass(entry, 0);
        all.push(rooms.borrow().clone());
    }
    assert!(all[0] == all[1], "the listings differ");
    let sides = pair::<CoverageCompare>(GOAL, jgv_coverage_compare, coverage_compare, pass);
    let name = format!("compare two of {} KiB, a byte", at.size);
    compare(plan, Work::new(&name, both), sides)
}

/// The sheet of our rules, as both sides write it.
fn sheet(at: &Text) -> Vec<u8> {
    let all = [jgv_sheet_write, sheet_write as SheetWrite].map(|entry| {
        let mut room = vec![0; 40 * at.text.len()];
        let answer = unsafe {
            entry(
                at.text.as_ptr(),
                at.text.len(),
                room.as_mut_ptr(),
                room.len(),
            )
        };
        room.truncate(answer.length as usize);
        room
    });
    assert!(all[0] == all[1], "the sheets differ");
    all[0].clone()
}

fn check_sheet(plan: Plan, at: &Text) -> Vec<Row> {
    let sheet = sheet(at);
    let sides = pair::<SheetCheck>(GOAL, jgv_sheet_check, sheet_check, |check, _| {
        unsafe { check(at.text.as_ptr(), at.text.len(), sheet.as_ptr(), sheet.len()) }.fold(0)
    });
    let name = format!("check the sheet of {} KiB, a record", at.size);
    compare(plan, Work::new(&name, sheet.len() / 40), sides)
}

fn write_sheet(plan: Plan, at: &Text) -> Vec<Row> {
    let ours = sheet(at);
    let room = RefCell::new(vec![0; ours.len()]);
    let sides = pair::<SheetWrite>(GOAL, jgv_sheet_write, sheet_write, |write, _| {
        let mut room = room.borrow_mut();
        let answer = unsafe {
            write(
                at.text.as_ptr(),
                at.text.len(),
                room.as_mut_ptr(),
                room.len(),
            )
        };
        answer.fold((room[..answer.length as usize] == ours) as u64)
    });
    let name = format!("write the sheet of {} KiB, a record", at.size);
    compare(plan, Work::new(&name, ours.len() / 40), sides)
}

fn summarize(plan: Plan, at: &Text) -> Vec<Row> {
    let sides = pair::<TextSummary>(GOAL, jgv_summary, summary, |summary, _| {
        unsafe { summary(at.text.as_ptr(), at.text.len()) }.fold(0)
    });
    let name = format!("summary {} KiB, a byte", at.size);
    compare(plan, Work::new(&name, at.text.len()), sides)
}

/// Cells of resolution 0 to 2 asked of a summary in which every other face is done.
fn ask_summary(plan: Plan, random: &mut Random, at: &Text) -> Vec<Row> {
    let mut kept = unsafe { jgv_summary(at.text.as_ptr(), at.text.len()) }.counters;
    for (nth, counter) in kept.iter_mut().enumerate() {
        if nth / 81 % 2 == 0 {
            *counter = 9u64.pow(13);
        }
    }
    let asked: Vec<u64> = (0..4096).map(|i| code(random, i % 3)).collect();
    let sides = pair::<AskSummary>(GOAL, jgv_summary_ask, summary_ask, |ask, _| {
        asked
            .iter()
            .fold(0, |sum, &code| ask(0, 0, &kept, code).fold(sum))
    });
    compare(plan, Work::new("ask a summary", asked.len()), sides)
}
