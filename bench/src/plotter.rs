//! Boxes and frames in metres.

use crate::inputs::{codes, Random};
use crate::library::{Fold, FrameGrow, MarkCode};
use crate::measure::{compare, pair, Plan, Row, Work};
use crate::plain::plotter::{frame_grow, mark_code};
use jeguarivo::{jgv_frame_grow, jgv_mark_code, Frame};

/// About the side of a face on the ground, in metres.
const SIDE: f64 = 10_007_557.2;

pub fn run(plan: Plan, random: &mut Random) -> Vec<Row> {
    let count = plan.count(100_000);
    let codes = codes(random, count);
    let sides = pair::<MarkCode>(None, jgv_mark_code, mark_code, |entry, _| {
        codes
            .iter()
            .fold(0, |sum, &code| entry(SIDE, code).fold(sum))
    });
    let work = Work::new("code to its box in metres, all resolutions", count);
    let mut rows = compare(plan, work, sides);
    let sides = pair::<FrameGrow>(None, jgv_frame_grow, frame_grow, |entry, _| {
        let mut frame = Frame {
            left: SIDE,
            bottom: 0.0,
            right: SIDE,
            top: 0.0,
        };
        codes.iter().fold(0, |sum, &code| {
            let grown = entry(SIDE, frame, code);
            frame = Frame {
                left: grown.left,
                bottom: grown.bottom,
                right: grown.right,
                top: grown.top,
            };
            grown.fold(sum)
        })
    });
    let work = Work::new("frame grown by a code, all resolutions", count);
    rows.extend(compare(plan, work, sides));
    rows
}
