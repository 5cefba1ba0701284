//! `record` on a flight of 100,000 fixes, as whole processes: the proved program beside bench/src/bin/record.rs, and, where the text holds the whole
//! flight, beside bench/src/bin/record_set.rs.

use crate::inputs::{flight, Random};
use crate::measure::{compare, Plan, Row, Side, Work};
use std::fs::File;
use std::path::Path;
use std::process::{Command, Stdio};

pub fn run(plan: Plan, random: &mut Random) -> Vec<Row> {
    let mut rows = Vec::new();
    for resolution in [9, 12] {
        rows.extend(record(plan, random, resolution));
    }
    rows
}

/// At resolution 12 the flight fills the text, and a pass takes seconds: a slice is one pass.
fn record(plan: Plan, random: &mut Random, resolution: u64) -> Vec<Row> {
    let (Ok(proved), Ok(plain)) = (std::env::var("BENCH_RECORD"), std::env::current_exe()) else {
        return Vec::new();
    };
    if !Path::new(&proved).exists() {
        eprintln!("bench: record: there is no proved program {proved}; this row is left out");
        return Vec::new();
    }
    let (plain, count) = (plain.with_file_name("record"), plan.count(100_000));
    let input = plain.with_file_name("flight.txt");
    std::fs::write(&input, flight(random, count)).expect("the flight's file");
    let length = same_text(proved.as_ref(), &plain, &input, resolution);
    eprintln!("bench: record: {count} fixes at resolution {resolution}, {length} bytes of text");
    let side = |name, program: &Path, goal| {
        let (program, input) = (program.to_path_buf(), input.clone());
        Side {
            name,
            same: true,
            goal: Some(goal),
            pass: Box::new(move |_| text(&program, &input, resolution).len() as u64),
        }
    };
    let mut sides = vec![
        side("library", proved.as_ref(), 1.2),
        side("plain Rust", &plain, 1.2),
    ];
    if resolution == 9 {
        let set = plain.with_file_name("record_set");
        same_text(proved.as_ref(), &set, &input, resolution);
        sides.push(side("plain Rust, BTreeSet", &set, 1.5));
    }
    let name = format!("record at resolution {resolution}, a fix");
    let plan = Plan {
        rounds: plan.rounds.min(3),
        slices: 1,
        ..plan
    };
    compare(plan, Work::new(&name, count), sides)
}

/// The length of the text that both programs write, byte for byte; the program ends where they differ.
fn same_text(proved: &Path, plain: &Path, input: &Path, resolution: u64) -> usize {
    let (first, second) = (
        text(proved, input, resolution),
        text(plain, input, resolution),
    );
    if first != second || first.is_empty() {
        let (first, second) = (first.len(), second.len());
        eprintln!("bench: record: {first} bytes by the proved program, {second} by the plain one, not the same");
        std::process::exit(1);
    }
    first.len()
}

/// What a program writes for a flight.
fn text(program: &Path, flight: &Path, resolution: u64) -> Vec<u8> {
    let input = File::open(flight).expect("the flight's file");
    let words = ["0".to_string(), "0".to_string(), resolution.to_string()];
    let output = Command::new(program)
        .args(words)
        .stdin(input)
        .stderr(Stdio::null())
        .output()
        .expect("record");
    output.stdout
}
