//! What is printed: Markdown, as docs/BENCHMARKS.md has it.

use crate::adding;
use crate::measure::{median, Row};

/// The greatest depth wanted, in bytes, of every entry but rescuing, which the office runs and which has room for the longest text.
const DEPTH: usize = 8_192;
const OFFICE: &str = "jgv_coverage_rescue";

pub fn print(rows: &[Row], depths: &[(&str, usize)]) {
    println!(
        "| work | baseline | library, ns | baseline, ns | ratio | least to greatest | goal | |"
    );
    println!("|---|---|---:|---:|---:|---:|---:|---|");
    rows.iter().for_each(print_row);
    print_growth(rows);
    print_share(rows);
    println!("\n| entry | greatest stack depth, bytes | goal | |");
    println!("|---|---:|---:|---|");
    for &(entry, depth) in depths {
        if entry == OFFICE {
            println!("| `{entry}` | {depth} |  | of the office |");
            continue;
        }
        println!(
            "| `{entry}` | {depth} | {DEPTH} | {} |",
            said(depth as f64, DEPTH as f64)
        );
    }
}

fn print_row(row: &Row) {
    let ratio = median(&row.ratios);
    let least = row.ratios.iter().copied().fold(f64::MAX, f64::min);
    let greatest = row.ratios.iter().copied().fold(0.0, f64::max);
    let goal = row.goal.map_or(String::new(), |goal| format!("{goal:?}"));
    let met = row.goal.map_or(String::new(), |goal| said(ratio, goal));
    println!(
        "| {} | {} | {:.1} | {:.1} | {ratio:.2} | {least:.2} to {greatest:.2} | {goal} | {met} |",
        row.work, row.baseline, row.library, row.other
    );
}

/// A goal is judged on the median as it is printed.
fn said(value: f64, goal: f64) -> String {
    if value < goal + 0.005 {
        "met".to_string()
    } else {
        format!("**missed**, {:.2} times the goal", value / goal)
    }
}

/// What one fix at a full text takes of the time between two fixes, at twenty a second, where the processor is a hundred times slower.
fn print_share(rows: &[Row]) {
    let Some(row) = rows.iter().find(|row| row.work == adding::FULL) else {
        return;
    };
    let slow = row.library * 100.0 / 1e6;
    println!(
        "\nOne fix at a full text: {:.0} µs. A processor a hundred times slower needs {slow:.1} ms, {:.0} % of the 50 ms between two fixes.",
        row.library / 1e3,
        slow / 50.0 * 100.0
    );
}

/// How the time for a byte of a text changes from 1 KiB to 64 KiB: about 1 where the whole time is linear.
fn print_growth(rows: &[Row]) {
    let find = |work: &str, size| {
        rows.iter()
            .find(|row| row.work == format!("{work} {size} KiB, a byte"))
    };
    let grown: Vec<String> = ["check", "list", "ask", "write"]
        .iter()
        .filter_map(|work| {
            let (small, large) = (find(work, 1)?, find(work, 64)?);
            Some(format!(
                "{work} {:.2} (plain Rust {:.2})",
                large.library / small.library,
                large.other / small.other
            ))
        })
        .collect();
    if !grown.is_empty() {
        println!(
            "\nTime for a byte at 64 KiB over that at 1 KiB: {}.",
            grown.join(", ")
        );
    }
}
