//! Compares the proved library with what people would use instead. `bench [--check] [--seed N] [--rounds N] [--only PART,..]`.

mod adding;
mod batches;
mod codes;
mod coverage;
mod fixes;
mod flight;
mod inputs;
mod library;
mod measure;
mod plain;
mod plotter;
mod refusals;
mod rescue;
mod stack;
mod tables;

use inputs::Random;
use measure::{Plan, Row};
use std::time::Duration;

fn main() {
    let mut plan = Plan {
        rounds: 9,
        slices: 10,
        least: Duration::from_millis(25),
        check: false,
    };
    let (mut seed, mut only) = (20_261_116, String::new());
    let mut words = std::env::args().skip(1);
    while let Some(word) = words.next() {
        let mut number = || words.next().and_then(|word| word.parse::<u64>().ok());
        match word.as_str() {
            "--check" => plan.check = true,
            "--seed" => seed = number().unwrap_or_else(|| usage()),
            "--only" => only = words.next().unwrap_or_else(|| usage()),
            "--rounds" => plan.rounds = number().unwrap_or_else(|| usage()) as usize,
            _ => usage(),
        }
    }
    eprintln!("bench: seed {seed}");
    let random = &mut Random(seed);
    refusals::run(random, if plan.check { 200_000 } else { 20_000 });
    let parts: [(&str, fn(Plan, &mut Random) -> Vec<Row>); 8] = [
        ("fixes", fixes::run),
        ("codes", codes::run),
        ("batches", batches::run),
        ("plotter", plotter::run),
        ("coverage", coverage::run),
        ("adding", adding::run),
        ("record", flight::run),
        ("rescue", rescue::run),
    ];
    let mut rows = Vec::new();
    for (name, run) in parts {
        if only.is_empty() || only.split(',').any(|word| word == name) {
            rows.extend(run(plan, random));
        }
    }
    let depths = stack::depths(random, plan.check);
    tables::print(&rows, &depths);
}

fn usage() -> ! {
    eprintln!("usage: bench [--check] [--seed N] [--rounds N] [--only PART,..]");
    std::process::exit(2)
}
