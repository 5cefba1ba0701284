//! Rounds in which every contestant runs in turn, the ratios of each round, and their median and spread.

use std::hint::black_box;
use std::time::{Duration, Instant};

/// How much is run: `--check` takes one round of small inputs and only compares the answers.
#[derive(Clone, Copy)]
pub struct Plan {
    pub rounds: usize,
    /// Slices of each side in a round.
    pub slices: usize,
    pub least: Duration,
    pub check: bool,
}

impl<'a> Work<'a> {
    /// The same inputs in each turn.
    pub fn new(name: &'a str, items: usize) -> Work<'a> {
        Work {
            name,
            items,
            turns: 1,
        }
    }
}

impl Plan {
    /// A number of inputs, made small for `--check`.
    pub fn count(&self, full: usize) -> usize {
        if self.check {
            full.min(20_000)
        } else {
            full
        }
    }
}

/// One side of a comparison.
pub struct Side<'a> {
    pub name: &'static str,
    /// Whether its answers are the library's, so that the sums must be equal.
    pub same: bool,
    /// The greatest ratio wanted; none where the row is only information.
    pub goal: Option<f64>,
    /// A pass over the inputs of a turn, which answers a sum of its answers.
    pub pass: Box<dyn FnMut(usize) -> u64 + 'a>,
}

/// The library's entry and the plain Rust of it, each by a pointer that the compiler knows nothing about: neither is inlined or
/// made for some arguments, and both pay for the call.
pub fn pair<'a, F: Copy + 'a>(
    goal: Option<f64>,
    library: F,
    plain: F,
    pass: impl Fn(F, usize) -> u64 + Copy + 'a,
) -> Vec<Side<'a>> {
    let side = |name, entry| Side {
        name,
        same: true,
        goal,
        pass: Box::new(move |turn| pass(black_box(entry), turn)),
    };
    vec![side("library", library), side("plain Rust", plain)]
}

/// What is measured: how many items a pass has, and how many turns there are with inputs of their own.
pub struct Work<'a> {
    pub name: &'a str,
    pub items: usize,
    pub turns: usize,
}

/// A row of the table.
pub struct Row {
    pub work: String,
    pub baseline: &'static str,
    pub library: f64,
    pub other: f64,
    pub ratios: Vec<f64>,
    pub goal: Option<f64>,
}

pub fn median(numbers: &[f64]) -> f64 {
    let mut sorted = numbers.to_vec();
    sorted.sort_by(f64::total_cmp);
    let middle = sorted.len() / 2;
    if sorted.len() % 2 == 1 {
        sorted[middle]
    } else {
        (sorted[middle - 1] + sorted[middle]) / 2.0
    }
}

/// Nanoseconds for an item, over as many passes as take `least`.
fn slice(side: &mut Side, work: &Work, turn: &mut usize, least: Duration) -> f64 {
    let (start, first) = (Instant::now(), *turn);
    loop {
        black_box((side.pass)(*turn % work.turns));
        *turn += 1;
        let taken = start.elapsed();
        if taken >= least {
            return taken.as_nanos() as f64 / (*turn - first) as f64 / work.items as f64;
        }
    }
}

/// The time of each side for an item. The sides take turns, slice by slice, and the fastest slice counts: in the others the machine
/// did something else too.
fn round(plan: Plan, work: &Work, sides: &mut [Side], turns: &mut [usize]) -> Vec<f64> {
    let mut best = vec![f64::MAX; sides.len()];
    for _ in 0..plan.slices {
        for (i, side) in sides.iter_mut().enumerate() {
            let time = slice(side, work, &mut turns[i], plan.least / plan.slices as u32);
            best[i] = best[i].min(time);
        }
    }
    best
}

/// The sum of a side's answers in all turns.
fn sum(side: &mut Side, turns: usize) -> u64 {
    (0..turns).fold(0, |sum: u64, turn| sum.rotate_left(1) ^ (side.pass)(turn))
}

/// Compares the library, the first side, with the others. A side that should answer the same and does not ends the program.
pub fn compare(plan: Plan, work: Work, mut sides: Vec<Side>) -> Vec<Row> {
    let name = work.name;
    let right = sum(&mut sides[0], work.turns);
    for side in &mut sides[1..] {
        let other = sum(side, work.turns);
        if side.same && other != right {
            let side = side.name;
            eprintln!(
                "bench: {name}: {side} answers otherwise ({other:016x}, the library {right:016x})"
            );
            std::process::exit(1);
        }
    }
    eprintln!("bench: {name}: sum {right:016x}");
    if plan.check {
        return Vec::new();
    }
    let mut turns = vec![0; sides.len()];
    let rounds = (0..plan.rounds).map(|_| round(plan, &work, &mut sides, &mut turns));
    let rounds: Vec<Vec<f64>> = rounds.collect();
    let of = |number: &dyn Fn(&Vec<f64>) -> f64| rounds.iter().map(number).collect::<Vec<f64>>();
    let row = |i: usize| Row {
        work: name.to_string(),
        baseline: sides[i].name,
        library: median(&of(&|times| times[0])),
        other: median(&of(&|times| times[i])),
        ratios: of(&|times| times[0] / times[i]),
        goal: sides[i].goal,
    };
    (1..sides.len()).map(row).collect()
}
