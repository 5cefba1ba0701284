//! The baselines: the same answers in plain Rust, written from the scope paper's rules. Each is called as the library is,
//! through a C entry that is not inlined.

pub mod adding;
pub mod batches;
pub mod codes;
pub mod comparing;
pub mod coverage;
pub mod fixes;
pub mod lines;
pub mod neighbour;
pub mod plotter;
pub mod rescue;
pub mod sheets;
pub mod summary;
pub mod writing;

/// Powers of three and of nine.
pub const THREE: [u64; 16] = powers(3);
pub const NINE: [u64; 16] = powers(9);

const fn powers(base: u64) -> [u64; 16] {
    let mut table = [1; 16];
    let mut k = 1;
    while k < 16 {
        table[k] = table[k - 1] * base;
        k += 1;
    }
    table
}

/// A cell by value: face, resolution, row from the top, column from the left.
#[derive(Clone, Copy)]
pub struct Place {
    pub face: u64,
    pub resolution: u64,
    pub row: u64,
    pub column: u64,
}
