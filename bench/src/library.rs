//! The entries, of the library and of the plain Rust beside it, and a sum over their answers.

use jeguarivo::{
    Add, Ask, Cell, Check, Code, Compare, Count, Fix, Frame, FrameAnswer, Length, List, MarkAnswer,
    Name, Rescue, Sheet, SheetLength, Summary, SummaryAsk, Z,
};

pub type CellCode = extern "C" fn(u64, u64, u64, u64, u64, u64) -> Code;
pub type CodeCell = extern "C" fn(u64) -> Cell;
pub type Batch = unsafe extern "C" fn(*const u64, usize, *mut u64, usize) -> Count;
pub type NameCode = unsafe extern "C" fn(u64, u64, *const u8, usize) -> Code;
pub type CodeName = unsafe extern "C" fn(u64, *mut u8, usize) -> Name;
pub type FixCode = extern "C" fn(u64, u64, u64, i64, i64) -> Code;
pub type GeodeticZ = extern "C" fn(i64, u64) -> Z;
pub type GeodeticCode = extern "C" fn(u64, u64, u64, i64, i64, u64) -> Code;
pub type GroundNucleus = extern "C" fn(u64) -> Fix;
pub type Neighbour = extern "C" fn(u64, u64) -> Code;
pub type MarkCode = extern "C" fn(f64, u64) -> MarkAnswer;
pub type FrameGrow = extern "C" fn(f64, Frame, u64) -> FrameAnswer;
pub type CoverageCheck = unsafe extern "C" fn(*const u8, usize) -> Check;
pub type CoverageList = unsafe extern "C" fn(*const u8, usize, *mut u64, usize) -> List;
pub type CoverageWrite =
    unsafe extern "C" fn(u64, u64, u64, u64, *const u64, usize, *mut u8, usize) -> Length;
pub type CoverageAsk = unsafe extern "C" fn(*const u8, usize, u64) -> Ask;
pub type CoverageAdd = unsafe extern "C" fn(*mut u8, usize, u64, u64) -> Add;
pub type CoverageCompare = unsafe extern "C" fn(
    *const u8,
    usize,
    *const u8,
    usize,
    *mut u64,
    usize,
    *mut u64,
    usize,
    *mut u64,
    usize,
) -> Compare;
pub type CoverageRescue =
    unsafe extern "C" fn(*const u8, usize, *mut u8, usize, *mut u64, usize) -> Rescue;
pub type SheetCheck = unsafe extern "C" fn(*const u8, usize, *const u8, usize) -> Sheet;
pub type SheetWrite = unsafe extern "C" fn(*const u8, usize, *mut u8, usize) -> SheetLength;
pub type TextSummary = unsafe extern "C" fn(*const u8, usize) -> Summary;
pub type AskSummary = extern "C" fn(u64, u64, &[u64; 486], u64) -> SummaryAsk;

/// A sum that depends on every field and on the order of answers.
pub trait Fold {
    fn fold(&self, sum: u64) -> u64;
}

macro_rules! folds {
    ($($name:ident { $($field:ident),* })*) => {$(
        impl Fold for $name {
            #[inline(always)]
            fn fold(&self, sum: u64) -> u64 {
                let $name { refusal, $($field),* } = *self;
                let mut sum = sum.rotate_left(5) ^ refusal;
                $(sum = sum.rotate_left(5) ^ $field as u64;)*
                sum
            }
        }
    )*};
}

folds! {
    Code { code }
    Cell { n, s, face, resolution, row, column }
    Name { n, s, length }
    Length { length }
    Fix { longitude, z }
    Z { z }
    Check { place, version, depth, n, s, cells, size }
    List { place, count }
    Ask { place, covered, settled }
    SummaryAsk { covered }
    Add { place, length }
    Compare { place, first_cells, second_cells, both_cells, first_size, second_size, both_size }
    Rescue { place, length, changes }
    Sheet { place, right, record }
    SheetLength { place, length }
}

impl Fold for Summary {
    #[inline(always)]
    fn fold(&self, sum: u64) -> u64 {
        let numbers = [self.refusal, self.place, self.n, self.s];
        let add = |sum: u64, number: &u64| sum.rotate_left(5) ^ number;
        self.counters
            .iter()
            .fold(numbers.iter().fold(sum, add), add)
    }
}

/// Doubles by their bits.
fn fold_metres(sum: u64, metres: [f64; 4]) -> u64 {
    let add = |sum: u64, metres: &f64| sum.rotate_left(5) ^ metres.to_bits();
    metres.iter().fold(sum, add)
}

impl Fold for MarkAnswer {
    #[inline(always)]
    fn fold(&self, sum: u64) -> u64 {
        let sum = sum.rotate_left(5) ^ self.refusal;
        fold_metres(sum.rotate_left(5) ^ self.kind, self.numbers)
    }
}

impl Fold for FrameAnswer {
    #[inline(always)]
    fn fold(&self, sum: u64) -> u64 {
        let sum = sum.rotate_left(5) ^ self.refusal;
        fold_metres(sum, [self.left, self.bottom, self.right, self.top])
    }
}
