//! The proved library's C entries, as examples/rust declares them, and the second program's answers
//! in their form.

use crate::compare::Refusing;
use crate::coverage::{Asked, Checked, Refused, TextAnswer};
use crate::crews::Compared;
use crate::grid::{self, Answer, Place};
use crate::plotter::{Edges, Mark};
use crate::summary::Summary as Kept;
use jeguarivo::{
    Add, Ask, Cell, Check, Code, Compare, Fix, Length, List, Name, Point, Shape, Size,
};
use jeguarivo::{Frame, FrameAnswer, MarkAnswer, Sheet, SheetLength, Square, Vertices, Z};
use std::fmt::Debug;

pub use jeguarivo::lent::{code_name, corner_cells, name_code, summary};
pub use jeguarivo::{
    jgv_cell_code as cell_code, jgv_child as child, jgv_code_cell as code_cell,
    jgv_corner_count as corner_count, jgv_fix_code as fix_code, jgv_frame_first as frame_first,
    jgv_geodetic_code as geodetic_code, jgv_geodetic_z as geodetic_z,
    jgv_ground_nucleus as ground_nucleus, jgv_mark_code as mark_code, jgv_mark_point as mark_point,
    jgv_neighbour as neighbour, jgv_nucleus as nucleus, jgv_parent as parent,
    jgv_point_code as point_code, jgv_shape as shape, jgv_size as size, jgv_square as square,
    jgv_summary_ask as summary_ask, jgv_vertices as vertices,
};
pub use jeguarivo::{Count, Rescue, Summary, SummaryAsk};

/// With the frame as its four edges.
pub fn frame_grow(side: f64, frame: Edges, code: u64) -> FrameAnswer {
    let [left, bottom, right, top] = frame;
    let frame = Frame {
        left,
        bottom,
        right,
        top,
    };
    jeguarivo::jgv_frame_grow(side, frame, code)
}

/// The entries of the settings.
pub mod settings {
    pub use jeguarivo::{
        jgv_settings_back as back, jgv_settings_change as change, jgv_settings_fresh as fresh,
        jgv_settings_read as read, History, HistoryAnswer, SettingsAnswer,
    };
}

/// The entries for many codes or cells.
pub mod batches {
    pub use jeguarivo::lent::{cell_codes, code_cells};
}

/// The coverage entries.
pub mod coverage {
    pub use jeguarivo::lent::{
        coverage_add as add, coverage_ask as ask, coverage_check as check,
        coverage_compare as compare, coverage_list as list, coverage_rescue as rescue,
        coverage_write as write,
    };
}

/// The sheet entries.
pub mod sheets {
    pub use jeguarivo::lent::{sheet_check as check, sheet_write as write};
}

/// An answer of the proved library that is like one of the second program.
pub trait Like<T> {
    fn like(answer: T) -> Self;
}

macro_rules! like {
    ($(
        $name:ident $(at $place:ident)?, $value:ty,
        $found:pat => { $($field:ident: $part:expr),* };
    )*) => {$(
        impl Like<$value> for $name {
            fn like(answer: $value) -> $name {
                match answer.map_err(Refused::from) {
                    Ok($found) => $name { refusal: 0, $($place: 0,)? $($field: $part),* },
                    Err(no) => $name { $($place: no.$place,)? ..$name::refused(no.refusal) },
                }
            }
        }
        impl Refusing for $name {
            fn refusal(&self) -> u64 {
                self.refusal
            }
        }
    )*};
}

like! {
    Code, Answer<u64>, code => { code: code };
    Cell, Answer<(u64, u64, Place)>, (n, s, at) =>
        { n: n, s: s, face: at.face, resolution: at.resolution, row: at.row, column: at.column };
    Name, Answer<(u64, u64, u64)>, (n, s, length) => { n: n, s: s, length: length };
    Length, Answer<u64>, length => { length: length };
    Size, Answer<u64>, size => { size: size };
    Shape, Answer<u64>, shape => { shape: shape };
    Count, Answer<u64>, count => { count: count };
    Square, Answer<grid::Square>, at => { left: at.left, top: at.top, side: at.side };
    Point, Answer<(i64, i64)>, (x, y) => { x: x, y: y };
    Vertices, Answer<([i64; 4], [i64; 4])>, (x, y) => { x: x, y: y };
    Fix, Answer<(i64, i64)>, (longitude, z) => { longitude: longitude, z: z };
    Z, Answer<i64>, z => { z: z };
    Check at place, TextAnswer<Checked>, of => {
        version: of.profile.version, depth: of.profile.depth,
        n: of.n, s: of.s, cells: of.cells, size: of.size
    };
    List at place, TextAnswer<u64>, count => { count: count };
    Ask at place, TextAnswer<Asked>, of =>
        { covered: u64::from(of.covered), settled: of.settled };
    Add at place, TextAnswer<u64>, length => { length: length };
    Compare at place, TextAnswer<Compared>, of => {
        first_cells: of.cells[0], second_cells: of.cells[1], both_cells: of.cells[2],
        first_size: of.sizes[0], second_size: of.sizes[1], both_size: of.sizes[2]
    };
    Rescue at place, TextAnswer<(u64, u64)>, (length, changes) =>
        { length: length, changes: changes };
    Sheet at place, TextAnswer<Option<u64>>, record =>
        { right: u64::from(record.is_none()), record: record.unwrap_or(0) };
    SheetLength at place, TextAnswer<u64>, length => { length: length };
    Summary at place, TextAnswer<Kept>, of => { n: of.n, s: of.s, counters: of.counters };
    SummaryAsk, Answer<bool>, covered => { covered: u64::from(covered) };
}

/// An answer together with the lent bytes or codes after it.
impl<A: Refusing, T: PartialEq + Debug> Refusing for (A, Vec<T>) {
    fn refusal(&self) -> u64 {
        self.0.refusal()
    }
}

/// An answer in metres, its doubles by their bits, so that -0.0 is not 0.0. Kind 1 is a point, 2 a
/// box, and 0 a frame or nothing.
#[derive(Debug, PartialEq)]
pub struct Metres {
    pub refusal: u64,
    kind: u64,
    numbers: [u64; 4],
}

impl Metres {
    fn new(refusal: u64, kind: u64, numbers: [f64; 4]) -> Metres {
        Metres {
            refusal,
            kind,
            numbers: numbers.map(f64::to_bits),
        }
    }
}

impl Refusing for Metres {
    fn refusal(&self) -> u64 {
        self.refusal
    }
}

impl From<MarkAnswer> for Metres {
    fn from(of: MarkAnswer) -> Metres {
        Metres::new(of.refusal, of.kind, of.numbers)
    }
}

impl From<FrameAnswer> for Metres {
    fn from(of: FrameAnswer) -> Metres {
        Metres::new(of.refusal, 0, [of.left, of.bottom, of.right, of.top])
    }
}

/// "Other answers are 0" beside a refusal.
impl From<Answer<Mark>> for Metres {
    fn from(answer: Answer<Mark>) -> Metres {
        match answer {
            Ok(Mark::Point(x, y)) => Metres::new(0, 1, [x, y, 0.0, 0.0]),
            Ok(Mark::Box(edges)) => Metres::new(0, 2, edges),
            Err(refusal) => Metres::new(refusal, 0, [0.0; 4]),
        }
    }
}

impl From<Answer<Edges>> for Metres {
    fn from(answer: Answer<Edges>) -> Metres {
        match answer {
            Ok(edges) => Metres::new(0, 0, edges),
            Err(refusal) => Metres::new(refusal, 0, [0.0; 4]),
        }
    }
}
