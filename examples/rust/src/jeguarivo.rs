//! Jeguarivo's entries for Rust: the declarations of `include/jeguarivo.h` and a safe function for each, which answers the value or
//! the refusal. A function that writes takes the lent slice and answers the part of it that was written.
//! The header says what each entry does; this file can be copied into any crate that links `libjeguarivo.a`.

/// Why an entry refused: the number of the header's list, and for 9 the place in the text (0 otherwise).
#[derive(Clone, Copy, Debug, PartialEq, Eq)]
pub struct Refused {
    pub number: u64,
    pub place: u64,
}

pub type Answer<T> = Result<T, Refused>;

macro_rules! answers {
    ($($name:ident $(at $place:ident)? { $($field:ident: $type:ty),* })*) => {$(
        /// An answer as the library gives it; its first field is the refusal.
        #[repr(C)]
        #[derive(Clone, Copy, Debug, Default, PartialEq)]
        pub struct $name {
            pub refusal: u64,
            $(pub $place: u64,)?
            $(pub $field: $type),*
        }
        impl $name {
            /// A refusal, with 0 in every other field.
            pub fn refused(refusal: u64) -> $name {
                $name { refusal, ..$name::default() }
            }
            /// This answer, unless it is a refusal.
            fn read(self) -> Answer<$name> {
                match self.refusal {
                    0 => Ok(self),
                    number => Err(Refused { number, place: 0 $(+ self.$place)? }),
                }
            }
        }
    )*};
}

answers! {
    Code { code: u64 }
    Cell { n: u64, s: u64, face: u64, resolution: u64, row: u64, column: u64 }
    Name { n: u64, s: u64, length: u64 }
    Length { length: u64 }
    Size { size: u64 }
    Shape { shape: u64 }
    Count { count: u64 }
    Square { left: i64, top: i64, side: i64 }
    Point { x: i64, y: i64 }
    Vertices { x: [i64; 4], y: [i64; 4] }
    Fix { longitude: i64, z: i64 }
    Z { z: i64 }
    Check at place { version: u64, depth: u64, n: u64, s: u64, cells: u64, size: u64 }
    List at place { count: u64 }
    Ask at place { covered: u64, settled: u64 }
    Add at place { length: u64 }
    Rescue at place { length: u64, changes: u64 }
    Compare at place { first_cells: u64, second_cells: u64, both_cells: u64, first_size: u64, second_size: u64, both_size: u64 }
    MarkAnswer { kind: u64, numbers: [f64; 4] }
    FrameAnswer { left: f64, bottom: f64, right: f64, top: f64 }
    Sheet at place { right: u64, record: u64 }
    SheetLength at place { length: u64 }
    SummaryAsk { covered: u64 }
    HistoryAnswer { history: History }
    SettingsAnswer { settings: Settings }
}

/// Four edges in metres.
#[repr(C)]
#[derive(Clone, Copy, Debug, PartialEq)]
pub struct Frame {
    pub left: f64,
    pub bottom: f64,
    pub right: f64,
    pub top: f64,
}

/// The summary of a text as the library gives it; its first field is the refusal.
#[repr(C)]
#[derive(Clone, Copy, Debug, PartialEq)]
pub struct Summary {
    pub refusal: u64,
    pub place: u64,
    pub n: u64,
    pub s: u64,
    /// How many finest cells of each cell of resolution 2 are covered, in code order; all of them are 9^13.
    pub counters: [u64; 486],
}

impl Summary {
    /// A refusal, with 0 in every other field.
    pub fn refused(refusal: u64) -> Summary {
        Summary { refusal, place: 0, n: 0, s: 0, counters: [0; 486] }
    }
    /// This answer, unless it is a refusal.
    fn read(self) -> Answer<Summary> {
        match self.refusal {
            0 => Ok(self),
            number => Err(Refused { number, place: self.place }),
        }
    }
}

/// What the plotter draws, in metres.
#[derive(Clone, Copy, Debug, PartialEq)]
pub enum Mark {
    Point { x: f64, y: f64 },
    Box(Frame),
}

/// Settings: an arrangement, the working resolution and the squared eccentricity.
#[repr(C)]
#[derive(Clone, Copy, Debug, Default, PartialEq, Eq)]
pub struct Settings {
    pub n: u64,
    pub s: u64,
    pub resolution: u64,
    pub eccentricity: u64,
}

/// Settings with their past: the newest revision, and what was accepted under the last 32; revision r stands at r modulo 32.
#[repr(C)]
#[derive(Clone, Copy, Debug, Default, PartialEq, Eq)]
pub struct History {
    pub newest: u64,
    pub kept: [Settings; 32],
}

// Safe are those that take numbers alone: the library takes any.
unsafe extern "C" {
    pub safe fn jgv_cell_code(n: u64, s: u64, face: u64, resolution: u64, row: u64, column: u64) -> Code;
    pub safe fn jgv_code_cell(code: u64) -> Cell;
    pub fn jgv_name_code(n: u64, s: u64, name: *const u8, length: usize) -> Code;
    pub fn jgv_code_name(code: u64, name: *mut u8, room: usize) -> Name;
    pub safe fn jgv_parent(code: u64) -> Code;
    pub safe fn jgv_child(code: u64, digit: u64) -> Code;
    pub safe fn jgv_size(code: u64) -> Size;
    pub safe fn jgv_shape(code: u64) -> Shape;
    pub safe fn jgv_corner_count(code: u64) -> Count;
    pub fn jgv_corner_cells(code: u64, codes: *mut u64, room: usize) -> Count;
    pub safe fn jgv_square(code: u64) -> Square;
    pub safe fn jgv_nucleus(code: u64) -> Point;
    pub safe fn jgv_vertices(code: u64) -> Vertices;
    pub safe fn jgv_point_code(n: u64, s: u64, resolution: u64, x: i64, y: i64) -> Code;
    pub safe fn jgv_fix_code(n: u64, s: u64, resolution: u64, longitude: i64, z: i64) -> Code;
    pub safe fn jgv_geodetic_z(sine: i64, eccentricity: u64) -> Z;
    pub safe fn jgv_geodetic_code(n: u64, s: u64, resolution: u64, longitude: i64, sine: i64, eccentricity: u64) -> Code;
    pub safe fn jgv_ground_nucleus(code: u64) -> Fix;
    pub safe fn jgv_neighbour(code: u64, direction: u64) -> Code;
    pub fn jgv_code_cells(codes: *const u64, count: usize, numbers: *mut u64, room: usize) -> Count;
    pub fn jgv_cell_codes(numbers: *const u64, count: usize, codes: *mut u64, room: usize) -> Count;
    pub fn jgv_coverage_check(text: *const u8, length: usize) -> Check;
    pub fn jgv_coverage_list(text: *const u8, length: usize, codes: *mut u64, room: usize) -> List;
    pub fn jgv_coverage_write(
        version: u64, depth: u64, n: u64, s: u64, codes: *const u64, count: usize, text: *mut u8, room: usize,
    ) -> Length;
    pub fn jgv_coverage_ask(text: *const u8, length: usize, code: u64) -> Ask;
    pub fn jgv_coverage_add(text: *mut u8, room: usize, length: u64, code: u64) -> Add;
    pub safe fn jgv_mark_point(side: f64, n: u64, s: u64, x: i64, y: i64) -> MarkAnswer;
    pub safe fn jgv_mark_code(side: f64, code: u64) -> MarkAnswer;
    pub safe fn jgv_frame_first(side: f64, code: u64) -> FrameAnswer;
    pub safe fn jgv_frame_grow(side: f64, frame: Frame, code: u64) -> FrameAnswer;
    pub safe fn jgv_settings_fresh(n: u64, s: u64, resolution: u64, eccentricity: u64) -> HistoryAnswer;
    pub safe fn jgv_settings_change(
        history: History, revision: u64, n: u64, s: u64, resolution: u64, eccentricity: u64,
    ) -> HistoryAnswer;
    pub safe fn jgv_settings_back(history: History, revision: u64, wanted: u64) -> HistoryAnswer;
    pub safe fn jgv_settings_read(history: History, revision: u64) -> SettingsAnswer;
    pub fn jgv_coverage_compare(
        first: *const u8, first_length: usize, second: *const u8, second_length: usize,
        firsts: *mut u64, first_room: usize, seconds: *mut u64, second_room: usize, boths: *mut u64, both_room: usize,
    ) -> Compare;
    pub fn jgv_coverage_rescue(
        text: *const u8, length: usize, proper: *mut u8, room: usize, changes: *mut u64, change_room: usize,
    ) -> Rescue;
    pub fn jgv_sheet_check(text: *const u8, length: usize, sheet: *const u8, sheet_length: usize) -> Sheet;
    pub fn jgv_sheet_write(text: *const u8, length: usize, sheet: *mut u8, room: usize) -> SheetLength;
    pub fn jgv_summary(text: *const u8, length: usize) -> Summary;
    pub safe fn jgv_summary_ask(n: u64, s: u64, counters: &[u64; 486], code: u64) -> SummaryAsk;
}

/// The entries that take memory, on slices. Each is safe: the library reads and writes lent memory within its length only.
pub mod lent {
    use super::*;

    pub fn name_code(n: u64, s: u64, name: &[u8]) -> Code {
        unsafe { jgv_name_code(n, s, name.as_ptr(), name.len()) }
    }

    pub fn code_name(code: u64, name: &mut [u8]) -> Name {
        unsafe { jgv_code_name(code, name.as_mut_ptr(), name.len()) }
    }

    pub fn corner_cells(code: u64, codes: &mut [u64]) -> Count {
        unsafe { jgv_corner_cells(code, codes.as_mut_ptr(), codes.len()) }
    }

    pub fn code_cells(codes: &[u64], numbers: &mut [u64]) -> Count {
        unsafe { jgv_code_cells(codes.as_ptr(), codes.len(), numbers.as_mut_ptr(), numbers.len()) }
    }

    pub fn cell_codes(numbers: &[u64], codes: &mut [u64]) -> Count {
        unsafe { jgv_cell_codes(numbers.as_ptr(), numbers.len(), codes.as_mut_ptr(), codes.len()) }
    }

    pub fn coverage_check(text: &[u8]) -> Check {
        unsafe { jgv_coverage_check(text.as_ptr(), text.len()) }
    }

    pub fn coverage_list(text: &[u8], codes: &mut [u64]) -> List {
        unsafe { jgv_coverage_list(text.as_ptr(), text.len(), codes.as_mut_ptr(), codes.len()) }
    }

    pub fn coverage_write(version: u64, depth: u64, n: u64, s: u64, codes: &[u64], text: &mut [u8]) -> Length {
        unsafe { jgv_coverage_write(version, depth, n, s, codes.as_ptr(), codes.len(), text.as_mut_ptr(), text.len()) }
    }

    pub fn coverage_ask(text: &[u8], code: u64) -> Ask {
        unsafe { jgv_coverage_ask(text.as_ptr(), text.len(), code) }
    }

    pub fn coverage_add(text: &mut [u8], length: u64, code: u64) -> Add {
        unsafe { jgv_coverage_add(text.as_mut_ptr(), text.len(), length, code) }
    }

    pub fn coverage_compare(first: &[u8], second: &[u8], firsts: &mut [u64], seconds: &mut [u64], boths: &mut [u64]) -> Compare {
        unsafe {
            jgv_coverage_compare(
                first.as_ptr(), first.len(), second.as_ptr(), second.len(),
                firsts.as_mut_ptr(), firsts.len(), seconds.as_mut_ptr(), seconds.len(), boths.as_mut_ptr(), boths.len(),
            )
        }
    }

    pub fn coverage_rescue(text: &[u8], proper: &mut [u8], changes: &mut [u64]) -> Rescue {
        unsafe {
            jgv_coverage_rescue(
                text.as_ptr(), text.len(), proper.as_mut_ptr(), proper.len(), changes.as_mut_ptr(), changes.len(),
            )
        }
    }

    pub fn sheet_check(text: &[u8], sheet: &[u8]) -> Sheet {
        unsafe { jgv_sheet_check(text.as_ptr(), text.len(), sheet.as_ptr(), sheet.len()) }
    }

    pub fn sheet_write(text: &[u8], sheet: &mut [u8]) -> SheetLength {
        unsafe { jgv_sheet_write(text.as_ptr(), text.len(), sheet.as_mut_ptr(), sheet.len()) }
    }

    pub fn summary(text: &[u8]) -> Summary {
        unsafe { jgv_summary(text.as_ptr(), text.len()) }
    }
}

pub fn cell_code(n: u64, s: u64, face: u64, resolution: u64, row: u64, column: u64) -> Answer<u64> {
    Ok(jgv_cell_code(n, s, face, resolution, row, column).read()?.code)
}

/// The arrangement and the cell of a code.
pub fn code_cell(code: u64) -> Answer<Cell> {
    jgv_code_cell(code).read()
}

pub fn name_code(n: u64, s: u64, name: &[u8]) -> Answer<u64> {
    Ok(lent::name_code(n, s, name).read()?.code)
}

/// The name alone; `code_cell` and `lent::code_name` answer n and s too.
pub fn code_name(code: u64, name: &mut [u8]) -> Answer<&[u8]> {
    let written = lent::code_name(code, name).read()?;
    Ok(&name[..written.length as usize])
}

pub fn parent(code: u64) -> Answer<u64> {
    Ok(jgv_parent(code).read()?.code)
}

pub fn child(code: u64, digit: u64) -> Answer<u64> {
    Ok(jgv_child(code, digit).read()?.code)
}

pub fn size(code: u64) -> Answer<u64> {
    Ok(jgv_size(code).read()?.size)
}

/// Quad 0, cap 1, dart 2, skew quad 3.
pub fn shape(code: u64) -> Answer<u64> {
    Ok(jgv_shape(code).read()?.shape)
}

/// How many cells meet a cell at a corner only.
pub fn corner_count(code: u64) -> Answer<u64> {
    Ok(jgv_corner_count(code).read()?.count)
}

/// Their codes, rising; 4 are always enough.
pub fn corner_cells(code: u64, codes: &mut [u64]) -> Answer<&[u64]> {
    let listed = lent::corner_cells(code, codes).read()?;
    Ok(&codes[..listed.count as usize])
}

pub fn square(code: u64) -> Answer<Square> {
    jgv_square(code).read()
}

pub fn nucleus(code: u64) -> Answer<Point> {
    jgv_nucleus(code).read()
}

pub fn vertices(code: u64) -> Answer<Vertices> {
    jgv_vertices(code).read()
}

pub fn point_code(n: u64, s: u64, resolution: u64, x: i64, y: i64) -> Answer<u64> {
    Ok(jgv_point_code(n, s, resolution, x, y).read()?.code)
}

pub fn fix_code(n: u64, s: u64, resolution: u64, longitude: i64, z: i64) -> Answer<u64> {
    Ok(jgv_fix_code(n, s, resolution, longitude, z).read()?.code)
}

/// z from the sine of a geodetic latitude and a squared eccentricity.
pub fn geodetic_z(sine: i64, eccentricity: u64) -> Answer<i64> {
    Ok(jgv_geodetic_z(sine, eccentricity).read()?.z)
}

pub fn geodetic_code(n: u64, s: u64, resolution: u64, longitude: i64, sine: i64, eccentricity: u64) -> Answer<u64> {
    Ok(jgv_geodetic_code(n, s, resolution, longitude, sine, eccentricity).read()?.code)
}

pub fn ground_nucleus(code: u64) -> Answer<Fix> {
    jgv_ground_nucleus(code).read()
}

/// Directions 0 to 3 are up, right, down, left.
pub fn neighbour(code: u64, direction: u64) -> Answer<u64> {
    Ok(jgv_neighbour(code, direction).read()?.code)
}

/// What `code_cell` answers to each code of a batch, seven numbers each: its refusal, n, s, face, resolution, row and column. Refused with 8 where
/// `numbers` is shorter.
pub fn code_cells<'a>(codes: &[u64], numbers: &'a mut [u64]) -> Answer<&'a [u64]> {
    let turned = lent::code_cells(codes, numbers).read()?;
    Ok(&numbers[..7 * turned.count as usize])
}

/// What `cell_code` answers to each cell of a batch, two numbers each: its refusal and code. A cell is six numbers: n, s, face, resolution, row and
/// column; fewer at the end are no cell.
pub fn cell_codes<'a>(numbers: &[u64], codes: &'a mut [u64]) -> Answer<&'a [u64]> {
    let turned = lent::cell_codes(numbers, codes).read()?;
    Ok(&codes[..2 * turned.count as usize])
}

/// A text's version, depth, n and s, the number of its whole cells and the sum of their sizes. Version 1 has depth 15.
pub fn coverage_check(text: &[u8]) -> Answer<Check> {
    lent::coverage_check(text).read()
}

pub fn coverage_list<'a>(text: &[u8], codes: &'a mut [u64]) -> Answer<&'a [u64]> {
    let listed = lent::coverage_list(text, codes).read()?;
    Ok(&codes[..listed.count as usize])
}

/// A text of version 1.
pub fn coverage_write<'a>(n: u64, s: u64, codes: &[u64], text: &'a mut [u8]) -> Answer<&'a [u8]> {
    let written = lent::coverage_write(1, 15, n, s, codes, text).read()?;
    Ok(&text[..written.length as usize])
}

/// A text of version 2, for handhelds: N and S whole, and nothing deeper than `depth`. Refused with 15 where the cells are not so.
pub fn coverage_write_handheld<'a>(depth: u64, n: u64, s: u64, codes: &[u64], text: &'a mut [u8]) -> Answer<&'a [u8]> {
    let written = lent::coverage_write(2, depth, n, s, codes, text).read()?;
    Ok(&text[..written.length as usize])
}

/// Whether all finest cells of a cell are covered (1 or 0), and how many letters and digits of the text settle that. Refused with 14 where the code is of
/// another arrangement than the text.
pub fn coverage_ask(text: &[u8], code: u64) -> Answer<Ask> {
    lent::coverage_ask(text, code).read()
}

/// Kind 1 is a point, 2 a box.
fn mark(answer: MarkAnswer) -> Answer<Mark> {
    let MarkAnswer { kind, numbers: [left, bottom, right, top], .. } = answer.read()?;
    Ok(match kind {
        1 => Mark::Point { x: left, y: bottom },
        _ => Mark::Box(Frame { left, bottom, right, top }),
    })
}

fn frame(answer: FrameAnswer) -> Answer<Frame> {
    let FrameAnswer { left, bottom, right, top, .. } = answer.read()?;
    Ok(Frame { left, bottom, right, top })
}

/// A point of the plane in metres. Here and below `side` is the face side in metres, from 1 to 2^30.
pub fn mark_point(side: f64, n: u64, s: u64, x: i64, y: i64) -> Answer<Mark> {
    mark(jgv_mark_point(side, n, s, x, y))
}

/// A cell's box in metres.
pub fn mark_code(side: f64, code: u64) -> Answer<Mark> {
    mark(jgv_mark_code(side, code))
}

/// The first frame: a cell's box.
pub fn frame_first(side: f64, code: u64) -> Answer<Frame> {
    frame(jgv_frame_first(side, code))
}

/// A frame grown to hold the box of a further cell.
pub fn frame_grow(side: f64, before: Frame, code: u64) -> Answer<Frame> {
    frame(jgv_frame_grow(side, before, code))
}

/// Adds a cell to the text that the first `length` bytes are, in place, and answers the part that is the text then. It grows by at most 46 bytes.
pub fn coverage_add(text: &mut [u8], length: usize, code: u64) -> Answer<&[u8]> {
    let added = lent::coverage_add(text, length as u64, code).read()?;
    Ok(&text[..added.length as usize])
}

/// A history whose revision 0 is these settings.
pub fn settings_fresh(settings: Settings) -> Answer<History> {
    let Settings { n, s, resolution, eccentricity } = settings;
    Ok(jgv_settings_fresh(n, s, resolution, eccentricity).read()?.history)
}

/// The history with these settings as a new revision, made from `revision`, which must be the newest.
pub fn settings_change(history: &History, revision: u64, settings: Settings) -> Answer<History> {
    let Settings { n, s, resolution, eccentricity } = settings;
    Ok(jgv_settings_change(*history, revision, n, s, resolution, eccentricity).read()?.history)
}

/// The same with the settings of a kept revision.
pub fn settings_back(history: &History, revision: u64, wanted: u64) -> Answer<History> {
    Ok(jgv_settings_back(*history, revision, wanted).read()?.history)
}

/// What was accepted under a kept revision.
pub fn settings_read(history: &History, revision: u64) -> Answer<Settings> {
    Ok(jgv_settings_read(*history, revision).read()?.settings)
}

/// What two texts cover, each as the fewest cells: only the first, only the second, and both, with the sums of their sizes.
#[derive(Clone, Copy, Debug, PartialEq, Eq)]
pub struct Compared<'a> {
    pub first_only: &'a [u64],
    pub second_only: &'a [u64],
    pub both: &'a [u64],
    pub first_size: u64,
    pub second_size: u64,
    pub both_size: u64,
}

/// Refused with 14 where the two headings differ in n or s.
pub fn coverage_compare<'a>(
    first: &[u8], second: &[u8], firsts: &'a mut [u64], seconds: &'a mut [u64], boths: &'a mut [u64],
) -> Answer<Compared<'a>> {
    let found = lent::coverage_compare(first, second, firsts, seconds, boths).read()?;
    Ok(Compared {
        first_only: &firsts[..found.first_cells as usize],
        second_only: &seconds[..found.second_cells as usize],
        both: &boths[..found.both_cells as usize],
        first_size: found.first_size,
        second_size: found.second_size,
        both_size: found.both_size,
    })
}

/// The proper text of a hand-edited one, and what was changed: two numbers a change, its place in the hand-edited text and its kind. The text is never
/// longer than the hand-edited one.
#[derive(Clone, Copy, Debug, PartialEq, Eq)]
pub struct Rescued<'a> {
    pub text: &'a [u8],
    pub changes: &'a [u64],
}

/// Refused with 9 where the body is not of the looser form, at the place read from that form.
pub fn coverage_rescue<'a>(text: &[u8], proper: &'a mut [u8], changes: &'a mut [u64]) -> Answer<Rescued<'a>> {
    let found = lent::coverage_rescue(text, proper, changes).read()?;
    Ok(Rescued { text: &proper[..found.length as usize], changes: &changes[..2 * found.changes as usize] })
}

/// Whether a neighbour sheet is the one that our rules make of a text: nothing on yes, on no the number of the first wrong record.
pub fn sheet_check(text: &[u8], sheet: &[u8]) -> Answer<Option<u64>> {
    let checked = lent::sheet_check(text, sheet).read()?;
    Ok((checked.right == 0).then_some(checked.record))
}

/// The neighbour sheet that our rules make of a text: 40 bytes for each whole cell.
pub fn sheet_write<'a>(text: &[u8], sheet: &'a mut [u8]) -> Answer<&'a [u8]> {
    let written = lent::sheet_write(text, sheet).read()?;
    Ok(&sheet[..written.length as usize])
}

/// A text's summary: its n and s, and how many finest cells of each cell of resolution 2 are covered.
pub fn summary(text: &[u8]) -> Answer<Summary> {
    lent::summary(text).read()
}

/// Whether all finest cells of a cell of resolution 0 to 2 are covered, by the counters: as the text answers. Refused with 2 where the cell is finer.
pub fn summary_ask(kept: &Summary, code: u64) -> Answer<bool> {
    Ok(jgv_summary_ask(kept.n, kept.s, &kept.counters, code).read()?.covered == 1)
}
