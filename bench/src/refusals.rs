//! The answers of both sides to inputs good and bad, one by one. No times.

use crate::inputs::{code, edited, swath, Random};
use crate::plain::adding::coverage_add;
use crate::plain::batches::{cell_codes, code_cells};
use crate::plain::codes::{cell_code, code_cell, code_name, name_code};
use crate::plain::comparing::coverage_compare;
use crate::plain::coverage::{coverage_ask, coverage_check, coverage_list};
use crate::plain::fixes::{
    fix_code, geodetic_code, geodetic_z, geodetic_z_divided, ground_nucleus,
};
use crate::plain::neighbour::neighbour;
use crate::plain::plotter::{frame_first, frame_grow, mark_code, mark_point};
use crate::plain::rescue::coverage_rescue;
use crate::plain::sheets::{sheet_check, sheet_write};
use crate::plain::summary::{summary, summary_ask};
use crate::plain::writing::{coverage_write, write, Profile, FULL};
use crate::plain::NINE;
use jeguarivo::{
    jgv_cell_code, jgv_child, jgv_code_cell, jgv_fix_code, jgv_frame_first, jgv_frame_grow,
    jgv_geodetic_code, jgv_geodetic_z, jgv_ground_nucleus, jgv_mark_code, jgv_mark_point,
    jgv_neighbour, jgv_parent, jgv_summary_ask, lent, Frame, FrameAnswer, MarkAnswer,
};
use std::fmt::Debug;

const BYTES: &[u8] = b"()()0123456789NOPQRSMTCVR\0\x01\x02afp";

fn same<A: PartialEq + Debug>(what: &str, library: A, plain: A) {
    if library != plain {
        eprintln!("bench: {what}: plain Rust answers {plain:?}, the library {library:?}");
        std::process::exit(1);
    }
}

pub fn run(random: &mut Random, count: usize) {
    for _ in 0..count {
        numbers(random);
        names(random);
    }
    for _ in 0..count / 100 {
        batches(random);
        texts(random);
        lists(random);
    }
    eprintln!("bench: {count} inputs of each number entry and {} texts and lists, good and bad: the same answers", count / 100);
}

/// Mostly a good code, half of them at n = s = 0.
fn any_code(random: &mut Random) -> u64 {
    let resolution = random.below(16);
    match random.below(8) {
        0 => random.below(320_000_000_000_000_000),
        1 => random.word(),
        2..=4 => code(random, resolution) | random.below(16),
        _ => code(random, resolution),
    }
}

fn numbers(random: &mut Random) {
    let (n, s, k) = (random.below(9) / 2, random.below(9) / 2, random.below(17));
    let (code, face, direction) = (any_code(random), random.below(7), random.below(9) / 2);
    let side = 1 << random.below(25);
    let (row, column) = (random.below(side), random.below(side));
    let (longitude, z) = (
        random.between(-1_850_000_000, 1_850_000_000),
        random.between(-1_010_000_000_000_000_000, 1_010_000_000_000_000_000),
    );
    same(
        "cell to code",
        jgv_cell_code(n, s, face, k, row, column),
        cell_code(n, s, face, k, row, column),
    );
    same("code to cell", jgv_code_cell(code), code_cell(code));
    same(
        "fix to code",
        jgv_fix_code(n, s, k, longitude, z),
        fix_code(n, s, k, longitude, z),
    );
    same(
        "ground nucleus",
        jgv_ground_nucleus(code),
        ground_nucleus(code),
    );
    same(
        "neighbour",
        jgv_neighbour(code, direction),
        neighbour(code, direction),
    );
    geodetic(random, n, s, k, longitude, z);
    metres(random, n, s, code);
    edges(random, n, s, k);
    ends(random, n, s, k);
}

/// Batches with bad codes and bad cells in them, into rooms that are enough or not: the answers and the lent numbers.
fn batches(random: &mut Random) {
    let codes: Vec<u64> = (0..random.below(20)).map(|_| any_code(random)).collect();
    let room =
        (7 * codes.len() + random.below(16) as usize).saturating_sub(random.below(10) as usize);
    let (mut library, mut plain) = (vec![1; room], vec![1; room]);
    same(
        "a batch of codes",
        lent::code_cells(&codes, &mut library),
        unsafe { code_cells(codes.as_ptr(), codes.len(), plain.as_mut_ptr(), room) },
    );
    same("the cells of a batch", &library, &plain);
    let numbers: Vec<u64> = (0..random.below(120)).map(|_| random.below(6)).collect();
    let room =
        (numbers.len() / 3 + random.below(8) as usize).saturating_sub(random.below(6) as usize);
    let (mut library, mut plain) = (vec![1; room], vec![1; room]);
    same(
        "a batch of cells",
        lent::cell_codes(&numbers, &mut library),
        unsafe { cell_codes(numbers.as_ptr(), numbers.len(), plain.as_mut_ptr(), room) },
    );
    same("the codes of a batch", library, plain);
}

/// A sine, or an end of its range or a unit beside it, on a sphere, WGS84, the flattest ellipsoid or any, or one past that.
fn geodetic(random: &mut Random, n: u64, s: u64, k: u64, longitude: i64, z: i64) {
    let end = 1_000_000_000_000_000_000 + random.between(-1, 1);
    let sine = [z, z >> random.below(62), end, -end][random.below(4) as usize];
    let any = random.below(10_000_000_001);
    let eccentricity =
        [0, 6_694_379_990, 10_000_000_000, 10_000_000_001, any][random.below(5) as usize];
    let library = jgv_geodetic_z(sine, eccentricity);
    same("geodetic sine", library, geodetic_z(sine, eccentricity));
    let divided = geodetic_z_divided(sine, eccentricity);
    let near = divided.refusal == library.refusal && divided.z.abs_diff(library.z) <= 1;
    same("geodetic sine by a division, within 1", true, near);
    same(
        "geodetic fix",
        jgv_geodetic_code(n, s, k, longitude, sine, eccentricity),
        geodetic_code(n, s, k, longitude, sine, eccentricity),
    );
}

/// Any number of metres: an end of the range or a double beside it, a number within it, or any double.
fn any_metres(random: &mut Random) -> f64 {
    let ends = [1.0, 1_073_741_824.0, 0.0, -0.0, f64::INFINITY, f64::NAN];
    match random.below(4) {
        0 => ends[random.below(6) as usize],
        1 => f64::from_bits(1f64.to_bits() + random.below(3) - 1),
        2 => random.between(-5_000_000_000, 5_000_000_000) as f64 / 3.0,
        _ => f64::from_bits(random.word()),
    }
}

/// Marks of points in the image and around it, boxes and frames, bit by bit.
fn metres(random: &mut Random, n: u64, s: u64, code: u64) {
    let (x, y) = (
        random.between(-1, 8) * 14_348_907 + random.between(-1, 1),
        random.between(-4, 4) * 14_348_907 + random.between(-1, 1),
    );
    let side = match random.below(4) {
        0 => any_metres(random),
        _ => 1.0 + random.below(1 << 40) as f64 / 1024.0,
    };
    let [left, bottom, right, top] = [0; 4].map(|_| any_metres(random));
    let frame = Frame {
        left,
        bottom,
        right,
        top,
    };
    let mark = |of: MarkAnswer| (of.refusal, of.kind, of.numbers.map(f64::to_bits));
    let edges = |of: FrameAnswer| {
        let edges = [of.left, of.bottom, of.right, of.top];
        (of.refusal, edges.map(f64::to_bits))
    };
    let library = jgv_mark_point(side, n, s, x, y);
    same(
        "mark of a point",
        mark(library),
        mark(mark_point(side, n, s, x, y)),
    );
    let library = jgv_mark_code(side, code);
    same("mark of a code", mark(library), mark(mark_code(side, code)));
    let library = jgv_frame_first(side, code);
    same(
        "first frame",
        edges(library),
        edges(frame_first(side, code)),
    );
    let library = jgv_frame_grow(side, frame, code);
    same(
        "frame grown",
        edges(library),
        edges(frame_grow(side, frame, code)),
    );
}

/// The ends of the ranges and a unit beside them: the antimeridian by both of its numbers, the belt's borders, the poles.
fn ends(random: &mut Random, n: u64, s: u64, k: u64) {
    let heights = [
        0,
        666_666_666_666_666_666,
        880_000_000_000_000_000,
        1_000_000_000_000_000_000,
    ];
    let height = heights[random.below(4) as usize] + random.between(-1, 1);
    for half_turn in [-1_800_000_000, 1_800_000_000] {
        let longitude = half_turn + random.between(-1, 1);
        for z in [height, -height] {
            let library = jgv_fix_code(n, s, k, longitude, z);
            same("fix at an end", library, fix_code(n, s, k, longitude, z));
        }
    }
}

/// A hair from an edge of two cells: on the middle line of a triangle and a unit beside it.
fn edges(random: &mut Random, n: u64, s: u64, k: u64) {
    let ninth = 37_037_037_037_037_037 / (1 + random.below(9) as i64);
    let height = 1_000_000_000_000_000_000 - ninth + random.between(-1, 1);
    let longitude = -1_350_000_000 + 900_000_000 * random.between(0, 3) + random.between(-1, 1);
    for z in [height, -height] {
        let library = jgv_fix_code(n, s, k, longitude, z);
        same("fix at an edge", library, fix_code(n, s, k, longitude, z));
    }
}

fn names(random: &mut Random) {
    let (code, room) = (any_code(random), random.below(18) as usize);
    let (mut library, mut plain) = ([7; 18], [7; 18]);
    let lengths = (
        lent::code_name(code, &mut library[..room]),
        code_name(code, plain.as_mut_ptr(), room),
    );
    same("name", (lengths.0, library), (lengths.1, plain));
    let (n, s) = (random.below(9) / 2, random.below(9) / 2);
    if random.below(2) == 0 {
        library[random.below(18) as usize] = BYTES[random.below(BYTES.len() as u64) as usize];
    }
    same(
        "name to code",
        lent::name_code(n, s, &library[..room]),
        name_code(n, s, library.as_ptr(), room),
    );
}

/// Changes, adds or cuts at up to two places.
fn spoil(random: &mut Random, text: &mut Vec<u8>) {
    for _ in 0..random.below(3) {
        let (at, byte) = (
            random.below(text.len() as u64) as usize,
            BYTES[random.below(BYTES.len() as u64) as usize],
        );
        match random.below(3) {
            0 => text[at] = byte,
            1 => text.insert(at, byte),
            _ => text.truncate(at + 1),
        }
    }
}

fn texts(random: &mut Random) {
    let resolution = 5 + random.below(11);
    let (codes, mut text) = swath(random, resolution, 300);
    if random.below(2) == 0 {
        text = handheld(random, resolution, &codes);
    }
    if random.below(4) == 0 {
        text[5] = b'0' + random.below(4) as u8;
        text[6] = b'0' + random.below(4) as u8;
    }
    spoil(random, &mut text);
    let (at, length, room) = (text.as_ptr(), text.len(), random.below(400) as usize);
    let code = any_code(random);
    let (mut library, mut plain) = ([7; 400], [7; 400]);
    same(
        "check",
        lent::coverage_check(&text),
        coverage_check(at, length),
    );
    same(
        "ask",
        lent::coverage_ask(&text, code),
        coverage_ask(at, length, code),
    );
    let counts = (
        lent::coverage_list(&text, &mut library[..room]),
        coverage_list(at, length, plain.as_mut_ptr(), room),
    );
    same("list", (counts.0, library), (counts.1, plain));
    let kept = lent::summary(&text);
    same("summary", kept, summary(at, length));
    let (n, s) = (random.below(9) / 2, kept.s);
    same(
        "ask a summary",
        jgv_summary_ask(n, s, &kept.counters, code & !0xff),
        summary_ask(n, s, &kept.counters, code & !0xff),
    );
    add(random, &codes, &text);
    compared(random, &text);
    sheets(random, &text);
    rescued(&mut Random(!random.0));
}

/// A hand-edited text, spoilt now and then, with room for it and its changes or not. Its numbers are drawn apart from the others'.
fn rescued(random: &mut Random) {
    let resolution = 1 + random.below(15);
    let mut text = edited(random, resolution, 300);
    spoil(random, &mut text);
    let (room, change_room) = (random.below(320) as usize, random.below(400) as usize);
    let (mut library, mut plain) = (([7; 320], [7; 400]), ([7; 320], [7; 400]));
    let answers = (
        lent::coverage_rescue(&text, &mut library.0[..room], &mut library.1[..change_room]),
        coverage_rescue(
            text.as_ptr(),
            text.len(),
            plain.0.as_mut_ptr(),
            room,
            plain.1.as_mut_ptr(),
            change_room,
        ),
    );
    same("rescue", (answers.0, library), (answers.1, plain));
}

/// The neighbour sheet of a text, whole or short of room; and a sheet that is ours, cut, overlong or wrong in a byte.
fn sheets(random: &mut Random, text: &[u8]) {
    let (at, length) = (text.as_ptr(), text.len());
    let room = random.below(16_000) as usize;
    let (mut library, mut plain) = ([7; 16_000], [7; 16_000]);
    let lengths = (
        lent::sheet_write(text, &mut library[..room]),
        sheet_write(at, length, plain.as_mut_ptr(), room),
    );
    same("write a sheet", (lengths.0, library), (lengths.1, plain));
    let written = lengths.0.length as usize;
    let mut sheet = library[..(written + random.below(3) as usize).min(library.len())].to_vec();
    match random.below(4) {
        0 => sheet.truncate(random.below(sheet.len() as u64 + 1) as usize),
        1 if !sheet.is_empty() => {
            let spoilt = random.below(sheet.len() as u64) as usize;
            sheet[spoilt] ^= 1 << random.below(8);
        }
        _ => {}
    }
    same(
        "check a sheet",
        lent::sheet_check(text, &sheet),
        sheet_check(at, length, sheet.as_ptr(), sheet.len()),
    );
}

/// A cell added to a text, good or bad: a cell of the text's flight, a coarser or a finer one beside it, or any; with room for it or not, and now and then
/// a length that is not the text's.
fn add(random: &mut Random, codes: &[u64], text: &[u8]) {
    let near = codes[random.below(codes.len() as u64) as usize];
    let code = match random.below(6) {
        0 => any_code(random),
        1 => jgv_child(near, random.below(9)).code,
        2 => jgv_neighbour(near, random.below(4)).code,
        3 => jgv_neighbour(jgv_parent(near).code, random.below(4)).code,
        _ => jgv_parent(near).code,
    };
    let turned = match text.get(5..7) {
        Some(&[n @ b'0'..=b'3', s @ b'0'..=b'3']) if random.below(4) > 0 => {
            u64::from((n - b'0') << 2 | (s - b'0'))
        }
        _ => random.below(16),
    };
    let length = match random.below(8) {
        0 => random.below(400),
        _ => text.len() as u64,
    };
    let room = text.len() + random.below(60) as usize;
    let mut library = [7; 500];
    library[..text.len()].copy_from_slice(text);
    let mut plain = library;
    let code = code & !15 | turned;
    let answers = (
        lent::coverage_add(&mut library[..room], length, code),
        coverage_add(plain.as_mut_ptr(), room, length, code),
    );
    same("add", (answers.0, library), (answers.1, plain));
}

/// A text and another one, with some of its cells and some others, spoilt now and then.
fn compared(random: &mut Random, first: &[u8]) {
    let resolution = 5 + random.below(11);
    let (mut codes, _) = swath(random, resolution, 200);
    let mut own = [0; 400];
    let listed = lent::coverage_list(first, &mut own);
    if listed.refusal == 0 {
        let half = listed.count as usize / 2;
        codes.extend(own[..half].iter().map(|code| code & !15));
        codes.sort_unstable();
        codes.retain({
            let mut end = 0;
            move |code| {
                let free = end <= code >> 8;
                if free {
                    end = (code >> 8) + NINE[15 - (code >> 4 & 15) as usize];
                }
                free
            }
        });
    }
    let mut second = write(FULL, 0, 0, &codes);
    if first.len() > 7 && random.below(8) > 0 {
        second[5..7].copy_from_slice(&first[5..7]);
    }
    if random.below(4) == 0 {
        spoil(random, &mut second);
    }
    let rooms = [(); 3].map(|_| random.below(1_500) as usize);
    let (mut library, mut plain) = ([[7; 1_500]; 3], [[7; 1_500]; 3]);
    let [one, two, three] = library.each_mut();
    let by_library = lent::coverage_compare(
        first,
        &second,
        &mut one[..rooms[0]],
        &mut two[..rooms[1]],
        &mut three[..rooms[2]],
    );
    let by_plain = coverage_compare(
        first.as_ptr(),
        first.len(),
        second.as_ptr(),
        second.len(),
        plain[0].as_mut_ptr(),
        rooms[0],
        plain[1].as_mut_ptr(),
        rooms[1],
        plain[2].as_mut_ptr(),
        rooms[2],
    );
    same("compare", (by_library, library), (by_plain, plain));
}

/// A text of version 2 of the cells, most often with a depth that they keep to.
fn handheld(random: &mut Random, resolution: u64, codes: &[u64]) -> Vec<u8> {
    let depth = match random.below(8) {
        0 => random.below(16),
        _ => resolution,
    };
    write(Profile { version: 2, depth }, 0, 0, codes)
}

/// What the writer is asked: both versions, and now and then a version that there is not or a depth above 15.
fn asked(random: &mut Random, resolution: u64) -> (u64, u64) {
    let depth = match random.below(3) {
        0 => random.below(17),
        _ => resolution,
    };
    (1 + random.below(17) / 8, depth)
}

fn lists(random: &mut Random) {
    let resolution = 5 + random.below(11);
    let (mut codes, text) = swath(random, resolution, 2_000);
    let both = random.below(16);
    codes.iter_mut().for_each(|code| *code |= both);
    if random.below(2) == 0 {
        let at = random.below(codes.len() as u64) as usize;
        codes[at] = match random.below(2) {
            0 => any_code(random),
            _ => codes[at] ^ random.below(16),
        };
    }
    let n = match random.below(4) {
        0 => random.below(5),
        _ => both >> 2,
    };
    let (s, room) = (both & 3, text.len() + 1 - random.below(3) as usize);
    let (version, depth) = asked(random, resolution);
    let (mut library, mut plain) = ([7; 2_001], [7; 2_001]);
    let lengths = (
        lent::coverage_write(version, depth, n, s, &codes, &mut library[..room]),
        coverage_write(
            version,
            depth,
            n,
            s,
            codes.as_ptr(),
            codes.len(),
            plain.as_mut_ptr(),
            room,
        ),
    );
    same("write", (lengths.0, library), (lengths.1, plain));
}
