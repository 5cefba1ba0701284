//! The greatest stack depth of each entry: it runs on a painted stack, over many inputs, and the deepest byte that changed counts.

use crate::inputs::{arrangement, code, falling, swath, Points, Random};
use crate::library::TextSummary;
use crate::plain::coverage::coverage_list;
use crate::plain::NINE;
use jeguarivo::*;
use std::arch::asm;

/// An answer of many numbers is in memory of the caller, which is the hidden first argument on x86-64: here it is no part of the painted stack.
type SummaryTo = unsafe extern "C" fn(*mut Summary, *const u8, usize);

/// Sixteen mebibytes: rescuing a text touches more than one.
const SIZE: usize = 1 << 24;
const PAINT: u8 = 0xa5;

struct Stack(Vec<u8>);

impl Stack {
    /// Runs `work` on this stack. Nothing may unwind out of it; the program is built to abort on a panic.
    fn run<F: FnMut()>(&mut self, mut work: F) {
        extern "C" fn call<F: FnMut()>(work: *mut F) {
            unsafe { (*work)() }
        }
        let top = (self.0.as_mut_ptr() as usize + SIZE) & !15;
        unsafe {
            // r12 outlives the call: it holds the old stack pointer meanwhile
            asm!("xchg rsp, r12", "call {call}", "mov rsp, r12", call = in(reg) call::<F> as extern "C" fn(*mut F),
                in("rdi") &mut work, inout("r12") top => _, clobber_abi("C"));
        }
    }

    fn depth(&self) -> usize {
        let top = (self.0.as_ptr() as usize + SIZE) & !15;
        let touched = self
            .0
            .iter()
            .position(|&byte| byte != PAINT)
            .unwrap_or(SIZE);
        top - (self.0.as_ptr() as usize + touched).min(top)
    }
}

/// The depth that `work` touches.
fn depth(work: impl FnMut()) -> usize {
    let mut stack = Stack(vec![PAINT; SIZE]);
    stack.run(work);
    stack.depth()
}

/// What the calls share: many numbers, and texts and lists that nest and repeat as far as they can.
struct Inputs {
    codes: Vec<u64>,
    points: Vec<(i64, i64)>,
    texts: Vec<Vec<u8>>,
    lists: Vec<Vec<u64>>,
}

fn inputs(random: &mut Random, check: bool) -> Inputs {
    let count = if check { 2_000 } else { 100_000 };
    let mut codes: Vec<u64> = (0..count)
        .map(|i| code(random, i % 16) | arrangement(i))
        .collect();
    codes.extend([u64::MAX, 19 << 4, 1 << 60]);
    let points = Points::new(random, count as usize, |_| true).fixes;
    let (mut texts, mut lists) = (deep_texts(), vec![Vec::new()]);
    for resolution in [9, 12, 15] {
        let (list, text) = swath(random, resolution, if check { 4_096 } else { 65_536 });
        lists.push(list);
        texts.push(text);
    }
    lists.push(listed(&texts[0]));
    // siblings that merge through five levels, and cells that share no list
    lists.push((0..NINE[5]).map(|i| (i << 8) | 15 << 4).collect());
    let apart = NINE[13] / 100;
    lists.push((0..1_000).map(|i| ((i * apart) << 8) | 15 << 4).collect());
    Inputs {
        codes,
        points,
        texts,
        lists,
    }
}

/// The fullest text, with eight whole nodes before each list, then one node in each, in six faces; and both cut and spoilt. The same in four
/// faces at version 2.
fn deep_texts() -> Vec<Vec<u8>> {
    let close = ")".repeat(15);
    let fullest = format!("{}(01234567{close}", "(012345678".repeat(14));
    let leanest = format!("{}{close}", "(8".repeat(15));
    let mut texts = Vec::new();
    for list in [fullest, leanest] {
        for (heading, faces) in [("CVR\0\x0100", "NOPQRS"), ("CVR\0\x0200p", "OPQR")] {
            let body: String = faces.chars().map(|face| format!("{face}{list}")).collect();
            let text = [heading.as_bytes(), body.as_bytes()].concat();
            let cut = text[..text.len() - 15].to_vec();
            let spoilt = [&cut[..], b"9"].concat();
            texts.extend([text, cut, spoilt]);
        }
    }
    texts
}

fn listed(text: &[u8]) -> Vec<u64> {
    let mut codes = vec![0; text.len()];
    let answer = coverage_list(text.as_ptr(), text.len(), codes.as_mut_ptr(), codes.len());
    codes.truncate(answer.count as usize);
    codes
}

/// Each entry's name and depth, without what the harness itself takes.
pub fn depths(random: &mut Random, check: bool) -> Vec<(&'static str, usize)> {
    let own = depth(|| {
        std::hint::black_box(());
    });
    let inputs = inputs(random, check);
    let mut depths = numbers(&inputs);
    depths.extend(texts(&inputs));
    depths.extend(settings(&inputs));
    depths
        .into_iter()
        .map(|(name, depth)| (name, depth.saturating_sub(own)))
        .collect()
}

macro_rules! depths {
    ($($entry:ident: $inputs:expr, $input:pat => ($($argument:expr),*);)*) => {
        vec![$((stringify!($entry), depth(|| for $input in $inputs {
            #[allow(unused_unsafe)] // for the entries that take numbers alone
            std::hint::black_box(unsafe { $entry($($argument),*) });
        }))),*]
    };
}

fn numbers(inputs: &Inputs) -> Vec<(&'static str, usize)> {
    let (codes, points) = (&inputs.codes, &inputs.points);
    let (mut name, mut corners) = ([0; 16], [0; 4]);
    let (mut seven, mut two) = ([0; 7], [0; 2]);
    let frame = Frame {
        left: 1e7,
        bottom: -1.0,
        right: 2e7,
        top: 1.0,
    };
    depths! {
        jgv_cell_code: codes, &code => (code & 3, code >> 2 & 3, code % 7, code >> 12 & 15, code % 20_000_000 / 3, code % 10_000_019);
        jgv_code_cell: codes, &code => (code);
        jgv_code_cells: codes, code => (code, 1, seven.as_mut_ptr(), 7);
        jgv_cell_codes: codes, _ => (seven[1..].as_ptr(), 6, two.as_mut_ptr(), 2);
        jgv_name_code: codes, &code => (code & 3, code >> 2 & 3, name.as_ptr(), 1 + (code >> 4 & 15) as usize);
        jgv_code_name: codes, &code => (code, name.as_mut_ptr(), 16);
        jgv_parent: codes, &code => (code);
        jgv_child: codes, &code => (code, code >> 12 & 7);
        jgv_size: codes, &code => (code);
        jgv_shape: codes, &code => (code);
        jgv_corner_count: codes, &code => (code);
        jgv_corner_cells: codes, &code => (code, corners.as_mut_ptr(), corners.len());
        jgv_square: codes, &code => (code);
        jgv_nucleus: codes, &code => (code);
        jgv_vertices: codes, &code => (code);
        jgv_point_code: points, &(x, z) => (0, 0, z as u64 & 15, x.abs() % 114_791_256, z % 43_046_721);
        jgv_fix_code: points, &(longitude, z) => (z as u64 & 3, 0, longitude as u64 & 15, longitude, z);
        jgv_geodetic_z: points, &(longitude, sine) => (sine, longitude.unsigned_abs() << 2);
        jgv_geodetic_code: points, &(longitude, sine) => (sine as u64 & 3, 0, longitude as u64 & 15, longitude, sine, longitude.unsigned_abs() << 2);
        jgv_ground_nucleus: codes, &code => (code);
        jgv_neighbour: codes, &code => (code, code >> 12 & 3);
        jgv_mark_point: points, &(x, z) => (1e7, 0, 0, x.abs() % 114_791_256, z % 43_046_721);
        jgv_mark_code: codes, &code => (1e7, code);
        jgv_frame_first: codes, &code => (1e7, code);
        jgv_frame_grow: codes, &code => (1e7, frame, code);
    }
}

/// Texts in a room, each with cells to add: the first and the last finest cell of each face, and cells in lists fifteen deep.
fn added(texts: &[Vec<u8>]) -> Vec<(Vec<u8>, u64, u64)> {
    let mut added = Vec::new();
    for text in texts {
        for face in 0..6 {
            for path in [0, NINE[15] - 1, NINE[15] - 2, NINE[15] - 10] {
                let mut room = text.clone();
                room.resize(65_536.max(text.len()), 0);
                let code = ((face * NINE[15] + path) << 8) | 15 << 4;
                added.push((room, text.len() as u64, code));
            }
        }
    }
    added
}

fn texts(inputs: &Inputs) -> Vec<(&'static str, usize)> {
    let (texts, lists) = (&inputs.texts, &inputs.lists);
    let (mut codes, mut room) = (vec![0; 65_536], vec![0; 65_536]);
    let mut added = added(texts);
    let [mut firsts, mut seconds, mut boths] = [(); 3].map(|_| vec![0; 65_536]);
    let mut sheet = vec![0; 40 * 65_536];
    let mut changes = vec![0; 4 * 65_536];
    let backward = [&texts[0], &texts[texts.len() - 1]].map(|text| falling(text));
    let whole = b"CVR\0\x0100NOPQRS";
    let mut summary = Box::new(Summary::refused(0));
    let jgv_summary: SummaryTo = unsafe { std::mem::transmute(jgv_summary as TextSummary) };
    let counters = [0; 486];
    depths! {
        jgv_coverage_check: texts, text => (text.as_ptr(), text.len());
        jgv_coverage_list: texts, text => (text.as_ptr(), text.len(), codes.as_mut_ptr(), codes.len());
        jgv_coverage_write: lists, list => (1, 15, 0, 0, list.as_ptr(), list.len(), room.as_mut_ptr(), room.len());
        jgv_coverage_ask: texts, text => (text.as_ptr(), text.len(), 15 << 4);
        jgv_summary: texts, text => (&mut *summary, text.as_ptr(), text.len());
        jgv_summary_ask: &inputs.codes, &code => (code & 3, code >> 2 & 3, &counters, code);
        jgv_coverage_add: &mut added, (text, length, code) => (text.as_mut_ptr(), text.len(), *length, *code);
        jgv_coverage_compare: texts, text => (text.as_ptr(), text.len(), whole.as_ptr(), whole.len(), firsts.as_mut_ptr(), firsts.len(), seconds.as_mut_ptr(), seconds.len(), boths.as_mut_ptr(), boths.len());
        jgv_coverage_rescue: texts.iter().chain(&backward), text => (text.as_ptr(), text.len(), room.as_mut_ptr(), room.len(), changes.as_mut_ptr(), changes.len());
        jgv_sheet_write: texts, text => (text.as_ptr(), text.len(), sheet.as_mut_ptr(), sheet.len());
        jgv_sheet_check: texts, text => (text.as_ptr(), text.len(), sheet.as_ptr(), sheet.len());
    }
}

/// A history is handed over by value: the caller's copy of it, 1,032 bytes, is on the stack too, and so is the answer's.
fn settings(inputs: &Inputs) -> Vec<(&'static str, usize)> {
    let codes = &inputs.codes;
    let mut history = jgv_settings_fresh(0, 0, 9, 0).history;
    for revision in 0..40 {
        history = jgv_settings_change(history, revision, 1, 2, revision % 16, revision).history;
    }
    depths! {
        jgv_settings_fresh: codes, &code => (code & 3, code >> 2 & 3, code >> 4 & 15, code);
        jgv_settings_change: codes, &code => (history, 40 - (code >> 8 & 1), code & 3, code >> 2 & 3, code >> 4 & 15, code >> 40);
        jgv_settings_back: codes, &code => (history, 40 - (code >> 8 & 1), code >> 12 & 63);
        jgv_settings_read: codes, &code => (history, code >> 12 & 63);
    }
}
