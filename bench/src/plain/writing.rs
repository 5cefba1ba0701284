//! Writing a coverage text: nine whole siblings are merged on a stack, then the cells are written list by list.

use super::codes::{arrangement, parts};
use super::coverage::LONGEST;
use super::NINE;
use jeguarivo::Length;

/// What text is asked for: its version and its greatest depth.
#[derive(Clone, Copy)]
pub struct Profile {
    pub version: u64,
    pub depth: u64,
}

/// Version 1.
pub const FULL: Profile = Profile {
    version: 1,
    depth: 15,
};

/// The first finest cell and the one after the last.
fn range(code: u64) -> (u64, u64) {
    let first = code >> 8;
    (first, first + NINE[15 - (code >> 4 & 15) as usize])
}

fn refusal(version: u64, n: u64, s: u64, codes: &[u64]) -> u64 {
    if codes.iter().any(|&code| parts(code).is_none()) {
        return 4;
    }
    if !(1..=2).contains(&version) {
        return 10;
    }
    if codes.iter().any(|&code| arrangement(code) != (n, s)) {
        return 14;
    }
    if codes
        .windows(2)
        .any(|pair| pair[0] >= pair[1] || range(pair[0]).1 > range(pair[1]).0)
    {
        return 11;
    }
    0
}

/// The whole cells of the text, as codes without n and s: a stack on which nine siblings become their parent.
pub fn merged(codes: &[u64]) -> Vec<u64> {
    let mut stack = Vec::with_capacity(codes.len());
    for &code in codes {
        stack.push(code >> 4);
        while let Some(parent) = full_parent(&stack) {
            stack.truncate(stack.len() - 9);
            stack.push(parent);
        }
    }
    stack
}

/// The parent of the last nine cells, where they are its children.
fn full_parent(stack: &[u64]) -> Option<u64> {
    let nine = stack.last_chunk::<9>()?;
    let resolution = nine[8] & 15;
    let unit = NINE[15 - resolution as usize];
    let first = nine[0] >> 4;
    if resolution == 0 || nine[0] != nine[8].wrapping_sub(8 * unit << 4) || first % (9 * unit) != 0
    {
        return None;
    }
    let siblings = nine
        .iter()
        .zip(0..)
        .all(|(&code, i)| code == ((first + i * unit) << 4) | resolution);
    siblings.then(|| (first << 4) | (resolution - 1))
}

/// Writes the nodes of a resolution from `start` to `end` that hold some of the merged cells; `byte` is the first one's. Answers the
/// cells that are left.
fn put<'a>(
    mut cells: &'a [u64],
    mut byte: u8,
    mut start: u64,
    end: u64,
    resolution: u64,
    text: &mut Vec<u8>,
) -> &'a [u64] {
    let size = NINE[15 - resolution as usize];
    while start < end {
        if let Some(&code) = cells.first().filter(|&&code| code >> 4 < start + size) {
            text.push(byte);
            if code == (start << 4) | resolution {
                cells = &cells[1..];
            } else {
                text.push(b'(');
                cells = put(cells, b'0', start, start + size, resolution + 1, text);
                text.push(b')');
            }
        }
        start += size;
        byte += 1;
    }
    cells
}

/// Whether merged cells keep to a profile: at version 2 N and S are whole and nothing is deeper.
fn keeps(profile: Profile, cells: &[u64]) -> bool {
    let caps = [0, 5 * NINE[15]];
    profile.version == 1
        || cells.iter().all(|&cell| {
            let (first, resolution) = (cell >> 4, cell & 15);
            let in_cap = caps
                .iter()
                .any(|&cap| cap <= first && first < cap + NINE[15]);
            resolution <= profile.depth && (resolution == 0 || !in_cap)
        })
}

/// The text of cells that rise and are merged.
pub fn text_of(profile: Profile, n: u64, s: u64, cells: &[u64]) -> Vec<u8> {
    let mut text = Vec::with_capacity(8 + 2 * cells.len());
    text.extend_from_slice(b"CVR\0");
    text.extend_from_slice(&[profile.version as u8, b'0' + n as u8, b'0' + s as u8]);
    if profile.version == 2 {
        text.push(b'a' + profile.depth as u8);
    }
    put(cells, b'N', 0, 6 * NINE[15], 0, &mut text);
    text
}

/// The text of rising cells, none inside another, which keep to the profile.
pub fn write(profile: Profile, n: u64, s: u64, codes: &[u64]) -> Vec<u8> {
    text_of(profile, n, s, &merged(codes))
}

#[inline(never)]
pub extern "C" fn coverage_write(
    version: u64,
    depth: u64,
    n: u64,
    s: u64,
    codes: *const u64,
    count: usize,
    text: *mut u8,
    room: usize,
) -> Length {
    let codes = unsafe { std::slice::from_raw_parts(codes, count) };
    if n > 3 || s > 3 {
        return Length::refused(5);
    }
    if depth > 15 {
        return Length::refused(2);
    }
    match refusal(version, n, s, codes) {
        0 => {}
        refusal => return Length::refused(refusal),
    }
    let (profile, cells) = (Profile { version, depth }, merged(codes));
    if !keeps(profile, &cells) {
        return Length::refused(15);
    }
    let written = text_of(profile, n, s, &cells);
    if written.len() > LONGEST {
        return Length::refused(13);
    }
    if written.len() > room {
        return Length::refused(8);
    }
    unsafe { std::slice::from_raw_parts_mut(text, written.len()) }.copy_from_slice(&written);
    Length {
        refusal: 0,
        length: written.len() as u64,
    }
}
