//! Inputs from a seed.

use crate::plain::{neighbour, writing, NINE};
use std::collections::BTreeSet;

/// SplitMix64.
pub struct Random(pub u64);

impl Random {
    pub fn word(&mut self) -> u64 {
        self.0 = self.0.wrapping_add(0x9e37_79b9_7f4a_7c15);
        let x = (self.0 ^ (self.0 >> 30)).wrapping_mul(0xbf58_476d_1ce4_e5b9);
        let x = (x ^ (x >> 27)).wrapping_mul(0x94d0_49bb_1331_11eb);
        x ^ (x >> 31)
    }

    pub fn below(&mut self, end: u64) -> u64 {
        ((self.word() as u128 * end as u128) >> 64) as u64
    }

    /// From the first number to the second, both included.
    pub fn between(&mut self, first: i64, last: i64) -> i64 {
        first + self.below((last - first) as u64 + 1) as i64
    }
}

/// A position in both forms: whole numbers, and the doubles of them in the units that each baseline takes.
#[derive(Default)]
pub struct Points {
    pub fixes: Vec<(i64, i64)>,
    pub z: Vec<f64>,
    pub longitude: Vec<f64>,
    pub latitude: Vec<f64>,
    /// The longitude from 0 to 2 pi.
    pub phi: Vec<f64>,
}

impl Points {
    /// Uniform over the part of the sphere where `keep` holds of z; z is uniform on a sphere.
    pub fn new(random: &mut Random, count: usize, keep: impl Fn(i64) -> bool) -> Points {
        const ONE: i64 = 1_000_000_000_000_000_000;
        let mut points = Points::default();
        while points.fixes.len() < count {
            let (longitude, z) = (
                random.between(-1_800_000_000, 1_799_999_999),
                random.between(-ONE, ONE),
            );
            if keep(z) {
                points.push(longitude, z);
            }
        }
        points
    }

    fn push(&mut self, longitude: i64, z: i64) {
        let (east, sine) = ((longitude as f64 / 1e7).to_radians(), z as f64 / 1e18);
        self.fixes.push((longitude, z));
        self.z.push(sine);
        self.longitude.push(east);
        self.latitude.push(sine.asin());
        self.phi.push(if east < 0.0 {
            east + std::f64::consts::TAU
        } else {
            east
        });
    }
}

/// A code, uniform over the cells of a resolution, at n = s = 0.
pub fn code(random: &mut Random, resolution: u64) -> u64 {
    let unit = NINE[15 - resolution as usize];
    ((random.below(6 * NINE[resolution as usize]) * unit) << 8) | (resolution << 4)
}

/// The 4n + s of a code in a list: n and s go round with its place.
pub fn arrangement(place: u64) -> u64 {
    place % 4 * 4 + place / 4 % 4
}

/// Codes of all resolutions and arrangements alike.
pub fn codes(random: &mut Random, count: usize) -> Vec<u64> {
    (0..count as u64)
        .map(|i| {
            let resolution = random.below(16);
            code(random, resolution) | arrangement(i)
        })
        .collect()
}

/// Codes of a flight over cells of a resolution, rising, and its coverage text, as long as it can be up to `longest` bytes: straight
/// legs, three cells wide, that turn at random and now and then start elsewhere. At a coarse resolution the legs end before.
pub fn swath(random: &mut Random, resolution: u64, longest: usize) -> (Vec<u64>, Vec<u8>) {
    let mut cells = BTreeSet::new();
    let mut at = code(random, resolution);
    let mut best = (Vec::new(), Vec::new());
    for _ in 0..2_000 {
        let (before, ahead) = (best.1.len(), random.below(4));
        let legs = ((longest - before) / 64).clamp(1, 200);
        for _ in 0..legs {
            for side in [(ahead + 1) % 4, (ahead + 3) % 4] {
                cells.insert(next(at, side));
            }
            cells.insert(at);
            at = next(at, ahead);
        }
        if random.below(12) == 0 {
            at = code(random, resolution);
        }
        let codes: Vec<u64> = cells.iter().copied().collect();
        let text = writing::write(writing::FULL, 0, 0, &codes);
        if text.len() > longest {
            return best;
        }
        best = (codes, text);
    }
    best
}

fn next(code: u64, direction: u64) -> u64 {
    neighbour::neighbour(code, direction).code
}

/// The nodes of a list, or the faces of a body: each a letter or digit, with its list.
fn nodes(mut bytes: &[u8]) -> Vec<&[u8]> {
    let mut nodes = Vec::new();
    while !bytes.is_empty() {
        let (mut end, mut open) = (1, 0);
        while open > 0 || bytes.get(end) == Some(&b'(') {
            open += (bytes[end] == b'(') as u64;
            open -= (bytes[end] == b')') as u64;
            end += 1;
        }
        nodes.push(&bytes[..end]);
        bytes = &bytes[end..];
    }
    nodes
}

/// The same nodes in another order, or with some more, list by list from the inmost out; `change` is told the depth.
fn relisted(
    bytes: &[u8],
    depth: usize,
    change: &mut impl FnMut(&mut Vec<Vec<u8>>, usize),
) -> Vec<u8> {
    let mut all: Vec<Vec<u8>> = Vec::new();
    for node in nodes(bytes) {
        all.push(match node {
            [mark, b'(', list @ .., b')'] => {
                let list = relisted(list, depth + 1, change);
                [&[*mark, b'('], &list[..], b")"].concat()
            }
            mark => mark.to_vec(),
        });
    }
    change(&mut all, depth);
    all.concat()
}

/// A text with the order of each list turned round.
pub fn falling(text: &[u8]) -> Vec<u8> {
    let body = relisted(&text[7..], 0, &mut |nodes, _| nodes.reverse());
    [&text[..7], &body].concat()
}

/// A flight's text as a person may have left it, of about `longest` bytes and not more.
pub fn edited(random: &mut Random, resolution: u64, longest: usize) -> Vec<u8> {
    let mut before = longest * 7 / 8;
    loop {
        let (_, text) = swath(random, resolution, before);
        let body = relisted(&text[7..], 0, &mut |nodes, depth| {
            edit(random, nodes, depth)
        });
        if body.len() + 7 <= longest {
            return [&text[..7], &body].concat();
        }
        before -= before / 16;
    }
}

/// In one list of four two nodes are exchanged, in one of eight a whole node is there twice, in one of sixteen there is an empty list, and in one of
/// sixteen a whole cell is divided into nine.
fn edit(random: &mut Random, nodes: &mut Vec<Vec<u8>>, depth: usize) {
    let mut any = || random.below(nodes.len() as u64) as usize;
    let (one, two) = (any(), any());
    let (whole, mark) = (nodes[one].len() == 1, nodes[one][0]);
    match random.below(16) {
        0..4 => nodes.swap(one, two),
        4..6 if whole => nodes.insert(two, vec![mark]),
        6 => nodes.insert(two, vec![mark, b'(', b')']),
        7 if whole && depth < 15 => nodes[one].extend(b"(012345678)"),
        _ => {}
    }
}

/// The fixes of a survey: legs to and fro over a field, each a little north of the last, with some drift.
pub fn survey(random: &mut Random, count: usize) -> Vec<(i64, i64)> {
    let (mut longitude, mut z, mut east) = (-1_000_000_000_i64, 600_000_000_000_000_000_i64, true);
    let mut fixes = Vec::new();
    for _ in 0..count {
        fixes.push((longitude, z));
        longitude += if east { 9_000 } else { -9_000 } + random.between(-500, 500);
        z += random.between(-4_000_000_000_000, 4_000_000_000_000);
        if (east && longitude > -980_000_000) || (!east && longitude < -1_020_000_000) {
            east = !east;
            z += 120_000_000_000_000;
        }
    }
    fixes
}

/// The same as lines `longitude z`.
pub fn flight(random: &mut Random, count: usize) -> String {
    let line = |(longitude, z)| format!("{longitude} {z}\n");
    survey(random, count).into_iter().map(line).collect()
}
