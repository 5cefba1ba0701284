//! Inputs for the comparisons: random ones, ones at borders, and bad ones.

use crate::grid::{cells_along, code_of, old_code_of, square_of, Name, LETTERS, M};

/// What an input is meant to try. A bad one may still be a good one by chance.
#[derive(Clone, Copy, Debug, PartialEq, Eq)]
pub enum Kind {
    Random,
    Border,
    Bad,
}

pub const KINDS: [Kind; 3] = [Kind::Random, Kind::Border, Kind::Bad];

/// The greatest code, of S and fifteen 8s at n = s = 3.
pub const GREATEST: u64 = 316_248_778_897_380_863;

/// Bytes on either side of a lent buffer, which have to stay as they are.
pub const GUARD: usize = 16;

/// Digits of cells along an edge, at a corner, on a diagonal, in the middle.
const SPECIAL_DIGITS: [&[u8]; 14] = [
    b"012", b"036", b"258", b"678", b"0", b"2", b"6", b"8", b"048", b"246", b"4", b"147", b"345",
    b"08",
];

/// Numbers where a width or a sign ends.
const WIDTHS: [u64; 12] = [
    1 << 8,
    1 << 16,
    1 << 31,
    (1 << 32) - 1,
    1 << 32,
    (1 << 32) + 1,
    1 << 59,
    1 << 62,
    (1 << 63) - 1,
    1 << 63,
    (1 << 63) + 1,
    u64::MAX,
];

/// A splitmix64 generator.
pub struct Random(u64);

impl Random {
    /// The seed is fixed unless SECOND_SEED sets another; it is printed, so that a failed run can
    /// be run again.
    pub fn for_test(test: &str) -> Random {
        let seed = match std::env::var("SECOND_SEED") {
            Ok(text) => text.parse().expect("SECOND_SEED is a whole number"),
            Err(_) => 0x6A65_6775_6172_6976,
        };
        println!("{test}: SECOND_SEED={seed}");
        Random(test.bytes().fold(seed, |state, byte| {
            state.rotate_left(7).wrapping_add(u64::from(byte))
        }))
    }

    pub fn any(&mut self) -> u64 {
        self.0 = self.0.wrapping_add(0x9E37_79B9_7F4A_7C15);
        let mut z = self.0;
        z = (z ^ (z >> 30)).wrapping_mul(0xBF58_476D_1CE4_E5B9);
        z = (z ^ (z >> 27)).wrapping_mul(0x94D0_49BB_1331_11EB);
        z ^ (z >> 31)
    }

    /// A number below a limit.
    pub fn below(&mut self, limit: u64) -> u64 {
        ((u128::from(self.any()) * u128::from(limit)) >> 64) as u64
    }

    /// A number from `low` to `high`, both with.
    pub fn between(&mut self, low: i64, high: i64) -> i64 {
        low + self.below((high - low) as u64 + 1) as i64
    }

    pub fn pick<T: Copy>(&mut self, from: &[T]) -> T {
        from[self.below(from.len() as u64) as usize]
    }

    pub fn chance(&mut self, in_how_many: u64) -> bool {
        self.below(in_how_many) == 0
    }

    /// Whether this argument of a bad input is to be bad: half of them are, each by itself, so
    /// that several refusals meet and their order shows.
    pub fn spoils(&mut self, kind: Kind) -> bool {
        kind == Kind::Bad && self.chance(2)
    }

    /// A number that is not below a limit: at it, just past it, or a good one plus a width.
    pub fn past(&mut self, limit: u64) -> u64 {
        match self.below(4) {
            0 => limit,
            1 => limit + 1 + self.below(3),
            2 => self.pick(&WIDTHS).saturating_add(self.below(limit)),
            _ => self.any().max(limit),
        }
    }

    /// A number below a limit, or a bad one.
    pub fn number(&mut self, kind: Kind, limit: u64) -> u64 {
        if self.spoils(kind) {
            self.past(limit)
        } else if kind == Kind::Border {
            let middle = limit / 2;
            let border = [
                0,
                1,
                middle.saturating_sub(1),
                middle,
                middle + 1,
                limit - 1,
            ];
            self.pick(&border).min(limit - 1)
        } else {
            self.below(limit)
        }
    }

    /// n and s. A bad input has one or both bad, but seldom, as 5 comes before all else.
    pub fn arrangement(&mut self, kind: Kind) -> (u64, u64) {
        let (n, s) = (self.below(4), self.below(4));
        if kind != Kind::Bad || !self.chance(4) {
            return (n, s);
        }
        match self.below(3) {
            0 => (self.past(4), s),
            1 => (n, self.past(4)),
            _ => (self.past(4), self.past(4)),
        }
    }

    /// A resolution, seldom bad, for the same reason.
    pub fn resolution(&mut self, kind: Kind) -> u64 {
        if kind == Kind::Bad && self.chance(4) {
            self.past(16)
        } else {
            self.below(16)
        }
    }

    /// The name of a cell. At a border its digits keep to an edge, a corner, a diagonal or the
    /// middle of the face, some up to a first digit or but for the last one.
    pub fn name(&mut self, kind: Kind) -> Name {
        let mut name = vec![self.pick(&LETTERS)];
        let resolution = self.below(16);
        let special = match kind {
            Kind::Border => self.pick(&SPECIAL_DIGITS),
            _ => b"012345678",
        };
        for _ in 0..resolution {
            name.push(self.pick(special));
        }
        if kind == Kind::Border && resolution > 0 && self.chance(3) {
            let place = if self.chance(2) { 1 } else { resolution };
            name[place as usize] = self.pick(b"012345678");
        }
        name
    }

    /// The bytes of a name; bad ones are too long, too short, or have a damaged byte.
    pub fn name_bytes(&mut self, kind: Kind) -> Vec<u8> {
        let from = self.pick(&[Kind::Random, Kind::Border]);
        let mut bytes = self.name(from);
        if kind == Kind::Border {
            // just within and just past what a name may have
            let length = self.pick(&[0, 1, 2, 15, 16, 17, 18]);
            let digit = self.pick(b"08");
            bytes.resize(length, digit);
        }
        if self.spoils(kind) {
            let length = self.pick(&[0, 16, 17, 18, 19, 32, 256, 272, 300]);
            bytes.resize(length, b'3');
        }
        if self.spoils(kind) && !bytes.is_empty() {
            let place = if self.chance(3) {
                0
            } else {
                self.below(bytes.len() as u64)
            };
            bytes[place as usize] = self.damaged();
        }
        bytes
    }

    /// A byte that is seldom good: next to the good ones, above 127, or any.
    fn damaged(&mut self) -> u8 {
        match self.below(3) {
            0 => self.pick(b"MTntos/9:0N8S \0"),
            1 => 128 | self.any() as u8,
            _ => self.any() as u8,
        }
    }

    /// Memory filled with any bytes: a buffer of the given room to lend, and GUARD bytes on
    /// either side that are not lent.
    pub fn memory(&mut self, room: usize) -> Vec<u8> {
        (0..room + 2 * GUARD).map(|_| self.any() as u8).collect()
    }

    /// A code of any arrangement; a bad one is most often no cell's.
    pub fn code(&mut self, kind: Kind) -> u64 {
        if self.spoils(kind) {
            self.bad_code()
        } else {
            let name = self.name(kind);
            code_of(self.below(4), self.below(4), &name)
        }
    }

    /// Numbers near codes: one off, 01's code alone, another resolution, a digit below the
    /// resolution, past the greatest, a width too wide, or any. One off is most often the code of
    /// the same cell in another arrangement.
    pub fn bad_code(&mut self) -> u64 {
        let name = self.name(Kind::Random);
        let code = code_of(self.below(4), self.below(4), &name);
        match self.below(10) {
            0 => code.wrapping_add(self.pick(&[1, 16])),
            1 => code.wrapping_sub(self.pick(&[1, 16])),
            2 => code ^ self.below(256),
            3 => code + 256 * self.below(9u64.pow(16 - name.len() as u32)),
            4 => code + 256 * 9u64.pow(self.below(16) as u32),
            5 => GREATEST - 17 * 16 + self.below(64 * 16),
            6 => code.wrapping_add(self.pick(&WIDTHS)),
            7 => self.any() % (GREATEST + GREATEST / 9),
            8 => old_code_of(&name),
            _ => self.any(),
        }
    }

    /// A row or a column at a resolution (which may itself be bad): also at 3^k and past it.
    pub fn row(&mut self, kind: Kind, resolution: u64) -> u64 {
        let m = cells_along(resolution.min(15));
        match kind {
            Kind::Random => self.below(m),
            Kind::Border => {
                let border = [0, 1, m / 2, m / 3, m - 1, m.saturating_sub(2)];
                self.pick(&border).min(m - 1)
            }
            Kind::Bad if self.chance(3) => self.past(m),
            Kind::Bad => self.below(m),
        }
    }

    /// A planar point. At a border it is at most one unit from a corner, an edge or the middle
    /// line of a cell; random ones lie in the caps and the belt and around them.
    pub fn point(&mut self, kind: Kind, n: u64, s: u64) -> (i64, i64) {
        match kind {
            Kind::Random => (self.between(0, 4 * M), self.between(-M * 3 / 2, M * 3 / 2)),
            Kind::Bad => self.far_point(),
            Kind::Border => {
                let kind = self.pick(&[Kind::Random, Kind::Border]);
                let name = self.name(kind);
                let square = square_of(n.min(3), s.min(3), &name);
                let x = square.left + self.along(square.side);
                let y = square.top - self.along(square.side);
                (x, y)
            }
        }
    }

    /// A way along a side: at most one unit from an end or the middle, or anywhere.
    fn along(&mut self, side: i64) -> i64 {
        let base = match self.below(4) {
            0 => 0,
            1 => side,
            2 => side / 2,
            _ => self.between(0, side),
        };
        base + self.between(-1, 1)
    }

    /// A point that is most often outside the image: by the outline of the six faces or far off.
    fn far_point(&mut self) -> (i64, i64) {
        let far = |random: &mut Random| match random.below(3) {
            0 => random.pick(&[i64::MIN, i64::MIN + 1, i64::MAX, i64::MAX - 1, -1, 0, 1]),
            1 => random.pick(&WIDTHS) as i64,
            _ => random.any() as i64,
        };
        let near = |random: &mut Random| M / 2 * random.between(-4, 9) + random.between(-1, 1);
        match self.below(4) {
            0 => (far(self), far(self)),
            1 => (far(self), near(self)),
            2 => (near(self), far(self)),
            _ => (near(self), near(self)),
        }
    }
}
