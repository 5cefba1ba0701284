//! Fixes for the comparisons: random, within two units of an edge, a seam, the belt's border or
//! a pole, and out of range. How they are found is no part of 01; a bad guess here only makes a
//! dull input.

use crate::big::Whole;
use crate::ellipsoid::{GREATEST, WGS84};
use crate::grid::{cells_along, square_of};
use crate::ground::{ground_of_point, HALF_TURN, ONE, QUARTER};
use crate::random::{Kind, Random};

/// The last z of the belt: 3 x 666,666,666,666,666,666 <= 2 x 10^18.
pub const BELT_END: i64 = 666_666_666_666_666_666;

/// The ends of the range of longitudes, and one unit within and past them.
pub const LONGITUDE_ENDS: [i64; 6] = [
    -HALF_TURN - 1,
    -HALF_TURN,
    -HALF_TURN + 1,
    HALF_TURN - 1,
    HALF_TURN,
    HALF_TURN + 1,
];

/// The z of a cap's parallel at h = numerator/divisor, which goes from 0 at the pole to 1 at the
/// belt: 1 - h h / 3, floored.
fn z_at(numerator: u128, divisor: u128) -> i64 {
    let (square, three_squares) = (numerator * numerator, 3 * divisor * divisor);
    let less = match square.checked_mul(ONE as u128) {
        Some(product) => product.div_ceil(three_squares),
        None => {
            let product = Whole::new(square).times(&Whole::new(ONE as u128));
            let (quotient, rest) = product.divided_by(&Whole::new(three_squares));
            let quotient = quotient.value().expect("h is at most 1");
            quotient + u128::from(rest != Whole::new(0))
        }
    };
    ONE - less as i64
}

/// The fixes of one face and the north that lie exactly on an edge inside a cap, as (a, z): those
/// with t h = +-1/6, an edge at every resolution from 1 on. With h = 3r/10^9, so
/// z = 10^18 - 3 r r, and d = 2a - 900,000,000, that is d r = +-10^17.
pub fn exact_edges() -> Vec<(i64, i64)> {
    let mut all = Vec::new();
    for twos in 0..=17 {
        for fives in 0..=17 {
            let r = 2i128.pow(twos) * 5i128.pow(fives);
            let d = 10i128.pow(17) / r;
            if 3 * r < i128::from(QUARTER) * 10 / 9 && d <= i128::from(QUARTER) && d % 2 == 0 {
                let z = (i128::from(ONE) - 3 * r * r) as i64;
                all.push(((QUARTER + d as i64) / 2, z));
                all.push(((QUARTER - d as i64) / 2, z));
            }
        }
    }
    all
}

impl Random {
    /// A fix of a kind, for a cell of this arrangement and resolution (which may be bad).
    pub fn fix(&mut self, kind: Kind, n: u64, s: u64, resolution: u64) -> (i64, i64) {
        let (n, s, resolution) = (n.min(3), s.min(3), resolution.min(15));
        match kind {
            Kind::Random => self.random_fix(),
            Kind::Border => self.border_fix(n, s, resolution),
            Kind::Bad => self.bad_fix(),
        }
    }

    fn longitude(&mut self) -> i64 {
        self.between(-HALF_TURN, HALF_TURN - 1)
    }

    fn sign(&mut self) -> i64 {
        self.pick(&[-1, 1])
    }

    /// Half of them anywhere, half in the caps and evenly from pole to belt.
    fn random_fix(&mut self) -> (i64, i64) {
        let longitude = self.longitude();
        if self.chance(2) {
            return (longitude, self.between(-ONE, ONE));
        }
        let z = z_at(u128::from(self.below(1 << 33)), 1 << 33);
        (longitude, self.sign() * z)
    }

    /// Within two units of something where the cell may change.
    fn border_fix(&mut self, n: u64, s: u64, resolution: u64) -> (i64, i64) {
        let (longitude, z) = match self.below(12) {
            0 => (self.longitude(), self.sign() * BELT_END),
            1 => (self.longitude(), self.sign() * ONE),
            2 => (
                self.below(4) as i64 * QUARTER - HALF_TURN,
                self.random_fix().1,
            ),
            3 => self.belt_edge(resolution),
            4 | 5 => self.cap_edge_across(resolution),
            6 | 7 => self.cap_edge_by_z(resolution),
            8 | 9 => self.cap_edge_by_longitude(resolution),
            10 => self.exact_edge(),
            _ => self.corner(n, s, resolution),
        };
        // what was floored to find the place is less than one unit off
        let far = if self.chance(4) { 0 } else { 1 };
        let longitude = longitude + self.between(-far, far);
        let z = z + self.between(-1, 1);
        let east = (longitude + HALF_TURN).rem_euclid(4 * QUARTER);
        // the antimeridian by either of its two numbers
        let turn = if east == 0 { self.below(2) as i64 } else { 0 };
        (east + turn * 4 * QUARTER - HALF_TURN, z.clamp(-ONE, ONE))
    }

    /// At a column's or a row's edge in the belt, or both.
    fn belt_edge(&mut self, resolution: u64) -> (i64, i64) {
        let m = i128::from(cells_along(resolution));
        let mut line = || i128::from(self.below(m as u64 + 1));
        let (column, row) = (line(), line());
        let at_column = (column * i128::from(QUARTER)).div_euclid(m) as i64;
        let at_column = at_column + self.below(4) as i64 * QUARTER - HALF_TURN;
        let at_row = (2 * i128::from(ONE) * (m - 2 * row)).div_euclid(3 * m) as i64;
        match self.below(3) {
            0 => (at_column, self.between(-BELT_END, BELT_END)),
            1 => (self.longitude(), at_row),
            _ => (at_column, at_row),
        }
    }

    /// An odd number of half cells from the middle of a face: where an edge is.
    fn line(&mut self, most: u64) -> i64 {
        let odd = 2 * self.below(most.max(1).div_ceil(2)) as i64 + 1;
        self.sign() * odd
    }

    /// At an edge that runs along the parallel, |v| = h/2, at any longitude or near a seam.
    fn cap_edge_across(&mut self, resolution: u64) -> (i64, i64) {
        let m = cells_along(resolution);
        let z = z_at(self.line(m).unsigned_abs().into(), m.into());
        let longitude = match self.below(3) {
            0 => self.below(4) as i64 * QUARTER - HALF_TURN,
            _ => self.longitude(),
        };
        (longitude, self.sign() * z)
    }

    /// At an edge that runs towards the pole, t h = e, by the z for a whole longitude:
    /// h = |e/t|, with t = d/1,800,000,000.
    fn cap_edge_by_z(&mut self, resolution: u64) -> (i64, i64) {
        let m = cells_along(resolution);
        let longitude = self.longitude();
        let a = (longitude + HALF_TURN) % QUARTER;
        let d = (2 * a - QUARTER).unsigned_abs();
        let most = (u128::from(m) * u128::from(d) / QUARTER as u128) as u64;
        if most == 0 {
            // no such edge on this meridian
            return (longitude, self.sign() * BELT_END);
        }
        let line = u128::from(self.line(most).unsigned_abs());
        let z = z_at(line * QUARTER as u128, u128::from(m) * u128::from(d));
        (longitude, self.sign() * z)
    }

    /// The same by the longitude for a whole z: t = e/h, near enough in floating point.
    fn cap_edge_by_longitude(&mut self, resolution: u64) -> (i64, i64) {
        let m = cells_along(resolution);
        let z = z_at(u128::from(self.below(1 << 33)), 1 << 33).min(ONE - 1);
        let h = (3.0 * (ONE - z) as f64 / ONE as f64).sqrt();
        let most = (h * m as f64) as u64;
        let t = self.line(most) as f64 / (2.0 * m as f64) / h;
        let a = (((t + 0.5) * QUARTER as f64).floor() as i64).clamp(0, QUARTER - 1);
        let longitude = a + self.below(4) as i64 * QUARTER - HALF_TURN;
        (longitude, self.sign() * z)
    }

    /// Exactly on an edge, or next to it.
    fn exact_edge(&mut self) -> (i64, i64) {
        let (a, z) = self.pick(&exact_edges());
        let longitude = a + self.below(4) as i64 * QUARTER - HALF_TURN;
        (longitude, self.sign() * z)
    }

    /// At a vertex of a cell of this resolution or a coarser one.
    fn corner(&mut self, n: u64, s: u64, resolution: u64) -> (i64, i64) {
        let kind = self.pick(&[Kind::Random, Kind::Border]);
        let mut name = self.name(kind);
        name.truncate(resolution as usize + 1);
        let square = square_of(n, s, &name);
        let x = square.left + square.side * self.between(0, 1);
        let y = square.top - square.side * self.between(0, 1);
        ground_of_point(n, s, u64::from(name[0] - b'N'), x, y)
    }

    /// Most often out of range: L, z or both, by one, or by a width.
    fn bad_fix(&mut self) -> (i64, i64) {
        let (mut longitude, mut z) = self.random_fix();
        let far = [i64::MIN, i64::MIN + 1, i64::MAX, -(1 << 62), 1 << 62];
        if self.chance(2) {
            longitude = match self.below(4) {
                0 => self.pick(&LONGITUDE_ENDS),
                1 => self.pick(&far),
                2 => longitude + self.pick(&[1 << 32, -(1 << 32), 1 << 31, 4 * QUARTER]),
                _ => self.any() as i64,
            };
        }
        if self.chance(2) {
            z = match self.below(4) {
                0 => self.sign() * (ONE + 1),
                1 => self.pick(&far),
                2 => self.sign() * (ONE + self.between(-1, 3)),
                _ => self.any() as i64,
            };
        }
        (longitude, z)
    }

    /// A squared eccentricity: of known ellipsoids, at the ends of the range, any, or past them.
    pub fn eccentricity(&mut self, kind: Kind) -> u64 {
        let border = [
            0,
            1,
            2,
            GREATEST - 1,
            GREATEST,
            WGS84,
            WGS84 + 33,
            6_722_670_022,
        ];
        match kind {
            Kind::Random => self.below(GREATEST + 1),
            Kind::Border => self.pick(&border),
            Kind::Bad if self.chance(3) => self.past(GREATEST + 1),
            Kind::Bad => self.below(GREATEST + 1),
        }
    }

    /// The sine of a geodetic latitude: any, of any size, at the ends, the middle and the belt's
    /// border and within two units of them, or out of range.
    pub fn sine(&mut self, kind: Kind) -> i64 {
        let sign = self.sign();
        match kind {
            Kind::Random => sign * (self.below(ONE as u64 + 1) as i64 >> self.below(60)),
            Kind::Border => {
                let border = [0, ONE, ONE / 2, 707_106_781_186_547_524, BELT_END, ONE / 10];
                let sine = self.pick(&border) + self.between(-2, 2);
                sign * sine.min(ONE)
            }
            Kind::Bad => self.bad_fix().1,
        }
    }
}
