//! 02's W-203: "The authalic sine is defined as the quotient of two sums over k from 0 to 9:
//! above, (2k+2)/(2k+1) times E^k times S^(2k+1) in real units; below, the same with the sine 1."
//!
//! The sums are whole numbers of any length, and nothing is rounded. What the library answers is
//! not one number by the request, only one "within 200 units of that exact quotient"; so this
//! program does not answer z, it says how far from the quotient a z is.

use crate::big::Whole;
use crate::grid::{Answer, FINEST};
use crate::ground::{fix_code, HALF_TURN, ONE};

/// "E in units of 10^-12, from 0 to 10,000,000,000 (WGS84: 6,694,379,990)".
pub const GREATEST: u64 = 10_000_000_000;
pub const WGS84: u64 = 6_694_379_990;

/// "Within 200 units".
pub const UNITS: u64 = 200;

/// The product of 1, 3, .., 19, which each 2k+1 divides.
const ODDS: u64 = 654_729_075;

fn whole(value: u64) -> Whole {
    Whole::new(value.into())
}

fn power(base: u64, exponent: u64) -> Whole {
    (0..exponent).fold(whole(1), |product, _| product.times(&whole(base)))
}

/// An ellipsoid, by its squared eccentricity: what of the terms does not depend on the sine, and
/// the sum below. Both sums are taken 1 x 3 x .. x 19 x 10^(12 x 9) x 10^(18 x 19) times, so that no
/// term is a fraction.
pub struct Ellipsoid {
    factors: Vec<Whole>,
    below: Whole,
}

impl Ellipsoid {
    pub fn new(eccentricity: u64) -> Ellipsoid {
        let factor = |k: u64| {
            whole((2 * k + 2) * (ODDS / (2 * k + 1)))
                .times(&power(eccentricity, k))
                .times(&power(10, 12 * (9 - k)))
                .times(&power(10, 18 * (19 - (2 * k + 1))))
        };
        let factors: Vec<Whole> = (0..10).map(factor).collect();
        let below = sum(&factors, ONE as u64);
        Ellipsoid { factors, below }
    }

    /// 10^18 times the sum above, for the sine without its sign.
    fn above(&self, size: u64) -> Whole {
        sum(&self.factors, size).times(&whole(ONE as u64))
    }

    /// |z below - 10^18 above|: how far z is from the quotient, times the sum below.
    pub fn off(&self, sine: i64, z: i64) -> Whole {
        let ours = self.below.times(&whole(z.unsigned_abs()));
        let exact = self.above(sine.unsigned_abs());
        if (z < 0) == (sine < 0) {
            if ours >= exact {
                ours.minus(&exact)
            } else {
                exact.minus(&ours)
            }
        } else {
            ours.plus(&exact)
        }
    }

    /// Whether so much is at most so many parts of a unit, with so many parts to the unit.
    pub fn at_most(&self, off: &Whole, parts: u64, to_the_unit: u64) -> bool {
        off.times(&whole(to_the_unit)) <= self.below.times(&whole(parts))
    }

    /// So much in parts of a unit, floored.
    pub fn in_parts(&self, off: &Whole, to_the_unit: u64) -> u64 {
        let (parts, _) = off.times(&whole(to_the_unit)).divided_by(&self.below);
        parts.value().expect("a few units") as u64
    }

    /// The greatest z that is not above the quotient, for a sine from 0 on.
    pub fn floor(&self, size: u64) -> u64 {
        let exact = self.above(size);
        let (mut low, mut past) = (0, ONE as u64 + 1);
        while past - low > 1 {
            let middle = low + (past - low) / 2;
            if self.below.times(&whole(middle)) <= exact {
                low = middle;
            } else {
                past = middle;
            }
        }
        low
    }
}

/// The terms' sum: each factor times S^(2k+1).
fn sum(factors: &[Whole], size: u64) -> Whole {
    let square = whole(size).squared();
    let mut odd_power = whole(size);
    let mut sum = whole(0);
    for factor in factors {
        sum = sum.plus(&factor.times(&odd_power));
        odd_power = odd_power.times(&square);
    }
    sum
}

/// "6 also for S or E out of range."
pub fn sine_refusal(sine: i64, eccentricity: u64) -> u64 {
    let in_range = (-ONE..=ONE).contains(&sine) && eccentricity <= GREATEST;
    if in_range {
        0
    } else {
        6
    }
}

/// The refusals of a fix with such a sine: 5, 2, 6.
pub fn geodetic_refusal(
    n: u64,
    s: u64,
    resolution: u64,
    longitude: i64,
    sine: i64,
    eccentricity: u64,
) -> u64 {
    if n > 3 || s > 3 {
        return 5;
    }
    if resolution > FINEST {
        return 2;
    }
    if !(-HALF_TURN..=HALF_TURN).contains(&longitude) {
        return 6;
    }
    sine_refusal(sine, eccentricity)
}

/// The code of the cell of such a fix, or its refusal. None where two z within 200 units of the
/// quotient lie in two cells, for the request leaves it open then. Along a meridian a cell is one
/// piece, so the two farthest z are tried.
pub fn geodetic_code(
    n: u64,
    s: u64,
    resolution: u64,
    longitude: i64,
    sine: i64,
    eccentricity: u64,
) -> Option<Answer<u64>> {
    let refusal = geodetic_refusal(n, s, resolution, longitude, sine, eccentricity);
    if refusal > 0 {
        return Some(Err(refusal));
    }
    let floor = Ellipsoid::new(eccentricity).floor(sine.unsigned_abs()) as i64;
    let low = (floor - UNITS as i64).max(-ONE);
    let high = (floor + UNITS as i64 + 1).min(ONE);
    let code = |z: i64| fix_code(n, s, resolution, longitude, if sine < 0 { -z } else { z });
    (code(low) == code(high)).then(|| code(low))
}
