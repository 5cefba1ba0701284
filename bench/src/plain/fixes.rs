//! The cell of a fix, the authalic sine and the ground nucleus, in whole numbers up to u128.

use super::codes::{arrangement, cell_of, code_of};
use super::{Place, THREE};
use jeguarivo::{Code, Fix, Z};

const QUARTER: u64 = 900_000_000;
const ONE: u64 = 1_000_000_000_000_000_000;
/// Half of QUARTER x 10^9.
const HALF: u64 = QUARTER / 2 * 1_000_000_000;

#[inline(never)]
pub extern "C" fn fix_code(n: u64, s: u64, resolution: u64, longitude: i64, z: i64) -> Code {
    if n > 3 || s > 3 {
        return Code::refused(5);
    }
    if resolution > 15 {
        return Code::refused(2);
    }
    if !(-1_800_000_000..=1_800_000_000).contains(&longitude) || z.unsigned_abs() > ONE {
        return Code::refused(6);
    }
    let east = (longitude + 1_800_000_000) as u64;
    // 1,800,000,000 is a full turn east, so the same place as -1,800,000,000
    let (c, a) = (east / QUARTER % 4, east % QUARTER);
    let place = if 3 * z.unsigned_abs() <= 2 * ONE {
        belt(c, a, resolution, z)
    } else if z > 0 {
        cap(0, (c + 4 - n) % 4, a, resolution, z.unsigned_abs())
    } else {
        cap(5, (c + 4 - s) % 4, a, resolution, z.unsigned_abs())
    };
    Code {
        refusal: 0,
        code: code_of(n, s, place),
    }
}

fn belt(c: u64, a: u64, resolution: u64, z: i64) -> Place {
    let m = THREE[resolution as usize];
    let down = (2 * ONE as i64 - 3 * z) as u64;
    let row = (m as u128 * down as u128 / (4 * ONE) as u128) as u64;
    Place {
        face: c + 1,
        resolution,
        row,
        column: a * m / QUARTER,
    }
}

/// Both coordinates are whole multiples of h / QUARTER: t h and h / 2, turned. South is north with q mirrored.
fn cap(face: u64, turns: u64, a: u64, resolution: u64, height: u64) -> Place {
    let m = THREE[resolution as usize];
    let square = 3 * (ONE - height);
    let root = square.isqrt();
    let along = a as i64 - (QUARTER / 2) as i64;
    let out = (QUARTER / 2) as i64;
    let (p, q) = match turns {
        0 => (along, -out),
        1 => (out, along),
        2 => (-along, out),
        _ => (-out, -along),
    };
    let q = if face == 0 { q } else { -q };
    Place {
        face,
        resolution,
        row: floor(m, -q, square, root),
        column: floor(m, p, square, root),
    }
}

/// floor(m (1/2 + b sqrt(square) / (QUARTER 10^9))), where root is the whole root: the root and the root and one nearly always
/// agree on the floor, and squares decide where they do not.
fn floor(m: u64, b: i64, square: u64, root: u64) -> u64 {
    let unit = 2 * HALF;
    let middle = m as u128 * HALF as u128;
    let scale = m * b.unsigned_abs();
    let part = scale as u128 * root as u128;
    if b >= 0 {
        let low = ((middle + part) / unit as u128) as u64;
        let rest = (middle + part - low as u128 * unit as u128) as u64;
        let next = (low + 1) as u128 * unit as u128;
        low + (rest + scale >= unit && square_at_most(next - middle, scale, square)) as u64
    } else {
        let high = ((middle - part) / unit as u128) as u64;
        let edge = high as u128 * unit as u128;
        let rest = (middle - part - edge) as u64;
        high - (rest < scale && !square_at_least(middle - edge, scale, square)) as u64
    }
}

/// x^2 <= scale^2 square
fn square_at_most(x: u128, scale: u64, square: u64) -> bool {
    wide_product(x, x) <= wide_product(scale as u128 * scale as u128, square as u128)
}

/// x^2 >= scale^2 square
fn square_at_least(x: u128, scale: u64, square: u64) -> bool {
    wide_product(x, x) >= wide_product(scale as u128 * scale as u128, square as u128)
}

/// The product of two numbers below 2^112, upper half first.
fn wide_product(x: u128, y: u128) -> (u128, u128) {
    let low = u64::MAX as u128;
    let (x1, x0, y1, y0) = (x >> 64, x & low, y >> 64, y & low);
    let (bottom, middle) = (x0 * y0, x1 * y0 + x0 * y1);
    let (sum, carry) = bottom.overflowing_add(middle << 64);
    (x1 * y1 + (middle >> 64) + carry as u128, sum)
}

/// (k + 1) / (2k + 1), in units of 1 / 18,320,000,000,000,000,000, so that a sum of the series has 64 bits.
const COEFFICIENTS: [u64; 10] = {
    let mut all = [0; 10];
    let mut k = 0;
    while k < 10 {
        all[k] = ((k as u128 + 1) * 18_320_000_000_000_000_000 / (2 * k as u128 + 1)) as u64;
        k += 1;
    }
    all
};

fn high(a: u64, b: u64) -> u64 {
    ((a as u128 * b as u128) >> 64) as u64
}

/// The sum of the coefficients times the powers of x = e s^2 in units of 2^-64, where e is in units of 10^36 / 2^184.
fn series(s: u64, e: u64) -> u64 {
    let x = high(high(16 * s, 16 * s), e);
    let step = |g: u64, c: &u64| c + high(x, g);
    COEFFICIENTS[..9].iter().rev().fold(COEFFICIENTS[9], step)
}

/// The sine of a geodetic latitude less s (b - a) / b, with `share` for 2^64 w / b. The request leaves the last unit open.
#[inline(always)]
fn authalic(sine: i64, eccentricity: u64, share: impl Fn(u64, u64) -> u64) -> Z {
    let s = sine.unsigned_abs();
    if s > ONE || eccentricity > 10_000_000_000 {
        return Z::refused(6);
    }
    let e = high(eccentricity << 30, 421_249_166_674_228_746);
    let (a, b) = (series(s, e), series(ONE, e));
    let less = (share(high(16 * s, 128 * (b - a)), b) + 1024) / 2048;
    let z = (s - less) as i64;
    Z {
        refusal: 0,
        z: if sine < 0 { -z } else { z },
    }
}

/// As the library takes it: 1 / (1 - a) = (1 + a) (1 + a^2) (1 + a^4) .., so that the answers are the same.
#[inline(never)]
pub extern "C" fn geodetic_z(sine: i64, eccentricity: u64) -> Z {
    authalic(sine, eccentricity, |w, b| {
        let a = b.wrapping_neg();
        let c = high(a, a);
        let y = w + high(w, a);
        let y = y + high(y, c);
        y + high(y, high(c, c))
    })
}

/// By a division of u128: at most 1 unit from the other.
#[inline(never)]
pub extern "C" fn geodetic_z_divided(sine: i64, eccentricity: u64) -> Z {
    authalic(sine, eccentricity, |w, b| {
        (((w as u128) << 64) / b as u128) as u64
    })
}

#[inline(never)]
pub extern "C" fn geodetic_code(
    n: u64,
    s: u64,
    resolution: u64,
    longitude: i64,
    sine: i64,
    eccentricity: u64,
) -> Code {
    let z = geodetic_z(sine, eccentricity);
    // a z out of range is refused with 6 after 5 and 2
    let z = if z.refusal == 0 { z.z } else { i64::MAX };
    fix_code(n, s, resolution, longitude, z)
}

#[inline(never)]
pub extern "C" fn ground_nucleus(code: u64) -> Fix {
    let Some(cell) = cell_of(code) else {
        return Fix::refused(4);
    };
    let (n, s) = arrangement(code);
    match cell.face {
        0 => cap_nucleus(cell, n, false),
        5 => cap_nucleus(cell, s, true),
        _ => belt_nucleus(cell),
    }
}

fn belt_nucleus(cell: Place) -> Fix {
    let m = THREE[cell.resolution as usize];
    let west = (cell.face - 1) * QUARTER + (2 * cell.column + 1) * QUARTER / (2 * m);
    // z is 2 x 10^18 (m - 1 - 2 row) / (3 m)
    let up = (m - 1) as i64 - 2 * cell.row as i64;
    let size = 2 * ONE as u128 * up.unsigned_abs() as u128;
    let z = if up >= 0 {
        (size / (3 * m) as u128) as i64
    } else {
        -(size.div_ceil((3 * m) as u128) as i64)
    };
    Fix {
        refusal: 0,
        longitude: west as i64 - 1_800_000_000,
        z,
    }
}

/// The middle is (p, q) / 2m from the pole; the larger of |p|, |q| is m h and the other says t.
fn cap_nucleus(cell: Place, first: u64, south: bool) -> Fix {
    let m = THREE[cell.resolution as usize] as i64;
    let (p, q) = (2 * cell.column as i64 + 1 - m, m - 1 - 2 * cell.row as i64);
    let q = if south { -q } else { q };
    let (turns, along, out) = if q < 0 && q <= p && p < -q {
        (0, p, -q)
    } else if p > 0 && -p <= q && q < p {
        (1, q, p)
    } else if q > 0 && -q < p && p <= q {
        (2, -p, q)
    } else if p < 0 {
        (3, -q, -p)
    } else {
        let pole = ONE as i64;
        return Fix {
            refusal: 0,
            longitude: -1_800_000_000,
            z: if south { -pole } else { pole },
        };
    };
    let east = (first + turns) % 4 * QUARTER + QUARTER * (along + out) as u64 / (2 * out) as u64;
    let whole = 3 * (m * m) as u64;
    let height = ONE as u128 * (whole - (out * out) as u64) as u128;
    let z = if south {
        -(height.div_ceil(whole as u128) as i64)
    } else {
        (height / whole as u128) as i64
    };
    Fix {
        refusal: 0,
        longitude: east as i64 - 1_800_000_000,
        z,
    }
}
