//! The second program's ground by itself: facts that 01 states, tried without a proved library.

use second::big::Whole;
use second::compare::say;
use second::fixes::BELT_END;
use second::grid::{self, code_of, neighbour_of, nucleus, Name, DOWN, LETTERS, UP};
use second::ground::*;
use second::random::{Kind, Random};

#[test]
fn whole_numbers() {
    let mut random = Random::for_test("whole_numbers");
    for _ in 0..20_000 {
        let bits = random.below(64);
        let (a, b) = (random.any() >> bits, random.any() >> random.below(64));
        let product = u128::from(a) * u128::from(b);
        let (big_a, big_b) = (Whole::new(a.into()), Whole::new(b.into()));
        assert_eq!(big_a.times(&big_b), Whole::new(product));
        assert_eq!(big_a.cmp(&big_b), a.cmp(&b));
        let (less, more) = (Whole::new(a.min(b).into()), Whole::new(a.max(b).into()));
        assert_eq!(more.minus(&less).value(), Some(a.abs_diff(b).into()));
        // longer than 128 bits: (d q + r) / d, with d and q of up to 128 bits
        let divisor = Whole::new(product.max(1));
        let quotient = Whole::new(u128::from(random.any()) << 64 | u128::from(b));
        let long = divisor.times(&quotient);
        assert_eq!(long.divided_by(&divisor), (quotient, Whole::new(0)));
        let (by, rest) = long.divided_by(&Whole::new(u128::from(a) + 2));
        assert!(rest < Whole::new(u128::from(a) + 2));
        assert_eq!(long.minus(&rest), by.times(&Whole::new(u128::from(a) + 2)));
    }
}

/// Floors over a root at the finest resolution: with h = 3/10 and the root of 1/5.
#[test]
fn floors_over_a_root() {
    let floors = [
        (900_000_000, 90_000_000_000_000_000, 9_326_789),
        (-123_456_789, 200_000_000_000_000_000, 6_734_328),
    ];
    for (x, root, wanted) in floors {
        let digits = digits_over_root(15, x, root);
        let floor = digits.iter().fold(0, |floor, &d| 3 * floor + u64::from(d));
        assert_eq!(floor, wanted);
    }
}

/// W-213: "No whole z has 3z equal to -2 x 10^18". The last z of the belt falls in the last row at
/// every resolution, by the rule as it stands, and the next one in S; the row would be one past
/// the last only at -2 x 10^18 / 3.
#[test]
fn no_fix_on_the_bottom_edge() {
    let bottom = 2 * i128::from(ONE);
    assert_ne!(bottom % 3, 0);
    for resolution in 0..=15 {
        let m = 3i128.pow(resolution);
        let row = |thrice: i128| m * (bottom + thrice) / (2 * bottom);
        assert_eq!(row(bottom), m);
        assert_eq!(row(3 * i128::from(BELT_END)), m - 1);
        let cell = |z: i64| name_of_fix(0, 0, resolution.into(), -1_350_000_000, z);
        let last = cell(-BELT_END);
        assert!(last[0] == b'O' && last[1..].iter().all(|&digit| digit >= b'6'));
        assert_eq!(cell(-BELT_END - 1)[0], b'S');
    }
}

/// 01's rules over real numbers, near enough in floating point: the way right and up from the
/// middle of the face, in face sides.
fn forward(n: u64, s: u64, longitude: i64, z: i64) -> (f64, f64) {
    let east = longitude + HALF_TURN;
    let (c, a) = ((east / QUARTER) as u64, east % QUARTER);
    let along = a as f64 / QUARTER as f64 - 0.5;
    if in_belt(z) {
        return (along, 0.75 * z as f64 / ONE as f64);
    }
    let h = (3.0 * (ONE - z.abs()) as f64 / ONE as f64).sqrt();
    let (at, sign) = if z > 0 { (n, -1.0) } else { (s, 1.0) };
    let (mut u, mut v) = (along * h, sign * h / 2.0);
    for _ in 0..(c + 4 - at) % 4 {
        (u, v) = (sign * v, -sign * u);
    }
    (u, v)
}

#[test]
fn the_rules_send_a_ground_nucleus_to_the_nucleus() {
    let mut random = Random::for_test("the_rules_send");
    for _ in 0..200_000 {
        let kind = random.pick(&[Kind::Random, Kind::Border]);
        let (n, s) = random.arrangement(kind);
        let name = random.name(kind);
        let code = code_of(n, s, &name);
        let (longitude, z) = ground_nucleus(code).unwrap();
        let (x, y) = nucleus(code).unwrap();
        let face = grid::face_square(n, s, u64::from(name[0] - b'N'));
        let (p, q) = forward(n, s, longitude, z);
        let wanted = (
            (x - face.left) as f64 / face.side as f64 - 0.5,
            (y - face.top) as f64 / face.side as f64 + 0.5,
        );
        // a unit of longitude is 1/900,000,000 of a side
        let off = (p - wanted.0).abs().max((q - wanted.1).abs());
        assert!(
            off < 2e-9,
            "{n} {s} {} off {off}",
            String::from_utf8_lossy(&name)
        );
        let k = grid::resolution_of(code);
        assert_eq!(fix_code(n, s, k, longitude, z), Ok(code));
    }
}

/// The belt cells of a resolution's top or bottom row.
fn border_names(resolution: u64, digits: &[u8; 3]) -> Vec<Name> {
    let mut names: Vec<Name> = LETTERS[1..5].iter().map(|&letter| vec![letter]).collect();
    for _ in 0..resolution {
        let children = |name: &Name| digits.map(|d| [&name[..], &[d]].concat());
        names = names.iter().flat_map(children).collect();
    }
    names
}

/// Going over the belt's border on a meridian comes to the neighbour that 01's table gives: the
/// turns of the caps and the table of the neighbours agree.
#[test]
fn over_the_border_is_the_neighbour() {
    for resolution in 0..=6 {
        for (n, s) in (0..16).map(|both| (both / 4, both % 4)) {
            for name in border_names(resolution, b"012") {
                let (longitude, _) = ground_nucleus(code_of(n, s, &name)).unwrap();
                let cell = |z| name_of_fix(n, s, resolution, longitude, z);
                assert_eq!(cell(BELT_END), name);
                assert_eq!(cell(BELT_END + 1), neighbour_of(n, s, &name, UP));
            }
            for name in border_names(resolution, b"678") {
                let (longitude, _) = ground_nucleus(code_of(n, s, &name)).unwrap();
                let cell = |z| name_of_fix(n, s, resolution, longitude, z);
                assert_eq!(cell(-BELT_END), name);
                assert_eq!(cell(-BELT_END - 1), neighbour_of(n, s, &name, DOWN));
            }
        }
    }
}

/// "The cell is the same from both sides" of a seam: a hair west of it and on it are the same
/// cell or neighbours, and on it the cell is a dart or a cap.
#[test]
fn seams_are_whole() {
    let mut random = Random::for_test("seams_are_whole");
    for _ in 0..100_000 {
        let (n, s) = random.arrangement(Kind::Random);
        let (k, sign) = (random.below(10), random.pick(&[-1, 1]));
        let z = sign * random.between(BELT_END + 1, ONE);
        let seam = random.below(4) as i64 * QUARTER;
        let west = (seam - 1).rem_euclid(4 * QUARTER) - HALF_TURN;
        let on_it = name_of_fix(n, s, k, seam - HALF_TURN, z);
        let shape = grid::shape_of(&on_it);
        assert!([grid::Shape::Dart, grid::Shape::Cap].contains(&shape));
        let beside = name_of_fix(n, s, k, west, z);
        let near = beside == on_it || (0..4).any(|d| neighbour_of(n, s, &on_it, d) == beside);
        assert!(near, "{k} {z} {seam}");
    }
}

/// Is a fix within two units of another cell, a seam, the belt's border or a pole?
fn at_border(n: u64, s: u64, k: u64, longitude: i64, z: i64) -> bool {
    let here = fix_code(n, s, k, longitude, z);
    let another = [(2, 0), (-2, 0), (0, 2), (0, -2)].iter().any(|(east, up)| {
        let there = fix_code(n, s, k, longitude + east, z + up);
        there.is_ok() && there != here
    });
    let from_seam = (longitude + HALF_TURN + 2).rem_euclid(QUARTER);
    let from_belt_end = (z.abs() - BELT_END).abs();
    another || from_seam <= 4 || from_belt_end <= 2 || ONE - z.abs() <= 2
}

#[test]
fn border_fixes_lie_at_borders() {
    let mut random = Random::for_test("border_fixes_lie_at_borders");
    let (mut at_borders, mut all) = (0, 0);
    for _ in 0..50_000 {
        let (n, s) = random.arrangement(Kind::Border);
        let k = random.resolution(Kind::Border);
        let (longitude, z) = random.fix(Kind::Border, n, s, k);
        at_borders += u64::from(at_border(n, s, k, longitude, z));
        all += 1;
    }
    say(&format!(
        "border fixes: {at_borders} of {all} are at a border"
    ));
    assert!(100 * at_borders > 95 * all);
}
