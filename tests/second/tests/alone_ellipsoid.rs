//! The second program's ellipsoid by itself: facts that follow from 02's W-203, tried without a
//! proved library.

use second::big::Whole;
use second::ellipsoid::{geodetic_code, geodetic_refusal, Ellipsoid, GREATEST, WGS84};
use second::grid::code_of;
use second::ground::ONE;
use second::random::Random;

#[test]
fn sums_of_whole_numbers() {
    let mut random = Random::for_test("sums_of_whole_numbers");
    for _ in 0..20_000 {
        let (a, b) = (u128::from(random.any()), u128::from(random.any()));
        let long = Whole::new(a << 64 | b).squared();
        let more = long.plus(&Whole::new(b << 3));
        assert_eq!(more.minus(&long), Whole::new(b << 3));
        assert_eq!(Whole::new(a).plus(&Whole::new(b)), Whole::new(a + b));
    }
    let most = Whole::new(u128::MAX);
    assert_eq!(most.plus(&Whole::new(1)).minus(&most), Whole::new(1));
}

/// The sums are those of the request: in floating point, and exact where the sine is 0, 1 or the
/// ellipsoid a sphere.
#[test]
fn the_quotient() {
    let mut random = Random::for_test("the_quotient");
    for eccentricity in [0, 1, WGS84, GREATEST] {
        let ellipsoid = Ellipsoid::new(eccentricity);
        let e = eccentricity as f64 / 1e12;
        let series = |s: f64| -> f64 {
            let term = |k: i32| {
                f64::from(2 * k + 2) / f64::from(2 * k + 1) * e.powi(k) * s.powi(2 * k + 1)
            };
            (0..10).map(term).sum()
        };
        for exact in [0, ONE as u64] {
            assert_eq!(ellipsoid.floor(exact), exact);
        }
        for _ in 0..500 {
            let sine = random.below(ONE as u64 + 1);
            let floor = ellipsoid.floor(sine);
            let wanted = series(sine as f64 / 1e18) / series(1.0);
            assert!((floor as f64 / 1e18 - wanted).abs() < 1e-15);
            assert!(eccentricity > 0 || floor == sine);
            // the quotient is between floor and floor + 1
            let off = ellipsoid.off(sine as i64, floor as i64);
            assert!(ellipsoid.at_most(&off, 1, 1) && ellipsoid.in_parts(&off, 1) == 0);
            let past = ellipsoid.off(sine as i64, floor as i64 + 1);
            assert!(ellipsoid.at_most(&past, 1, 1));
            // and far from what has another sign
            if sine > 1_000_000 {
                let other = ellipsoid.off(sine as i64, -(floor as i64));
                assert!(!ellipsoid.at_most(&other, 1_000_000, 1));
            }
        }
    }
}

/// Worked out with fractions of whole numbers: on WGS84 the sine 1/10 is 99,557,452,082,510,288.995..
/// and 0.668, which is past the belt as a z, is 666,342,020,030,773,259.6.., in the belt.
#[test]
fn worked_out() {
    let wgs84 = Ellipsoid::new(WGS84);
    assert_eq!(wgs84.floor(ONE as u64 / 10), 99_557_452_082_510_288);
    assert_eq!(
        wgs84.floor(668_000_000_000_000_000),
        666_342_020_030_773_259
    );
    let cell = |sine, e| geodetic_code(0, 0, 1, -1_350_000_000, sine, e);
    let code = |name: &[u8]| Some(Ok(code_of(0, 0, name)));
    assert_eq!(cell(668_000_000_000_000_000, WGS84), code(b"O1"));
    assert_eq!(cell(668_000_000_000_000_000, 0), code(b"N7"));
    assert_eq!(cell(-668_000_000_000_000_000, WGS84), code(b"O7"));
    assert_eq!(cell(ONE, WGS84), code(b"N4"));
}

/// 5, 2, 6 in this order.
#[test]
fn refusals() {
    let refusal = geodetic_refusal;
    assert_eq!(refusal(4, 0, 16, 1_800_000_001, ONE + 1, GREATEST + 1), 5);
    assert_eq!(refusal(0, 4, 16, 0, 0, 0), 5);
    assert_eq!(refusal(0, 0, 16, 0, ONE + 1, 0), 2);
    for (longitude, sine, e) in [
        (1_800_000_001, 0, 0),
        (0, ONE + 1, 0),
        (0, -ONE - 1, 0),
        (0, 0, GREATEST + 1),
        (0, 0, u64::MAX),
    ] {
        assert_eq!(refusal(0, 0, 15, longitude, sine, e), 6);
    }
    assert_eq!(refusal(3, 3, 15, 1_800_000_000, -ONE, GREATEST), 0);
}
