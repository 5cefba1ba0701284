//! The proved authalic sine against the exact quotient of 02's W-203, by the second program's whole
//! numbers of any length: a million sines, half of them at borders, on WGS84 and other ellipsoids.

#[cfg(not(proved))]
#[test]
fn the_proved_library_is_linked() {
    panic!("RATTLE_LIBS is not set, so nothing was compared");
}

#[cfg(proved)]
mod sines {
    use jeguarivo::Z;
    use second::compare::say;
    use second::ellipsoid::{sine_refusal, Ellipsoid, GREATEST, UNITS, WGS84};
    use second::ground::ONE;
    use second::proved;
    use second::random::{Kind, Random};

    /// Sines on one ellipsoid, and the ellipsoids they are tried on.
    const SINES: u64 = 500;
    const ELLIPSOIDS: u64 = 2_100;

    /// Parts of a unit, in which the worst error is told.
    const PARTS: u64 = 1000;

    fn z_of(sine: i64, eccentricity: u64) -> i64 {
        let answer = proved::geodetic_z(sine, eccentricity);
        let place = format!("{sine} {eccentricity}");
        assert_eq!(
            answer,
            Z {
                refusal: 0,
                z: answer.z
            },
            "{place}"
        );
        answer.z
    }

    /// Checks one sine; answers the worst error so far, in parts.
    fn check(ellipsoid: &Ellipsoid, eccentricity: u64, sine: i64, worst: u64) -> u64 {
        let z = z_of(sine, eccentricity);
        let place = format!("{sine} {eccentricity} {z}");
        // "within 200 units", "odd in S", "never outside -10^18 to 10^18"
        let off = ellipsoid.off(sine, z);
        assert!(ellipsoid.at_most(&off, UNITS, 1), "{place}: past 200 units");
        assert_eq!(z_of(-sine, eccentricity), -z, "{place}");
        assert!((-ONE..=ONE).contains(&z), "{place}");
        // two fixes never change order
        if sine < ONE {
            assert!(z <= z_of(sine + 1, eccentricity), "{place}");
        }
        if ellipsoid.at_most(&off, worst, PARTS) {
            worst
        } else {
            ellipsoid.in_parts(&off, PARTS) + 1
        }
    }

    /// "exact at 0 and at both poles"; and on a sphere z is the sine.
    fn check_exact(eccentricity: u64) {
        for sine in [-ONE, 0, ONE] {
            assert_eq!(z_of(sine, eccentricity), sine, "{eccentricity}");
        }
    }

    #[test]
    fn within_200_units() {
        let mut random = Random::for_test("within_200_units");
        let (mut inputs, mut on_wgs84, mut worst) = (0, 0, 0);
        for nth in 0..ELLIPSOIDS {
            let kind = random.pick(&[Kind::Random, Kind::Border]);
            let eccentricity = if nth % 4 == 0 {
                WGS84
            } else {
                random.eccentricity(kind)
            };
            let ellipsoid = Ellipsoid::new(eccentricity);
            check_exact(eccentricity);
            for _ in 0..SINES {
                let kind = random.pick(&[Kind::Random, Kind::Border]);
                let sine = random.sine(kind);
                worst = check(&ellipsoid, eccentricity, sine, worst);
                inputs += 1;
                on_wgs84 += u64::from(eccentricity == WGS84);
            }
        }
        say(&format!(
            "jgv_geodetic_z: {inputs} sines on {ELLIPSOIDS} ellipsoids, {on_wgs84} on WGS84; worst error seen: under 0.{worst:03} units, and {UNITS} are allowed"
        ));
        assert!(inputs >= 1_000_000 && on_wgs84 >= 200_000);
        assert!(
            worst > PARTS / 3,
            "no answer is near half a unit off: what was tried?"
        );
    }

    /// On a sphere z is the sine itself.
    #[test]
    fn on_a_sphere() {
        let mut random = Random::for_test("on_a_sphere");
        for _ in 0..200_000 {
            let kind = random.pick(&[Kind::Random, Kind::Border]);
            let sine = random.sine(kind);
            assert_eq!(z_of(sine, 0), sine);
        }
    }

    /// 6 exactly for a sine or an eccentricity out of range, with 0 for z.
    #[test]
    fn refusals() {
        let mut random = Random::for_test("refusals");
        let mut met = [0, 0];
        let mut tried = |sine: i64, eccentricity: u64| {
            let answer = proved::geodetic_z(sine, eccentricity);
            let refusal = sine_refusal(sine, eccentricity);
            assert_eq!(answer.refusal, refusal, "{sine} {eccentricity}");
            assert!(refusal == 0 || answer.z == 0, "{sine} {eccentricity}");
            met[usize::from(refusal == 0)] += 1;
        };
        for sine in [-ONE - 1, -ONE, ONE, ONE + 1, i64::MIN, i64::MAX] {
            for eccentricity in [0, GREATEST, GREATEST + 1, 1 << 32, 1 << 63, u64::MAX] {
                tried(sine, eccentricity);
            }
        }
        for _ in 0..300_000 {
            let (sine, eccentricity) = (random.sine(Kind::Bad), random.eccentricity(Kind::Bad));
            tried(sine, eccentricity);
        }
        let [refused, accepted] = met;
        say(&format!(
            "jgv_geodetic_z: accepted {accepted}, refused 6: {refused}"
        ));
        assert!(refused > 50_000 && accepted > 50_000);
    }
}

/// "For such a fix z is our answer."
#[cfg(proved)]
mod cells {
    use jeguarivo::Code;
    use second::compare::{compare_mix, say, About};
    use second::ellipsoid::{self, geodetic_refusal};
    use second::ground;
    use second::proved::{self, Like};
    use second::random::{Kind, Random, KINDS};

    /// The cell is that of the fix with the library's z, by the second program.
    #[test]
    fn geodetic_code() {
        compare_mix(
            "jgv_geodetic_code",
            &[2, 5, 6],
            &[Kind::Border, Kind::Border, Kind::Random, Kind::Bad],
            600_000,
            |random, kind| {
                let (n, s) = random.arrangement(kind);
                let resolution = random.resolution(kind);
                let (longitude, _) = random.fix(kind, n, s, resolution);
                let (sine, eccentricity) = (random.sine(kind), random.eccentricity(kind));
                (n, s, resolution, longitude, sine, eccentricity)
            },
            |&(n, s, resolution, ..)| About::arranged(n, s, resolution),
            |&(n, s, k, longitude, sine, e)| match geodetic_refusal(n, s, k, longitude, sine, e) {
                0 => {
                    let z = proved::geodetic_z(sine, e).z;
                    Like::like(ground::fix_code(n, s, k, longitude, z))
                }
                refusal => Code::refused(refusal),
            },
            |&(n, s, k, longitude, sine, e)| proved::geodetic_code(n, s, k, longitude, sine, e),
        );
    }

    /// And it is the cell that the exact quotient leaves no doubt of, with no word of the library.
    #[test]
    fn by_the_exact_quotient() {
        let mut random = Random::for_test("by_the_exact_quotient");
        let (mut decided, mut open) = (0, 0);
        for _ in 0..40_000 {
            let kind = random.pick(&KINDS);
            let (n, s) = random.arrangement(kind);
            let k = random.resolution(kind);
            let (longitude, _) = random.fix(kind, n, s, k);
            let (sine, e) = (random.sine(kind), random.eccentricity(kind));
            match ellipsoid::geodetic_code(n, s, k, longitude, sine, e) {
                Some(wanted) => {
                    let found = proved::geodetic_code(n, s, k, longitude, sine, e);
                    let place = format!("{n} {s} {k} {longitude} {sine} {e}");
                    assert_eq!(found, Code::like(wanted), "{place}");
                    decided += 1;
                }
                None => open += 1,
            }
        }
        say(&format!(
            "cells by the exact quotient: {decided}, left open {open}"
        ));
        assert!(decided > 30_000);
    }
}
