//! The proved cell of a fix and ground nucleus against the second program: more than a million
//! fixes, half of them within two units of where the cell may change, all coarse cells, and the
//! values that 01 prints.

#[cfg(not(proved))]
#[test]
fn the_proved_library_is_linked() {
    panic!("RATTLE_LIBS is not set, so nothing was compared");
}

/// Each entry on random, border and bad inputs.
#[cfg(proved)]
mod entries {
    use second::compare::{compare, compare_mix, About};
    use second::ground;
    use second::proved::{self, Like};
    use second::random::{Kind, Random};

    /// Half of the inputs are border ones.
    #[test]
    fn fix_code() {
        compare_mix(
            "jgv_fix_code",
            &[2, 5, 6],
            &[Kind::Border, Kind::Border, Kind::Random, Kind::Bad],
            1_400_000,
            |random, kind| {
                let (n, s) = random.arrangement(kind);
                let resolution = random.resolution(kind);
                let (longitude, z) = random.fix(kind, n, s, resolution);
                (n, s, resolution, longitude, z)
            },
            |&(n, s, resolution, _, _)| About::arranged(n, s, resolution),
            |&(n, s, k, longitude, z)| Like::like(ground::fix_code(n, s, k, longitude, z)),
            |&(n, s, k, longitude, z)| proved::fix_code(n, s, k, longitude, z),
        );
    }

    #[test]
    fn ground_nucleus() {
        compare(
            "jgv_ground_nucleus",
            &[4],
            Random::code,
            |&code| About::code(code),
            |&code| Like::like(ground::ground_nucleus(code)),
            |&code| proved::ground_nucleus(code),
        );
    }
}

/// "Each cell's nucleus, taken to the ground and cut to whole units, names that cell again."
#[cfg(proved)]
mod nuclei {
    use jeguarivo::{Code, Fix};
    use second::compare::say;
    use second::grid::{arrangement_of, arrangements, code_of, resolution_of, LETTERS};
    use second::proved::{self, Like};
    use second::random::{Kind, Random};
    use second::{grid::Name, ground};

    /// Checks one cell, by both programs.
    fn names_itself(code: u64) {
        let (n, s) = arrangement_of(code);
        let fix = proved::ground_nucleus(code);
        assert_eq!(fix, Fix::like(ground::ground_nucleus(code)));
        let (longitude, z, k) = (fix.longitude, fix.z, resolution_of(code));
        let found = proved::fix_code(n, s, k, longitude, z);
        assert_eq!(found, Code { refusal: 0, code }, "{n} {s} {fix:?}");
        assert_eq!(ground::fix_code(n, s, k, longitude, z), Ok(code));
    }

    /// The names of all cells up to a resolution.
    fn names_up_to(resolution: u64) -> Vec<Name> {
        let mut level: Vec<Name> = LETTERS.iter().map(|&letter| vec![letter]).collect();
        let mut all = level.clone();
        for _ in 0..resolution {
            let children = |name: &Name| b"012345678".map(|d| [&name[..], &[d]].concat());
            level = level.iter().flat_map(children).collect();
            all.extend(level.clone());
        }
        all
    }

    #[test]
    fn of_all_cells_up_to_4_in_all_arrangements() {
        let names = names_up_to(4);
        assert_eq!(names.len(), 6 * (1 + 9 + 81 + 729 + 6561));
        for (n, s) in arrangements() {
            for name in &names {
                names_itself(code_of(n, s, name));
            }
        }
        say(&format!("ground nuclei: 16 times {} cells", names.len()));
    }

    #[test]
    fn of_random_cells_above_4() {
        let mut random = Random::for_test("of_random_cells_above_4");
        let mut cells = 0;
        while cells < 120_000 {
            let kind = random.pick(&[Kind::Random, Kind::Border]);
            let code = random.code(kind);
            if resolution_of(code) > 4 {
                names_itself(code);
                cells += 1;
            }
        }
        say(&format!("ground nuclei: {cells} cells above resolution 4"));
    }
}

/// 02, W-201: the longitude 1,800,000,000 is read as -1,800,000,000.
#[cfg(proved)]
mod antimeridian {
    use jeguarivo::Code;
    use second::compare::say;
    use second::fixes::{BELT_END, LONGITUDE_ENDS};
    use second::ground::{self, HALF_TURN, ONE};
    use second::proved::{self, Like};
    use second::random::{Kind, Random};

    /// n, s and resolution: all arrangements, all resolutions.
    fn settings() -> impl Iterator<Item = (u64, u64, u64)> {
        (0..256).map(|nth| (nth / 64, nth / 16 % 4, nth % 16))
    }

    /// Poles, both sides of the belt's borders and of an edge in the caps, the equator, out of
    /// range.
    fn heights() -> Vec<i64> {
        let north = [
            1,
            BELT_END - 1,
            BELT_END,
            BELT_END + 1,
            880_000_000_000_000_000,
            962_962_962_962_962_962,
            962_962_962_962_962_963,
            ONE - 1,
            ONE,
            ONE + 1,
        ];
        let south = north.iter().map(|z| -z);
        north.into_iter().chain([0]).chain(south).collect()
    }

    /// Both programs give the same answers, and refuse with 6 exactly out of range.
    #[test]
    fn ends_of_the_range() {
        let mut answers = [0, 0];
        for (n, s, k) in settings() {
            for longitude in LONGITUDE_ENDS {
                for z in heights() {
                    let place = format!("{n} {s} {k} {longitude} {z}");
                    let found = proved::fix_code(n, s, k, longitude, z);
                    let wanted = Code::like(ground::fix_code(n, s, k, longitude, z));
                    assert_eq!(found, wanted, "{place}");
                    let good = longitude.abs() <= HALF_TURN && z.abs() <= ONE;
                    assert_eq!(found.refusal, if good { 0 } else { 6 }, "{place}");
                    answers[usize::from(good)] += 1;
                }
            }
        }
        let [refused, accepted] = answers;
        say(&format!(
            "ends of the range: accepted {accepted}, refused {refused}"
        ));
    }

    /// Checks one z, by both programs.
    fn one_place(n: u64, s: u64, k: u64, z: i64) {
        let cell = proved::fix_code(n, s, k, HALF_TURN, z);
        let place = format!("{n} {s} {k} {z}");
        assert_eq!(cell.refusal, 0, "{place}");
        assert_eq!(cell, proved::fix_code(n, s, k, -HALF_TURN, z), "{place}");
        let second = ground::fix_code(n, s, k, HALF_TURN, z);
        assert_eq!(second, Ok(cell.code), "{place}");
        let west = ground::fix_code(n, s, k, -HALF_TURN, z);
        assert_eq!(second, west, "{place}");
    }

    #[test]
    fn two_numbers_for_one_place() {
        let mut random = Random::for_test("two_numbers_for_one_place");
        let mut fixes = 0;
        for (n, s, k) in settings() {
            for _ in 0..600 {
                let kind = random.pick(&[Kind::Random, Kind::Border]);
                let (_, z) = random.fix(kind, n, s, k);
                one_place(n, s, k, z);
                fixes += 1;
            }
        }
        say(&format!("antimeridian: {fixes} fixes"));
    }
}

/// Values that 01 prints and positions a hair from an edge, from both programs.
#[cfg(proved)]
mod printed {
    use jeguarivo::{Cell, Code, Fix};
    use second::fixes::exact_edges;
    use second::grid::code_of;
    use second::ground::{self, HALF_TURN, ONE, QUARTER};
    use second::proved::{self, Like};

    /// The cell of a fix is the named one, by both programs.
    fn is(n: u64, s: u64, k: u64, longitude: i64, z: i64, name: &str) {
        let code = code_of(n, s, name.as_bytes());
        let place = format!("{n} {s} {k} {longitude} {z} {name}");
        assert_eq!(ground::fix_code(n, s, k, longitude, z), Ok(code), "{place}");
        let found = proved::fix_code(n, s, k, longitude, z);
        assert_eq!(found, Code { refusal: 0, code }, "{place}");
    }

    /// 01, proved table, lines 1 to 8.
    #[test]
    fn lines_1_to_8() {
        let (west, z) = (-1_350_000_000, 666_666_666_666_666_666);
        is(0, 0, 2, 0, 0, "Q33");
        let any = 123_456_789;
        for longitude in [-HALF_TURN, west, -1, 0, 1, any, QUARTER, HALF_TURN] {
            is(0, 0, 1, longitude, ONE, "N4");
        }
        is(0, 0, 1, west, z, "O1");
        is(0, 0, 1, west, z + 1, "N7");
        is(0, 0, 1, -QUARTER, 880_000_000_000_000_000, "N8");
        is(1, 0, 1, -QUARTER, 880_000_000_000_000_000, "N6");
        is(0, 0, 1, -QUARTER, -880_000_000_000_000_000, "S2");
        is(0, 0, 2, west, 970_000_000_000_000_000, "N47");
    }

    /// On the middle longitude of O, where h = 1/3 lies between two whole z.
    #[test]
    fn a_hair_from_an_edge() {
        let (west, z) = (-1_350_000_000, 962_962_962_962_962_962);
        is(0, 0, 1, west, z, "N7");
        is(0, 0, 1, west, z + 1, "N4");
        is(0, 0, 1, west, -z, "S1");
        is(0, 0, 1, west, -z - 1, "S4");
    }

    /// Both are floored, so that the south is no mirror of the north: z is 23/27 of 10^18.
    #[test]
    fn ground_nuclei() {
        let nuclei = [
            ("N7", 851_851_851_851_851_851),
            ("S1", -851_851_851_851_851_852),
        ];
        for (name, z) in nuclei {
            let (code, longitude) = (code_of(0, 0, name.as_bytes()), -1_350_000_000);
            assert_eq!(ground::ground_nucleus(code), Ok((longitude, z)));
            let wanted = Fix {
                refusal: 0,
                longitude,
                z,
            };
            assert_eq!(proved::ground_nucleus(code), wanted);
        }
    }

    /// At the finest resolution, with h = 3/10 and one turn: the column is 0.65 of 3^15, and the
    /// row half of it, both floored.
    #[test]
    fn a_floor_over_a_root_at_15() {
        let (longitude, z) = (-450_000_000, 970_000_000_000_000_000);
        let found = proved::fix_code(0, 0, 15, longitude, z);
        assert_eq!(found, Code::like(ground::fix_code(0, 0, 15, longitude, z)));
        let wanted = Cell {
            refusal: 0,
            n: 0,
            s: 0,
            face: 0,
            resolution: 15,
            row: 7_174_453,
            column: 9_326_789,
        };
        assert_eq!(proved::code_cell(found.code), wanted);
    }

    /// "At a pole every longitude gives the same cell": all 4s.
    #[test]
    fn poles() {
        for k in 0..16 {
            let fours = "4".repeat(k as usize);
            for east in (0..4 * QUARTER).step_by(7_654_321) {
                for (n, s) in [(0, 0), (1, 2), (2, 3), (3, 1)] {
                    is(n, s, k, east - HALF_TURN, ONE, &format!("N{fours}"));
                    is(n, s, k, east - HALF_TURN, -ONE, &format!("S{fours}"));
                }
            }
        }
    }

    /// Fixes exactly on an edge, and one unit around, in all arrangements and resolutions.
    #[test]
    fn exactly_on_an_edge() {
        assert!(exact_edges().len() >= 20);
        for (a, z) in exact_edges() {
            for nth in 0..4 * 16 * 16 * 2 {
                let (c, n, s, k) = (nth % 4, nth / 4 % 4, nth / 16 % 4, nth / 64 % 16);
                let z = if nth < 1024 { z } else { -z };
                let longitude = a + c as i64 * QUARTER - HALF_TURN;
                for (east, up) in (0..9).map(|step| (step % 3 - 1, step / 3 - 1)) {
                    let (longitude, z) = (longitude + east, z + up);
                    let wanted = Code::like(ground::fix_code(n, s, k, longitude, z));
                    assert_eq!(proved::fix_code(n, s, k, longitude, z), wanted);
                }
            }
        }
    }
}
