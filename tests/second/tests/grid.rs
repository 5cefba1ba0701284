//! The proved grid entries against the second program: each on more than a million inputs, all
//! on every cell of the coarse resolutions, and the values that 01 and 000 print.

#[cfg(not(proved))]
#[test]
fn the_proved_library_is_linked() {
    panic!("RATTLE_LIBS is not set, so nothing was compared");
}

/// Each entry on random, border and bad inputs.
#[cfg(proved)]
mod entries {
    use second::compare::{compare, compare_mix, About, INPUTS};
    use second::grid;
    use second::proved::{self, Like};
    use second::random::{Random, GUARD, KINDS};

    /// The answer, and the whole memory after lending the part between the guards.
    fn lend<A, T: Clone>(memory: &[T], to: impl Fn(&mut [T]) -> A) -> (A, Vec<T>) {
        let mut memory = memory.to_vec();
        let end = memory.len() - GUARD;
        let answer = to(&mut memory[GUARD..end]);
        (answer, memory)
    }

    #[test]
    fn cell_code() {
        compare(
            "jgv_cell_code",
            &[1, 2, 3, 5],
            |random, kind| {
                let (n, s) = random.arrangement(kind);
                let (face, resolution) = (random.number(kind, 6), random.resolution(kind));
                let row = random.row(kind, resolution);
                (n, s, face, resolution, row, random.row(kind, resolution))
            },
            |&(n, s, _, resolution, _, _)| About::arranged(n, s, resolution),
            |&(n, s, f, k, i, j)| Like::like(grid::cell_code(n, s, f, k, i, j)),
            |&(n, s, f, k, i, j)| proved::cell_code(n, s, f, k, i, j),
        );
    }

    #[test]
    fn code_cell() {
        compare(
            "jgv_code_cell",
            &[4],
            Random::code,
            |&code| About::code(code),
            |&code| Like::like(grid::code_cell(code)),
            |&code| proved::code_cell(code),
        );
    }

    #[test]
    fn name_code() {
        compare(
            "jgv_name_code",
            &[1, 2, 3, 5],
            |random, kind| {
                let (n, s) = random.arrangement(kind);
                (n, s, random.name_bytes(kind))
            },
            |(n, s, bytes)| About::arranged(*n, *s, (bytes.len() as u64).wrapping_sub(1)),
            |(n, s, bytes)| (Like::like(grid::name_code(*n, *s, bytes)), bytes.clone()),
            |(n, s, bytes)| {
                let lent = bytes.clone();
                (proved::name_code(*n, *s, &lent), lent)
            },
        );
    }

    #[test]
    fn code_name() {
        compare(
            "jgv_code_name",
            &[4, 8],
            |random, kind| {
                let code = random.code(kind);
                let length = grid::resolution_of(code) as usize + 1;
                let shorter = random.below(length as u64) as usize;
                let room = random.pick(&[shorter, length - 1, length, length + 1, 16, 17, 40]);
                (code, random.memory(room))
            },
            |&(code, _)| About::code(code),
            |(code, memory)| lend(memory, |lent| Like::like(grid::code_name(*code, lent))),
            |(code, memory)| lend(memory, |lent| proved::code_name(*code, lent)),
        );
    }

    #[test]
    fn parent() {
        compare(
            "jgv_parent",
            &[4, 12],
            Random::code,
            |&code| About::code(code),
            |&code| Like::like(grid::parent(code)),
            |&code| proved::parent(code),
        );
    }

    #[test]
    fn child() {
        compare(
            "jgv_child",
            &[3, 4, 12],
            |random, kind| (random.code(kind), random.number(kind, 9)),
            |&(code, _)| About::code(code),
            |&(code, digit)| Like::like(grid::child(code, digit)),
            |&(code, digit)| proved::child(code, digit),
        );
    }

    #[test]
    fn size() {
        compare(
            "jgv_size",
            &[4],
            Random::code,
            |&code| About::code(code),
            |&code| Like::like(grid::size(code)),
            |&code| proved::size(code),
        );
    }

    #[test]
    fn shape() {
        compare(
            "jgv_shape",
            &[4],
            Random::code,
            |&code| About::code(code),
            |&code| Like::like(grid::shape(code)),
            |&code| proved::shape(code),
        );
    }

    #[test]
    fn corner_count() {
        compare(
            "jgv_corner_count",
            &[4],
            Random::code,
            |&code| About::code(code),
            |&code| Like::like(grid::corner_count(code)),
            |&code| proved::corner_count(code),
        );
    }

    /// More than a million of them are listed.
    #[test]
    fn corner_cells() {
        compare_mix(
            "jgv_corner_cells",
            &[4, 8],
            &KINDS,
            2 * INPUTS,
            |random, kind| {
                let code = random.code(kind);
                let room = random.pick(&[0, 2, 3, 4, 4, 4, 4, 4, 5, 9]);
                let codes: Vec<u64> = (0..room).map(|_| random.any()).collect();
                (code, random.guarded_codes(&codes))
            },
            |&(code, _)| About::code(code),
            |(code, memory)| lend(memory, |lent| Like::like(grid::corner_cells(*code, lent))),
            |(code, memory)| lend(memory, |lent| proved::corner_cells(*code, lent)),
        );
    }

    #[test]
    fn square() {
        compare(
            "jgv_square",
            &[4],
            Random::code,
            |&code| About::code(code),
            |&code| Like::like(grid::square(code)),
            |&code| proved::square(code),
        );
    }

    #[test]
    fn nucleus() {
        compare(
            "jgv_nucleus",
            &[4],
            Random::code,
            |&code| About::code(code),
            |&code| Like::like(grid::nucleus(code)),
            |&code| proved::nucleus(code),
        );
    }

    #[test]
    fn vertices() {
        compare(
            "jgv_vertices",
            &[4],
            Random::code,
            |&code| About::code(code),
            |&code| Like::like(grid::vertices(code)),
            |&code| proved::vertices(code),
        );
    }

    #[test]
    fn point_code() {
        compare(
            "jgv_point_code",
            &[2, 5, 7],
            |random, kind| {
                let (n, s) = random.arrangement(kind);
                let resolution = random.resolution(kind);
                let (x, y) = random.point(kind, n, s);
                (n, s, resolution, x, y)
            },
            |&(n, s, resolution, _, _)| About::arranged(n, s, resolution),
            |&(n, s, k, x, y)| Like::like(grid::point_code(n, s, k, x, y)),
            |&(n, s, k, x, y)| proved::point_code(n, s, k, x, y),
        );
    }

    #[test]
    fn neighbour() {
        compare(
            "jgv_neighbour",
            &[3, 4],
            |random, kind| (random.code(kind), random.number(kind, 4)),
            |&(code, _)| About::code(code),
            |&(code, direction)| Like::like(grid::neighbour(code, direction)),
            |&(code, direction)| proved::neighbour(code, direction),
        );
    }
}

/// Every cell of resolution 0 to 3 in every arrangement, through every entry that takes one.
#[cfg(proved)]
mod all_coarse_cells {
    use jeguarivo::{Cell, Code, Count, Name, Point, Shape, Size, Square, Vertices};
    use second::grid::{self, arrangements, cells_along, code_of, LETTERS};
    use second::proved::{self, Like};

    fn coarse_names() -> Vec<Vec<u8>> {
        let mut level: Vec<Vec<u8>> = LETTERS.iter().map(|&letter| vec![letter]).collect();
        let mut all = level.clone();
        for _ in 0..3 {
            level = level
                .iter()
                .flat_map(|name| b"012345678".iter().map(|&d| [&name[..], &[d]].concat()))
                .collect();
            all.extend(level.clone());
        }
        assert_eq!(all.len(), 6 * (1 + 9 + 81 + 729));
        all
    }

    /// Calls with each coarse cell in each arrangement: n, s, its name and its code.
    fn each(mut call: impl FnMut(u64, u64, &[u8], u64)) {
        for (n, s) in arrangements() {
            for name in coarse_names() {
                call(n, s, &name, code_of(n, s, &name));
            }
        }
    }

    #[test]
    fn codes_and_families() {
        each(|n, s, name, code| {
            assert_eq!(proved::code_cell(code), Cell::like(grid::code_cell(code)));
            assert_eq!(proved::name_code(n, s, name), Code::like(Ok(code)));
            assert_eq!(proved::parent(code), Code::like(grid::parent(code)));
            for digit in 0..10 {
                let wanted = Code::like(grid::child(code, digit));
                assert_eq!(proved::child(code, digit), wanted);
            }
            assert_eq!(proved::size(code), Size::like(grid::size(code)));
            assert_eq!(proved::shape(code), Shape::like(grid::shape(code)));
            let count = Count::like(grid::corner_count(code));
            assert_eq!(proved::corner_count(code), count);
        });
    }

    #[test]
    fn names_into_every_room() {
        each(|_, _, _, code| {
            for room in 0..20 {
                let (mut lent, mut wanted) = (vec![0xA5; room], vec![0xA5; room]);
                let answer = proved::code_name(code, &mut lent);
                let by_second = grid::code_name(code, &mut wanted);
                assert_eq!((answer, lent), (Name::like(by_second), wanted));
            }
        });
    }

    /// Cells that meet at a corner, by a search, into every room; the search finds as many as the
    /// rule says.
    #[test]
    fn corners_into_every_room() {
        each(|_, _, _, code| {
            for room in 0..6 {
                let (mut lent, mut wanted) = (vec![7; room], vec![7; room]);
                let answer = proved::corner_cells(code, &mut lent);
                let by_second = grid::corner_cells(code, &mut wanted);
                assert_eq!((answer, lent), (Count::like(by_second), wanted));
            }
            let found = proved::corner_cells(code, &mut [0; 4]);
            assert_eq!(found, proved::corner_count(code));
        });
    }

    /// Also one row and one column too far.
    #[test]
    fn rows_and_columns() {
        for resolution in 0..=3 {
            let m = cells_along(resolution);
            for face in 0..=6 {
                for (row, column) in (0..=m).flat_map(|i| (0..=m).map(move |j| (i, j))) {
                    for (n, s) in arrangements() {
                        let code = grid::cell_code(n, s, face, resolution, row, column);
                        let found = proved::cell_code(n, s, face, resolution, row, column);
                        assert_eq!(found, Code::like(code));
                    }
                }
            }
        }
    }

    #[test]
    fn squares_and_neighbours() {
        each(|_, _, _, code| {
            let square = Square::like(grid::square(code));
            assert_eq!(proved::square(code), square);
            let nucleus = Point::like(grid::nucleus(code));
            assert_eq!(proved::nucleus(code), nucleus);
            let vertices = Vertices::like(grid::vertices(code));
            assert_eq!(proved::vertices(code), vertices);
            for direction in 0..5 {
                let wanted = Code::like(grid::neighbour(code, direction));
                assert_eq!(proved::neighbour(code, direction), wanted);
            }
        });
    }

    /// Nine points of each cell, its vertices among them, and all points one unit around them.
    #[test]
    fn points_at_and_around_every_vertex() {
        for (n, s) in arrangements() {
            for name in coarse_names() {
                let square = grid::square_of(n, s, &name);
                for nth in 0..81 {
                    let (row, column) = (nth / 9, nth % 9);
                    let x = square.left + square.side / 2 * (column / 3) + column % 3 - 1;
                    let y = square.top - square.side / 2 * (row / 3) + row % 3 - 1;
                    let k = name.len() as u64 - 1;
                    let wanted = Code::like(grid::point_code(n, s, k, x, y));
                    assert_eq!(proved::point_code(n, s, k, x, y), wanted);
                }
            }
        }
    }
}

/// The values that the papers and 000 print, from both programs.
#[cfg(proved)]
mod printed {
    use jeguarivo::{Cell, Code, Name, Shape, Square};
    use second::grid::{self, arrangements, code_of, M};
    use second::proved::{self, Like};
    use second::random::GREATEST;

    /// The name that a proved code has, by the proved library.
    fn name_of(code: Code) -> String {
        assert_eq!(code.refusal, 0);
        let mut lent = [0; 16];
        let named = proved::code_name(code.code, &mut lent);
        let (n, s) = grid::arrangement_of(code.code);
        assert_eq!(
            named,
            Name {
                refusal: 0,
                n,
                s,
                ..named
            }
        );
        String::from_utf8(lent[..named.length as usize].to_vec()).unwrap()
    }

    /// P0's neighbours up, right, down and left.
    fn around_p0(n: u64, s: u64) -> Vec<String> {
        let p0 = proved::name_code(n, s, b"P0").code;
        let four = (0..4).map(|direction| {
            let next = proved::neighbour(p0, direction);
            assert_eq!(next, Code::like(grid::neighbour(p0, direction)));
            name_of(next)
        });
        four.collect()
    }

    /// 01, "Faces, rows, names, codes", and 02: "a code becomes 16 times the old code, plus 4n + s,
    /// 01's codes with it (N0 at n = s = 0 is 16)".
    #[test]
    fn codes() {
        let codes: [(&[u8], u64); 5] = [
            (b"N", 0),
            (b"N0", 1),
            (b"N1", 366_028_679_279_377),
            (b"O", 3_294_258_113_514_384),
            (b"S888888888888888", 19_765_548_681_086_303),
        ];
        for (name, old) in codes {
            for (n, s) in arrangements() {
                let code = 16 * old + 4 * n + s;
                assert_eq!(grid::name_code(n, s, name), Ok(code));
                assert_eq!(proved::name_code(n, s, name), Code { refusal: 0, code });
            }
        }
        assert_eq!(proved::name_code(0, 0, b"N0").code, 16);
        assert_eq!(GREATEST, 316_248_778_897_380_863);
        let greatest = proved::name_code(3, 3, b"S888888888888888");
        assert_eq!(greatest.code, GREATEST);
        let past = proved::size(GREATEST + 1);
        assert_eq!((past.refusal, past.size), (4, 0));
        let last = proved::size(GREATEST);
        assert_eq!((last.refusal, last.size), (0, 1));
    }

    /// Cells as face, resolution, row and column, with their names: the code leads to each.
    #[test]
    fn places() {
        let greatest = 14_348_906;
        let places: [(&[u8], [u64; 4]); 8] = [
            (b"N", [0, 0, 0, 0]),
            (b"N0", [0, 1, 0, 0]),
            (b"N1", [0, 1, 0, 1]),
            (b"O", [1, 0, 0, 0]),
            (b"P3", [2, 1, 1, 0]),
            (b"P41", [2, 2, 3, 4]),
            (b"Q33", [3, 2, 4, 0]),
            (b"S888888888888888", [5, 15, greatest, greatest]),
        ];
        for ((name, [face, resolution, row, column]), (n, s)) in places
            .iter()
            .flat_map(|&place| arrangements().map(move |both| (place, both)))
        {
            let code = code_of(n, s, name);
            let wanted = Cell {
                refusal: 0,
                n,
                s,
                face,
                resolution,
                row,
                column,
            };
            assert_eq!(Cell::like(grid::code_cell(code)), wanted);
            assert_eq!(proved::code_cell(code), wanted);
            let by_second = grid::cell_code(n, s, face, resolution, row, column);
            assert_eq!(by_second, Ok(code));
            let found = proved::cell_code(n, s, face, resolution, row, column);
            assert_eq!(found, Code::like(by_second));
            assert_eq!(name_of(found).as_bytes(), name);
        }
    }

    #[test]
    fn refused_names() {
        for (name, refusal) in [(&b"N9"[..], 3), (b"X", 1)] {
            assert_eq!(grid::name_code(0, 0, name), Err(refusal));
            assert_eq!(proved::name_code(0, 0, name), Code::refused(refusal));
            // 5 comes before all else
            assert_eq!(grid::name_code(0, 4, name), Err(5));
            assert_eq!(proved::name_code(0, 4, name), Code::refused(5));
        }
    }

    /// 000, section 4: quad 0, cap 1, dart 2, skew quad 3.
    #[test]
    fn shapes() {
        for (name, shape) in [("N", 1), ("N4", 1), ("N0", 2), ("N1", 3), ("P0", 0)] {
            let code = code_of(3, 1, name.as_bytes());
            assert_eq!(grid::shape(code), Ok(shape), "{name}");
            assert_eq!(proved::shape(code), Shape { refusal: 0, shape }, "{name}");
        }
    }

    /// 01, proved table, line 9.
    #[test]
    fn line_9() {
        assert_eq!(around_p0(0, 0), ["N8", "P1", "P3", "O2"]);
    }

    /// 000, section 5: "in the (0, 0)-rHEALPix DGGS with N_side = 3, the neighbors of P0 are N8,
    /// O2, P3, and P1. In the (0, 2)-rHEALPix DGGS with N_side = 3, the neighbors of P0 are N8,
    /// O2, P3, and P1."
    #[test]
    fn p0_in_000() {
        for (n, s) in [(0, 0), (0, 2)] {
            let mut found = around_p0(n, s);
            let mut printed = ["N8", "O2", "P3", "P1"];
            found.sort();
            printed.sort();
            assert_eq!(found, printed);
        }
    }

    /// 02, W-204: "a field hand counted round P0 and found three cells touching at a corner only".
    #[test]
    fn three_round_p0() {
        for (n, wanted) in [(0, ["N5", "O5", "P4"]), (1, ["N7", "O5", "P4"])] {
            let p0 = code_of(n, 0, b"P0");
            let mut lent = [0; 4];
            let listed = proved::corner_cells(p0, &mut lent);
            assert_eq!((listed.refusal, listed.count, lent[3]), (0, 3, 0));
            let names: Vec<String> = lent[..3]
                .iter()
                .map(|&code| name_of(Code { refusal: 0, code }))
                .collect();
            assert_eq!(names, wanted);
            assert_eq!(grid::corner_count(p0), Ok(3));
            assert_eq!(proved::corner_count(p0).count, 3);
        }
    }

    /// 01, proved table, line 12, at every resolution.
    #[test]
    fn line_12() {
        for resolution in 0..16 {
            assert_eq!(grid::point_code(0, 0, resolution, 4 * M, 0), Err(7));
            let refused = Code {
                refusal: 7,
                code: 0,
            };
            assert_eq!(proved::point_code(0, 0, resolution, 4 * M, 0), refused);
        }
    }

    /// "A face side is M = 2 x 3^15 = 28,697,814 units"; the last point of the belt on the equator,
    /// and its lowest one on the left, which the lowest row owns.
    #[test]
    fn last_points() {
        assert_eq!((M, M), (28_697_814, 2 * 3i64.pow(15)));
        let square = Square::like(grid::square(code_of(0, 0, b"O")));
        assert_eq!((square.left, square.top, square.side), (0, M / 2, M));
        assert_eq!(proved::square(code_of(0, 0, b"O")), square);
        for (x, y, name) in [(4 * M - 1, 0, "R5"), (0, -M / 2, "O6")] {
            assert_eq!(
                grid::point_code(0, 0, 1, x, y),
                Ok(code_of(0, 0, name.as_bytes()))
            );
            assert_eq!(name_of(proved::point_code(0, 0, 1, x, y)), name);
        }
    }
}
