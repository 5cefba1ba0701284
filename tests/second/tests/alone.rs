//! The second program by itself: facts that 01 and 000 state of the grid, tried on all cells of
//! the coarse resolutions. These need no proved library.

use second::grid::*;
use second::random::GREATEST;

/// The names of all cells of a resolution, in byte order.
fn names(resolution: u64) -> Vec<Name> {
    let mut names: Vec<Name> = LETTERS.iter().map(|&letter| vec![letter]).collect();
    for _ in 0..resolution {
        names = names
            .iter()
            .flat_map(|name| b"012345678".iter().map(|&d| [&name[..], &[d]].concat()))
            .collect();
    }
    names
}

/// 01's codes, and 02's: 16 times as much and 4n + s.
#[test]
fn codes_that_the_papers_give() {
    let old: [(&[u8], u64); 5] = [
        (b"N", 0),
        (b"N0", 1),
        (b"N1", 366_028_679_279_377),
        (b"O", 3_294_258_113_514_384),
        (b"S888888888888888", 19_765_548_681_086_303),
    ];
    for (name, code) in old {
        assert_eq!(old_code_of(name), code);
        for (n, s) in arrangements() {
            assert_eq!(name_code(n, s, name), Ok(16 * code + 4 * n + s));
        }
    }
    assert_eq!(name_code(0, 0, b"N0"), Ok(16), "N0 at n = s = 0 is 16");
    assert_eq!(name_code(3, 3, b"S888888888888888"), Ok(GREATEST));
    assert_eq!(cell_of(GREATEST + 1), None);
    assert_eq!(arrangements().count(), 16);
}

/// n and s are refused first, with 5, by the entries that take them now.
#[test]
fn arrangements_that_are_none() {
    for (n, s) in [(4, 0), (0, 4), (u64::MAX, 7)] {
        assert_eq!(name_code(n, s, b"X"), Err(5));
        assert_eq!(cell_code(n, s, 6, 16, 1, 1), Err(5));
    }
}

#[test]
fn names_codes_and_places_turn_into_each_other() {
    for (n, s) in arrangements() {
        let mut all = Vec::new();
        for resolution in 0..=4 {
            for name in names(resolution) {
                let code = code_of(n, s, &name);
                let found = cell_of(code).unwrap();
                assert_eq!((found.n, found.s, &found.name), (n, s, &name));
                let (of_n, of_s, at) = code_cell(code).unwrap();
                assert_eq!((of_n, of_s, at.resolution), (n, s, resolution));
                let again = cell_code(n, s, at.face, at.resolution, at.row, at.column);
                assert_eq!(again, Ok(code));
                let path = name[1..]
                    .iter()
                    .fold(0, |path, d| path * 9 + u64::from(d - b'0'));
                let before = at.face * 9u64.pow(15) + path * 9u64.pow(15 - resolution as u32);
                assert_eq!(code, (before * 16 + resolution) * 16 + 4 * n + s);
                all.push((name, code));
            }
        }
        all.sort();
        assert!(
            all.windows(2).all(|pair| pair[0].1 < pair[1].1),
            "code order among cells of one arrangement is the byte order of names"
        );
    }
}

/// "Codes of two arrangements are never equal": all codes of the cells up to resolution 3.
#[test]
fn codes_of_two_arrangements_differ() {
    let cells: Vec<Name> = (0..=3).flat_map(names).collect();
    let mut all: Vec<u64> = arrangements()
        .flat_map(|(n, s)| cells.iter().map(move |name| code_of(n, s, name)))
        .collect();
    let count = all.len();
    all.sort();
    all.dedup();
    assert_eq!((all.len(), count), (16 * cells.len(), 16 * cells.len()));
    for code in all {
        let (n, s) = arrangement_of(code);
        let kept = [parent(code), child(code, 4), neighbour(code, UP)];
        for code in kept.into_iter().flatten() {
            assert_eq!(arrangement_of(code), (n, s));
        }
    }
}

#[test]
fn families() {
    for resolution in 0..=4 {
        for name in names(resolution) {
            let code = code_of(1, 2, &name);
            let mut sizes = 0;
            for digit in 0..9 {
                let child = child(code, digit).unwrap();
                assert_eq!(parent(child), Ok(code));
                sizes += size(child).unwrap();
            }
            assert_eq!(size(code), Ok(sizes));
        }
    }
}

#[test]
fn shapes_by_row_and_column() {
    for resolution in 0..=5 {
        let m = cells_along(resolution);
        let mut counts = [0; 4];
        for name in names(resolution) {
            let (_, _, at) = code_cell(code_of(0, 0, &name)).unwrap();
            let (i, j) = (at.row, at.column);
            let by_01 = if (1..=4).contains(&at.face) {
                Shape::Quad
            } else if i == m / 2 && j == m / 2 {
                Shape::Cap
            } else if i == j || i + j == m - 1 {
                Shape::Dart
            } else {
                Shape::SkewQuad
            };
            assert_eq!(shape_of(&name), by_01);
            counts[by_01 as usize] += 1;
        }
        // 000, section 4: on each polar face one cap, 4 floor(m/2) darts, (m - 1)^2 skew quads
        assert_eq!(
            counts,
            [4 * m * m, 2, 8 * (m / 2), 2 * (m - 1) * (m - 1)],
            "resolution {resolution}"
        );
    }
}

#[test]
fn neighbours_are_four_and_mutual() {
    for resolution in 0..=4 {
        for name in names(resolution) {
            for (n, s) in arrangements() {
                let mut four: Vec<Name> = (0..4).map(|d| neighbour_of(n, s, &name, d)).collect();
                for other in &four {
                    let back = (0..4).filter(|&d| neighbour_of(n, s, other, d) == name);
                    assert_eq!(back.count(), 1);
                }
                four.push(name.clone());
                four.sort();
                four.dedup();
                assert_eq!(four.len(), 5);
            }
        }
    }
}

/// 02, W-204: the search finds as many cells as the rule says, and meeting at a corner is mutual.
#[test]
fn corners_are_as_many_as_the_rule_says_and_mutual() {
    for resolution in 0..=3 {
        for name in names(resolution) {
            for (n, s) in arrangements() {
                let corners = corners_of(n, s, &name);
                let count = corner_count(code_of(n, s, &name));
                assert_eq!(count, Ok(corners.len() as u64));
                for other in &corners {
                    assert!(corners_of(n, s, other).contains(&name));
                }
            }
        }
    }
}

#[test]
fn corners_of_p0() {
    let names = |n| corners_of(n, 0, b"P0").join(&b' ');
    assert_eq!(names(0), b"N5 O5 P4");
    assert_eq!(names(1), b"N7 O5 P4");
    assert_eq!(corners_of(0, 0, b"R5").join(&b' '), b"O0 O6 R1 R7");
}

/// 01's table with the whole m, and its inverse by trying every column of every belt face.
fn neighbour_by_table(n: u64, s: u64, at: Place, direction: u64) -> (u64, u64, u64) {
    let m = cells_along(at.resolution);
    let up = |c: u64, j: u64| up_into_n((c + 4 - n) % 4, m, j);
    let down = |c: u64, j: u64| down_into_s((c + 4 - s) % 4, m, j);
    let (i, j) = (at.row, at.column);
    match (at.face, direction) {
        (_, UP) if i > 0 => (at.face, i - 1, j),
        (_, RIGHT) if j < m - 1 => (at.face, i, j + 1),
        (_, DOWN) if i < m - 1 => (at.face, i + 1, j),
        (_, LEFT) if j > 0 => (at.face, i, j - 1),
        (0, _) => {
            let turn = [2, 1, 0, 3][direction as usize];
            let c = (n + turn) % 4;
            (c + 1, 0, (0..m).find(|&b| up(c, b) == (i, j)).unwrap())
        }
        (5, _) => {
            let turn = [0, 1, 2, 3][direction as usize];
            let c = (s + turn) % 4;
            (
                c + 1,
                m - 1,
                (0..m).find(|&b| down(c, b) == (i, j)).unwrap(),
            )
        }
        (face, UP) => (0, up(face - 1, j).0, up(face - 1, j).1),
        (face, DOWN) => (5, down(face - 1, j).0, down(face - 1, j).1),
        (face, RIGHT) => (face % 4 + 1, i, 0),
        (face, _) => ((face + 2) % 4 + 1, i, m - 1),
    }
}

#[test]
fn neighbours_digit_by_digit_are_those_of_the_whole_table() {
    for resolution in 0..=3 {
        for name in names(resolution) {
            for (n, s) in arrangements() {
                let code = code_of(n, s, &name);
                let (_, _, at) = code_cell(code).unwrap();
                for direction in 0..4 {
                    let next = neighbour(code, direction).unwrap();
                    let (_, _, to) = code_cell(next).unwrap();
                    assert_eq!(
                        (to.face, to.row, to.column),
                        neighbour_by_table(n, s, at, direction)
                    );
                }
            }
        }
    }
}

/// 01's image, by its inequalities on the faces.
fn in_image(n: u64, s: u64, x: i64, y: i64) -> bool {
    let (n, s) = (n as i64, s as i64);
    let belt = (0..4 * M).contains(&x) && 2 * y.abs() <= M;
    let north = n * M < x && x < (n + 1) * M && M < 2 * y && 2 * y < 3 * M;
    let south = s * M < x && x < (s + 1) * M && -3 * M < 2 * y && 2 * y < -M;
    belt || north || south
}

/// Places along an axis: the multiples of half a cell of resolution 2, and one unit around them.
fn lattice(low: i64, high: i64) -> Vec<i64> {
    let step = M / 18;
    (low / step..=high / step)
        .flat_map(|i| [i * step - 1, i * step, i * step + 1])
        .collect()
}

#[test]
fn every_point_of_the_image_is_in_exactly_one_cell() {
    let xs = lattice(-M / 9, 4 * M + M / 9);
    let ys = lattice(-M * 3 / 2 - M / 9, M * 3 / 2 + M / 9);
    for (n, s) in [(0, 0), (1, 3), (2, 1), (3, 2)] {
        let squares: Vec<(Name, Square)> = names(2)
            .into_iter()
            .map(|name| (name.clone(), square_of(n, s, &name)))
            .collect();
        for &x in &xs {
            let near: Vec<&(Name, Square)> = squares
                .iter()
                .filter(|(_, q)| q.left <= x && x <= q.left + q.side)
                .collect();
            for &y in &ys {
                let owners: Vec<_> = near.iter().filter(|(_, q)| holds(*q, x, y)).collect();
                assert_eq!(owners.len(), usize::from(in_image(n, s, x, y)), "{x} {y}");
                let owner = owners.first().map(|(name, _)| code_of(n, s, name));
                let wanted = owner.ok_or(7);
                assert_eq!(point_code(n, s, 2, x, y), wanted);
            }
        }
    }
}

#[test]
fn a_nucleus_is_the_middle_and_lies_in_its_cell() {
    for resolution in 0..=4 {
        for name in names(resolution) {
            for (n, s) in [(0, 0), (3, 1), (2, 2)] {
                let code = code_of(n, s, &name);
                let (x, y) = nucleus(code).unwrap();
                let (xs, ys) = vertices(code).unwrap();
                assert_eq!((2 * x, 2 * y), (xs[0] + xs[2], ys[0] + ys[2]));
                assert_eq!(point_code(n, s, resolution, x, y), Ok(code));
            }
        }
    }
}
