//! Request W-212: "such a line visits 4 x 3^k different cells of its resolution k and then stands on
//! the first again", and backwards the same. Each line goes through the second program's neighbours
//! and through the proved library's, and is the same line.

use second::grid::{cells_along, neighbour_of, Name, LETTERS};
use second::random::Random;
use second::straight::{line, Heading};
use std::collections::HashSet;

#[cfg(not(proved))]
#[test]
fn the_proved_library_is_linked() {
    panic!("RATTLE_LIBS is not set, so nothing was compared");
}

/// The same line through `jgv_neighbour`, over codes.
#[cfg(proved)]
fn same_by_the_library(n: u64, s: u64, by_second: &[Heading<Name>]) {
    use second::grid::code_of;
    let coded = |heading: &Heading<Name>| Heading {
        cell: code_of(n, s, &heading.cell),
        direction: heading.direction,
    };
    let neighbour = |&code: &u64, direction: u64| {
        let next = second::proved::neighbour(code, direction);
        assert_eq!(next.refusal, 0);
        next.code
    };
    let wanted: Vec<Heading<u64>> = by_second.iter().map(coded).collect();
    assert_eq!(line(&neighbour, &wanted[0], wanted.len()), wanted);
}

#[cfg(not(proved))]
fn same_by_the_library(_: u64, _: u64, _: &[Heading<Name>]) {}

/// The line from a heading, by both programs.
fn by_both(n: u64, s: u64, first: &Heading<Name>) -> Vec<Heading<Name>> {
    let resolution = first.cell.len() as u64 - 1;
    let length = 4 * cells_along(resolution) as usize;
    let neighbour = |cell: &Name, direction: u64| neighbour_of(n, s, cell, direction);
    let all = line(&neighbour, first, length);
    assert!(all.iter().all(|at| at.cell.len() == first.cell.len()));
    same_by_the_library(n, s, &all);
    all
}

/// Every heading of a resolution.
fn headings(resolution: u64) -> Vec<Heading<Name>> {
    let mut names: Vec<Name> = LETTERS.iter().map(|&letter| vec![letter]).collect();
    for _ in 0..resolution {
        names = names
            .iter()
            .flat_map(|name| b"012345678".iter().map(|&d| [&name[..], &[d]].concat()))
            .collect();
    }
    let in_direction = |name: &Name, direction| Heading {
        cell: name.clone(),
        direction,
    };
    names
        .iter()
        .flat_map(|name| (0..4).map(move |direction| in_direction(name, direction)))
        .collect()
}

/// All lines up to resolution 3 in all arrangements. Each heading is on exactly one line, so the
/// line from any other heading of it is the same one, begun elsewhere.
#[test]
fn every_coarse_line() {
    for (n, s) in (0..16).map(|both| (both / 4, both % 4)) {
        for resolution in 0..=3 {
            let (mut met, mut lines) = (HashSet::new(), 0);
            for first in headings(resolution) {
                if !met.contains(&first) {
                    lines += 1;
                    for heading in by_both(n, s, &first) {
                        assert!(met.insert(heading), "two lines meet in one direction");
                    }
                }
            }
            assert_eq!(lines, 6 * cells_along(resolution), "each way is a line");
        }
    }
}

/// A thousand lines of resolution 6.
#[test]
fn random_finer_lines() {
    let mut random = Random::for_test("straight lines");
    for _ in 0..1000 {
        let (n, s) = (random.below(4), random.below(4));
        let mut cell = vec![random.pick(&LETTERS)];
        cell.extend((0..6).map(|_| random.pick(b"012345678")));
        let direction = random.below(4);
        by_both(n, s, &Heading { cell, direction });
    }
}

/// Up from P0, where 01's table leads: into N at turn 1, out of its left edge to R, down to S at turn
/// 3, and out of its right edge to P again.
#[test]
fn up_from_p0() {
    let first = Heading {
        cell: b"P0".to_vec(),
        direction: second::grid::UP,
    };
    let cells: Vec<Name> = by_both(0, 0, &first)
        .into_iter()
        .map(|at| at.cell)
        .collect();
    let wanted = "P0 N8 N7 N6 R2 R5 R8 S0 S1 S2 P6 P3";
    assert_eq!(cells.join(&b' '), wanted.as_bytes());
}
