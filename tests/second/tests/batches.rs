//! W-202, naming a whole season's log: `jgv_code_cells` and `jgv_cell_codes` against the second program and against the old
//! path, the entries for one cell, on batches of every length up to a few thousand, with bad codes and cells in them.

use second::batches::{self, code_of, numbers_of, SEVEN, SIX, TWO};
use second::grid::arrangements;
use second::random::{Kind, Random};

#[cfg(not(proved))]
#[test]
fn the_proved_library_is_linked() {
    panic!("RATTLE_LIBS is not set, so nothing was compared");
}

/// Six numbers of a cell; a bad one has one or more that are out of range.
fn cell(random: &mut Random, kind: Kind) -> [u64; SIX] {
    let (n, s) = random.arrangement(kind);
    let (face, resolution) = (random.number(kind, 6), random.resolution(kind));
    let row = random.row(kind, resolution);
    [n, s, face, resolution, row, random.row(kind, resolution)]
}

/// All cells of the resolutions up to one, in an arrangement.
fn all_cells(n: u64, s: u64, finest: u32) -> impl Iterator<Item = [u64; SIX]> {
    let of_face = move |face: u64, k: u32| {
        let m = 3u64.pow(k);
        (0..m * m).map(move |nth| [n, s, face, u64::from(k), nth / m, nth % m])
    };
    (0..6).flat_map(move |face| (0..=finest).flat_map(move |k| of_face(face, k)))
}

/// The library's entries.
#[cfg(proved)]
mod entries {
    use super::*;
    use second::compare::say;
    use second::proved::{batches as proved, cell_code, code_cell, Count, Like};
    use second::random::KINDS;
    use second::texts::{lent, lent_mut};
    use std::collections::BTreeMap;

    /// A batch entry, of either program.
    type Entry<'a> = &'a dyn Fn(&[u64], &mut [u64]) -> Count;

    fn second_code_cells(codes: &[u64], numbers: &mut [u64]) -> Count {
        Like::like(batches::code_cells(codes, numbers))
    }

    fn second_cell_codes(numbers: &[u64], codes: &mut [u64]) -> Count {
        Like::like(batches::cell_codes(numbers, codes))
    }

    /// Compares both programs on given numbers with a room: the answer, and all memory then, guards and given numbers too.
    fn same(
        random: &mut Random,
        second: Entry,
        proved: Entry,
        given: &[u64],
        room: usize,
    ) -> Count {
        let filling: Vec<u64> = (0..room).map(|_| random.any()).collect();
        let given = random.guarded_codes(given);
        let mut wanted_memory = random.guarded_codes(&filling);
        let (mut memory, before) = (wanted_memory.clone(), given.clone());
        let wanted = second(lent(&given), lent_mut(&mut wanted_memory));
        let found = proved(lent(&given), lent_mut(&mut memory));
        let cut = &given[..given.len().min(200)];
        assert!(
            wanted == found,
            "{cut:?}, room {room}: {wanted:?} {found:?}"
        );
        assert!(given == before, "the given numbers {cut:?}");
        let differs = (0..memory.len()).find(|&nth| memory[nth] != wanted_memory[nth]);
        assert!(
            differs.is_none(),
            "{cut:?}, room {room}: number {differs:?} of the lent ones, with their guard"
        );
        found
    }

    /// A batch's length: every one of the least, then any up to a few thousand, seldom.
    fn length(random: &mut Random, nth: u64) -> u64 {
        match nth {
            0..100 => nth,
            _ if random.chance(50) => random.below(3000),
            _ => random.below(40),
        }
    }

    /// Counts refusals: of the batch, and of what stands in it.
    fn finish(entry: &str, met: BTreeMap<(&str, u64), u64>, inside: &[u64]) {
        say(&format!("{entry}: {met:?}"));
        let of = |what: &str| -> Vec<u64> {
            let own = met.keys().filter(|key| key.0 == what);
            own.map(|key| key.1).collect()
        };
        assert_eq!(of("batches"), [0, 8]);
        assert_eq!(of("in them"), inside);
        assert!(met.values().all(|&count| count > 1000), "{met:?}");
    }

    #[test]
    fn code_cells() {
        let mut random = Random::for_test("jgv_code_cells");
        let mut met = BTreeMap::new();
        for nth in 0..12_000 {
            let kind = random.pick(&KINDS);
            let codes: Vec<u64> = (0..length(&mut random, nth))
                .map(|_| random.code(kind))
                .collect();
            let room = random.room(SEVEN * codes.len());
            let found = same(
                &mut random,
                &second_code_cells,
                &proved::code_cells,
                &codes,
                room,
            );
            *met.entry(("batches", found.refusal)).or_default() += 1;
            if found.refusal == 0 {
                for code in codes {
                    *met.entry(("in them", numbers_of(code)[0])).or_default() += 1;
                }
            }
        }
        finish("jgv_code_cells", met, &[0, 4]);
    }

    #[test]
    fn cell_codes() {
        let mut random = Random::for_test("jgv_cell_codes");
        let mut met = BTreeMap::new();
        for nth in 0..12_000 {
            let kind = random.pick(&KINDS);
            let count = length(&mut random, nth);
            let mut numbers: Vec<u64> = (0..count).flat_map(|_| cell(&mut random, kind)).collect();
            let codes = TWO * count as usize;
            if random.chance(3) {
                // some at the end that are no cell
                numbers.extend(&cell(&mut random, kind)[random.below(SIX as u64) as usize + 1..]);
            }
            let room = random.room(codes);
            let found = same(
                &mut random,
                &second_cell_codes,
                &proved::cell_codes,
                &numbers,
                room,
            );
            *met.entry(("batches", found.refusal)).or_default() += 1;
            if found.refusal == 0 {
                for six in numbers.chunks_exact(SIX) {
                    let refusal = code_of(six.try_into().expect("six"))[0];
                    *met.entry(("in them", refusal)).or_default() += 1;
                }
            }
        }
        finish("jgv_cell_codes", met, &[0, 1, 2, 3, 5]);
    }

    /// Every room up to one more than is needed.
    #[test]
    fn every_room() {
        let mut random = Random::for_test("rooms of batches");
        for count in 0..10 {
            let codes: Vec<u64> = (0..count).map(|_| random.code(Kind::Bad)).collect();
            for room in 0..=SEVEN * count + 1 {
                let found = same(
                    &mut random,
                    &second_code_cells,
                    &proved::code_cells,
                    &codes,
                    room,
                );
                let wanted = if room < SEVEN * count {
                    (8, 0)
                } else {
                    (0, count as u64)
                };
                assert_eq!((found.refusal, found.count), wanted);
            }
        }
    }

    /// Every number of given numbers, six to a cell and some that are none; and every room.
    #[test]
    fn every_length() {
        let mut random = Random::for_test("lengths of batches");
        for given in 0..=9 * SIX {
            let numbers: Vec<u64> = (0..10).flat_map(|_| cell(&mut random, Kind::Bad)).collect();
            let count = given / SIX;
            for room in 0..=TWO * count + 1 {
                let given = &numbers[..given];
                let found = same(
                    &mut random,
                    &second_cell_codes,
                    &proved::cell_codes,
                    given,
                    room,
                );
                let wanted = if room < TWO * count {
                    (8, 0)
                } else {
                    (0, count as u64)
                };
                assert_eq!((found.refusal, found.count), wanted);
            }
        }
    }

    /// "Both agree on every cell and refusal": a batch with what the entries for one cell answer, and there and back.
    fn agrees(cells: &[[u64; SIX]]) {
        let numbers: Vec<u64> = cells.iter().flatten().copied().collect();
        let mut answers = vec![u64::MAX; TWO * cells.len()];
        let count = proved::cell_codes(&numbers, &mut answers);
        assert_eq!((count.refusal, count.count), (0, cells.len() as u64));
        let mut codes = Vec::new();
        for (cell, answer) in cells.iter().zip(answers.chunks(TWO)) {
            let [n, s, face, resolution, row, column] = *cell;
            let one = cell_code(n, s, face, resolution, row, column);
            assert_eq!(answer, [one.refusal, one.code], "{cell:?}");
            assert_eq!(answer, code_of(*cell), "{cell:?}");
            codes.push(one.code);
        }
        let mut back = vec![u64::MAX; SEVEN * codes.len()];
        let count = proved::code_cells(&codes, &mut back);
        assert_eq!((count.refusal, count.count), (0, codes.len() as u64));
        for (nth, seven) in back.chunks(SEVEN).enumerate() {
            let of = code_cell(codes[nth]);
            let one = [
                of.refusal,
                of.n,
                of.s,
                of.face,
                of.resolution,
                of.row,
                of.column,
            ];
            assert_eq!(seven, one, "{}", codes[nth]);
            assert_eq!(seven, numbers_of(codes[nth]), "{}", codes[nth]);
            if answers[TWO * nth] == 0 {
                assert_eq!(seven[1..], cells[nth]);
            }
        }
    }

    #[test]
    fn every_coarse_cell() {
        let mut all = 0;
        for (n, s) in arrangements() {
            let cells: Vec<[u64; SIX]> = all_cells(n, s, 4).collect();
            agrees(&cells);
            all += cells.len();
        }
        assert_eq!(all, 16 * 6 * (1 + 9 + 81 + 729 + 6561));
        say(&format!(
            "batches, there and back: {all} cells, all of resolution 0 to 4"
        ));
    }

    #[test]
    fn cells_of_all_resolutions() {
        let mut random = Random::for_test("batches and the old path");
        for _ in 0..100 {
            let kind = random.pick(&KINDS);
            let cells: Vec<[u64; SIX]> = (0..3000).map(|_| cell(&mut random, kind)).collect();
            agrees(&cells);
        }
    }
}

/// The second program's own: 01's codes of N, N0, N1 and O, times 16, and the greatest; and every coarse cell there and back.
#[test]
fn alone() {
    let of = |face, resolution, row, column| code_of([0, 0, face, resolution, row, column]);
    assert_eq!(of(0, 0, 0, 0), [0, 0]);
    assert_eq!(of(0, 1, 0, 0), [0, 16]);
    assert_eq!(of(0, 1, 0, 1), [0, 16 * 366_028_679_279_377]);
    assert_eq!(of(1, 0, 0, 0), [0, 16 * 3_294_258_113_514_384]);
    let last = 3u64.pow(15) - 1;
    let greatest = 316_248_778_897_380_863;
    assert_eq!(code_of([3, 3, 5, 15, last, last]), [0, greatest]);
    assert_eq!(numbers_of(greatest), [0, 3, 3, 5, 15, last, last]);
    assert_eq!(numbers_of(greatest + 1)[0], 4);
    for (n, s) in arrangements() {
        for cell in all_cells(n, s, 2) {
            let [refusal, code] = code_of(cell);
            assert_eq!(refusal, 0);
            assert_eq!(numbers_of(code)[1..], cell);
        }
    }
    let mut random = Random::for_test("W-202 alone");
    for _ in 0..1000 {
        let cells: Vec<[u64; SIX]> = (0..random.below(9))
            .map(|_| cell(&mut random, Kind::Bad))
            .collect();
        let numbers: Vec<u64> = cells.iter().flatten().copied().collect();
        let mut codes = vec![7; TWO * cells.len() + 3];
        assert_eq!(
            batches::cell_codes(&numbers, &mut codes),
            Ok(cells.len() as u64)
        );
        assert!(codes.ends_with(&[7, 7, 7]));
        if !cells.is_empty() {
            let short = &mut codes[..TWO * cells.len() - 1];
            assert_eq!(batches::cell_codes(&numbers, short), Err(8));
        }
    }
}
