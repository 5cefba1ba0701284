//! W-205, what you flew and I did not: `jgv_coverage_compare` and the program `compare` against the
//! second program, on pairs of texts of both versions; and the second program against its own words.

use second::compare::say;
use second::coverage::{accepts, ground_of, ground_of_text, ground_size, span_of_name};
use second::coverage::{text_of, Ground, FIRST, RULES};
use second::crews::{grounds, names, printed, without, PROGRAM_ROOM};
use second::grid::Name;
use second::random::{Kind, Random, KINDS};
use std::iter;
use std::path::PathBuf;
use std::process::{Command, Output};

#[cfg(not(proved))]
#[test]
fn the_proved_library_is_linked() {
    panic!("RATTLE_LIBS is not set, so nothing was compared");
}

/// The library's entry, with its lent memory and the guards around it.
#[cfg(proved)]
mod entry {
    use super::*;
    use jeguarivo::Compare;
    use second::compare::{About, Refusing, Tally};
    use second::coverage::{arrangement_of_text, profile_of_text, whole_cells, HEADING};
    use second::crews;
    use second::proved::{coverage as proved, Like};
    use second::texts::{lent, lent_mut};

    const INPUTS: u64 = 1_050_000;
    const LEAST: u64 = 100;

    /// Two texts and three rooms, each between guards.
    #[derive(Clone, PartialEq, Eq, Debug)]
    struct Given {
        texts: [Vec<u8>; 2],
        rooms: [Vec<u64>; 3],
    }

    impl Given {
        /// Rooms for about as many codes as each listing has.
        fn new(random: &mut Random, texts: [Vec<u8>; 2]) -> Given {
            let [first, second] = &texts;
            let read = accepts(RULES, first) && accepts(RULES, second);
            let counts = match read {
                true => grounds(first, second).map(|ground| names(&ground).len()),
                false => [2, 2, 2],
            };
            let short = random.chance(4);
            let rooms = counts.map(|count| {
                let room = match short {
                    true => random.room(count),
                    false => count + random.below(3) as usize,
                };
                let codes: Vec<u64> = (0..room).map(|_| random.any()).collect();
                random.guarded_codes(&codes)
            });
            Given {
                texts: texts.map(|text| random.guarded(&text)),
                rooms,
            }
        }

        /// The arrangement, deepest cell and profile of one of the texts, if it is accepted.
        fn about(&self, which: usize) -> About {
            let text = lent(&self.texts[which]);
            let accepted = accepts(RULES, text);
            let cells = if accepted { whole_cells(text) } else { vec![] };
            let deepest = cells.iter().map(|name| name.len() as u64 - 1).max();
            About {
                arrangement: accepted.then(|| arrangement_of_text(text)),
                resolution: deepest.unwrap_or(0),
                profile: accepted.then(|| profile_of_text(text)),
            }
        }

        fn second(&mut self) -> Compare {
            let [first, second] = &self.texts;
            let rooms = self.rooms.each_mut().map(|room| lent_mut(room));
            Like::like(crews::compare(lent(first), lent(second), rooms))
        }

        fn proved(&mut self) -> Compare {
            let [first, second] = &self.texts;
            let [one, two, three] = self.rooms.each_mut().map(|room| lent_mut(room));
            proved::compare(lent(first), lent(second), one, two, three)
        }
    }

    #[test]
    fn compare() {
        let entry = "jgv_coverage_compare";
        let mut random = Random::for_test(entry);
        let mut tally = Tally::needing(LEAST);
        for nth in 0..INPUTS {
            let kind = random.pick(&KINDS);
            let texts = match nth % 7000 {
                0 => random.long_pair(true),
                3500 => random.long_pair(false),
                _ => random.pair(kind),
            };
            let given = Given::new(&mut random, texts);
            let (mut wanted_after, mut found_after) = (given.clone(), given.clone());
            let (wanted, found) = (wanted_after.second(), found_after.proved());
            assert!(
                wanted == found && wanted_after == found_after,
                "{entry}: input {nth}: {wanted:?}, proved library {found:?}\n {:?}",
                given
                    .texts
                    .map(|text| lent(&text).escape_ascii().to_string()),
            );
            tally.count(kind, wanted.refusal(), given.about((nth % 2) as usize));
        }
        tally.finish(entry, &[13, 10, 9, 14, 8]);
    }

    /// Every pair of short bodies at two depths, with rooms that are enough.
    #[test]
    fn all_pairs_of_short_texts() {
        let mut texts = vec![];
        let bodies = [
            "",
            "N",
            "O",
            "NO",
            "O(0)",
            "O(8)",
            "O(08)",
            "N(4)O",
            "O(01234567)",
            "O(12345678)",
        ];
        let deeper = [
            "O(0(0))",
            "O(0(8)8)",
            "O(012345678(0))",
            "N(0(4))S(8)",
            "O(4(01234567)8)",
        ];
        for (heading, body) in ["CVR\0\x0100", "CVR\0\x0200c"]
            .into_iter()
            .flat_map(|heading| {
                bodies
                    .iter()
                    .chain(&deeper)
                    .map(move |body| (heading, body))
            })
        {
            texts.push([heading.as_bytes(), body.as_bytes()].concat());
        }
        let mut compared = 0;
        for (first, second) in texts
            .iter()
            .flat_map(|one| texts.iter().map(move |two| (one, two)))
        {
            let mut wanted = [[7; 60]; 3];
            let mut found = wanted;
            let by_second = Compare::like(crews::compare(
                first,
                second,
                wanted.each_mut().map(|room| &mut room[..]),
            ));
            let [one, two, three] = &mut found;
            assert_eq!(proved::compare(first, second, one, two, three), by_second);
            assert_eq!(wanted, found);
            compared += u64::from(by_second.refusal == 0);
        }
        assert!(compared > 500);
        say(&format!(
            "pairs of short texts: {}, compared {compared}",
            texts.len() * texts.len()
        ));
    }

    /// 01's two bodies, and what W-205 says of them.
    #[test]
    fn two_crews() {
        let text = |body: &str| [HEADING, body.as_bytes()].concat();
        let (first, second) = (text("OP(34(1))"), text("O(12)P(4)"));
        let mut rooms = [[0; 8]; 3];
        let [one, two, three] = &mut rooms;
        let found = proved::compare(&first, &second, one, two, three);
        let [face, child, grandchild] = [0, 1, 2].map(second::grid::finest_cells);
        let wanted = Compare {
            refusal: 0,
            place: 0,
            first_cells: 8,
            second_cells: 8,
            both_cells: 3,
            first_size: face - 2 * child + child,
            second_size: child - grandchild,
            both_size: 2 * child + grandchild,
        };
        assert_eq!(found, wanted);
        assert_eq!(
            found.first_size + found.both_size,
            proved::check(&first).size
        );
        assert_eq!(
            found.second_size + found.both_size,
            proved::check(&second).size
        );
    }
}

/// What the program `compare` of RATTLE_BIN prints and says of two files, each with a text or not
/// there. Each test has files of its own, as tests run side by side.
fn run(test: &str, texts: [Option<&[u8]>; 2]) -> Output {
    let folder = std::env::var("RATTLE_BIN").expect("RATTLE_BIN, so nothing was compared");
    let scratch = PathBuf::from(env!("CARGO_TARGET_TMPDIR"));
    let files = ["first", "second"].map(|name| scratch.join(format!("{test}_{name}")));
    for (file, text) in files.iter().zip(texts) {
        match text {
            Some(text) => std::fs::write(file, text).expect("a scratch file"),
            None => drop(std::fs::remove_file(file)),
        }
    }
    let program = PathBuf::from(&folder).join("compare");
    let run = Command::new(program).args(&files).output();
    run.expect("compare of RATTLE_BIN")
}

/// The program on files: good and bad texts, long ones, and files that are not there.
#[test]
fn the_program() {
    let mut random = Random::for_test("compare");
    let mut counts = [0, 0];
    for nth in 0..600 {
        let kind = random.pick(&KINDS);
        let texts = match nth % 40 {
            0 => random.long_pair(nth % 80 == 0),
            _ => random.pair(kind),
        };
        // "one it can't read counts as empty"
        let there = |which: u64| nth % 50 != 7 + which;
        let [first, second] = &texts;
        let found = run(
            "crews",
            [
                there(0).then_some(&first[..]),
                there(1).then_some(&second[..]),
            ],
        );
        let (first, second) = match (there(0), there(1)) {
            (false, _) => (&[][..], &second[..]),
            (_, false) => (&first[..], &[][..]),
            _ => (&first[..], &second[..]),
        };
        let wanted = printed(first, second);
        let texts = [first, second].map(|text| text.escape_ascii().to_string());
        assert!(found.stdout == wanted, "{nth}: {texts:?}");
        let refused = wanted.first().is_some_and(|byte| byte.is_ascii_digit());
        assert_eq!(found.stderr.is_empty(), !refused, "{nth}: {texts:?}");
        counts[usize::from(refused)] += 1;
    }
    assert!(counts.iter().all(|&count| count > 100), "{counts:?}");
    say(&format!(
        "compare: {} pairs of files listed, {} refused",
        counts[0], counts[1]
    ));
}

/// A listing may have more cells than the program lends: all faces without many finest cells that lie
/// far apart.
#[test]
fn more_cells_than_there_is_room_for() {
    let mut random = Random::for_test("a room that is short");
    let mut refused = 0;
    for apart in (100..1800).step_by(100) {
        let finest = |nth: u64| -> Name {
            let digits = (0..15).map(|at| match at {
                0..4 => b'0' + (nth / 9u64.pow(3 - at) % 9) as u8,
                _ => b'0' + random.below(9) as u8,
            });
            iter::once(b'P').chain(digits).collect()
        };
        let second = text_of(FIRST, 2, 1, &(0..apart).map(finest).collect::<Vec<Name>>());
        let first = [&second[..7], b"NOPQRS"].concat();
        let [first_only, ..] = grounds(&first, &second);
        let cells = names(&first_only).len();
        let wanted = printed(&first, &second);
        assert_eq!(wanted == b"8\n", cells > PROGRAM_ROOM);
        assert!(run("short", [Some(&first), Some(&second)]).stdout == wanted);
        refused += u64::from(wanted == b"8\n");
    }
    assert!(refused > 5 && refused < 12, "{refused}");
}

/// A ground by asking each range of it, with no shared step: is this finest cell in it?
fn holds(ground: &Ground, finest: u64) -> bool {
    ground.iter().any(|range| range.contains(&finest))
}

/// The second program against 02's words: each listing holds a finest cell exactly where it should,
/// none of its cells lie inside another, no nine siblings stand in it, and the sums tie up.
#[test]
fn alone() {
    let mut random = Random::for_test("W-205 alone");
    for _ in 0..20_000 {
        let [first, second] = random.pair(Kind::Random);
        if !accepts(RULES, &first) || !accepts(RULES, &second) {
            continue;
        }
        let (one, two) = (ground_of_text(&first), ground_of_text(&second));
        let [first_only, second_only, both] = grounds(&first, &second);
        let ends = one
            .iter()
            .chain(&two)
            .flat_map(|range| [range.start, range.end]);
        for finest in ends.flat_map(|end| [end.wrapping_sub(1), end, end + 1]) {
            let (a, b) = (holds(&one, finest), holds(&two, finest));
            assert_eq!(holds(&first_only, finest), a && !b);
            assert_eq!(holds(&second_only, finest), b && !a);
            assert_eq!(holds(&both, finest), a && b);
        }
        assert_eq!(
            ground_size(&first_only) + ground_size(&both),
            ground_size(&one)
        );
        assert_eq!(
            ground_size(&second_only) + ground_size(&both),
            ground_size(&two)
        );
        for ground in [first_only, second_only, both] {
            fewest_of(&ground, &names(&ground));
        }
        assert!(without(&one, &one).is_empty() && without(&one, &vec![]) == one);
    }
}

/// These names are in order, of exactly this ground, and none can be left out or put together.
fn fewest_of(ground: &Ground, names: &[Name]) {
    assert!(names
        .windows(2)
        .all(|pair| pair[0] < pair[1] && !pair[1].starts_with(&pair[0])));
    assert_eq!(&ground_of(names.iter().map(span_of_name).collect()), ground);
    for name in names
        .iter()
        .filter(|name| name.len() > 1 && name.ends_with(b"0"))
    {
        let parent = &name[..name.len() - 1];
        let siblings = names
            .iter()
            .filter(|other| other.len() == name.len() && other.starts_with(parent));
        assert!(siblings.count() < 9);
    }
}
