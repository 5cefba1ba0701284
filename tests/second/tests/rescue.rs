//! W-206, the rescue of hand-edited texts: `jgv_coverage_rescue` and the program `coverage rescue` against the second
//! program, on texts that a person may have edited, on every short body, on long, deep and damaged ones; and the
//! second program against 02's words.

use second::compare::say;
use second::coverage::{self, ground_of, ground_of_text, span_of_name, HEADING, LONGEST, RULES};
use second::random::{Kind, Random, KINDS};
use second::rescue::{self, accepts, begins_some, marks_of, place, plain_changes, rescue_of, said};
use second::rescue::{Change, Rescued};
use std::collections::{BTreeMap, BTreeSet};
use std::path::PathBuf;
use std::process::{Command, Output};

#[cfg(not(proved))]
#[test]
fn the_proved_library_is_linked() {
    panic!("RATTLE_LIBS is not set, so nothing was compared");
}

/// A text that a person edited.
const SAMPLE: &[u8] = include_bytes!("../../../examples/hand_edited.cvr");

/// Its proper text, and what was changed.
const SAMPLE_PROPER: &[u8] = b"CVR\0\x0100NO(012)P(34(1))Q(8(7))S";
const SAMPLE_CHANGES: [Change; 10] = [
    (14, 1),
    (14, 2),
    (16, 2),
    (16, 4),
    (34, 2),
    (35, 3),
    (38, 2),
    (42, 2),
    (49, 1),
    (51, 2),
];

/// A text of version 1 at n = s = 0 with this body.
fn text_of_body(body: &[u8]) -> Vec<u8> {
    [&HEADING[..], body].concat()
}

/// Every string of so many of these parts.
fn strings(parts: &[&[u8]], count: u32) -> impl Iterator<Item = Vec<u8>> {
    let parts: Vec<Vec<u8>> = parts.iter().map(|part| part.to_vec()).collect();
    (0..parts.len().pow(count)).map(move |nth| {
        let part = |at: u32| &parts[nth / parts.len().pow(at) % parts.len()];
        (0..count).flat_map(part).copied().collect()
    })
}

/// The bodies that are tried all together: short ones; ones of lists of nine, eight and none; and what may stand at
/// the greatest depths. Each with what is open in it, and closed.
fn every_body() -> impl Iterator<Item = Vec<u8>> {
    let short = (0..=6).flat_map(|count| strings(&[b"(", b")", b"0", b"1", b"N", b"O"], count));
    let lists: [&[u8]; 8] = [
        b"O",
        b"P",
        b"(012345678)",
        b"(",
        b"8)",
        b"01234567",
        b"0",
        b"()",
    ];
    let nine = (0..=5).flat_map(move |count| strings(&lists, count));
    let deep = (12..=15).flat_map(|digits| {
        let chain = [b"S".to_vec(), b"(8".repeat(digits)].concat();
        (0..=5).flat_map(move |count| {
            let chain = chain.clone();
            let tails = strings(&[b"(", b")", b"8", b"(012345678)"], count);
            tails.map(move |tail| [&chain[..], &tail].concat())
        })
    });
    short.chain(nine).chain(deep).flat_map(|open| {
        let count = |bracket: u8| open.iter().filter(|&&byte| byte == bracket).count();
        let closing = b")".repeat(count(b'(').saturating_sub(count(b')')));
        let closed = (!closing.is_empty()).then(|| [&open[..], &closing].concat());
        [Some(open), closed].into_iter().flatten()
    })
}

/// Texts as long as a text may be, each of one sort.
fn extremes() -> Vec<Vec<u8>> {
    let most = LONGEST - HEADING.len();
    let fill = |part: &str| part.repeat(most / part.len()).into_bytes();
    let chain = |inside: &str| format!("S{}{inside}{}", "(8".repeat(15), ")".repeat(15));
    // all cells of five resolutions, the finest alone, in falling order
    let below = |inner: &str| -> String {
        (0..9)
            .rev()
            .map(|digit| format!("{digit}{inner}"))
            .collect()
    };
    let family = (0..4).fold(String::new(), |inner, _| format!("({})", below(&inner)));
    let wide = |face: &str| format!("{face}{family}");
    let within = most - "O()".len();
    let bodies = [
        fill("O"),
        fill("SRQPON"),
        fill("O()"),
        fill("O(8)"),
        fill("O(0123)O(45678)"),
        fill("N(0()1())"),
        fill(&chain("")),
        fill(&chain("01234567")),
        fill(&wide("R")),
        fill(&format!("{}{}", wide("Q"), wide("P"))),
        [b"O(", &b"4".repeat(within)[..], b")"].concat(),
        [b"O(", &b"876543210".repeat(within / 9)[..], b")"].concat(),
        [&b"O(1)".repeat(most / 4)[..], b"O"].concat(),
    ];
    bodies.iter().map(|body| text_of_body(body)).collect()
}

/// What was met of the list's kinds.
#[derive(Default)]
struct Met {
    refusals: BTreeMap<u64, u64>,
    /// The number of texts that have a kind, or two of them at one place; 0 for a text with none.
    kinds: BTreeMap<(u64, u64), u64>,
}

impl Met {
    fn count(&mut self, refusal: u64, rescued: Option<&Rescued>) {
        *self.refusals.entry(refusal).or_default() += 1;
        let Some(rescued) = rescued.filter(|_| refusal == 0) else {
            return;
        };
        let mut kinds: BTreeSet<(u64, u64)> = BTreeSet::new();
        kinds.extend(rescued.changes.iter().map(|&(_, kind)| (kind, 0)));
        let both = |two: &&[Change]| two[0].0 == two[1].0;
        let pairs = rescued.changes.windows(2).filter(both);
        kinds.extend(pairs.map(|two| (two[0].1, two[1].1)));
        if kinds.is_empty() {
            kinds.insert((0, 0));
        }
        for kind in kinds {
            *self.kinds.entry(kind).or_default() += 1;
        }
    }

    /// States the counts, and fails where too little was tried.
    fn finish(&self, what: &str, refusals: &[u64], least: u64) {
        let (met, kinds) = (&self.refusals, &self.kinds);
        say(&format!(
            "{what}: by refusal {met:?}; texts by kinds {kinds:?}"
        ));
        assert!(met.keys().eq(refusals), "{what}: the refusals met");
        let wanted = [(0, 0), (1, 0), (1, 2), (2, 0), (2, 4), (3, 0), (4, 0)];
        assert!(kinds.keys().eq(&wanted), "{what}: the kinds met");
        let mut counts = met.values().chain(kinds.values());
        assert!(counts.all(|&count| count >= least), "{what}: too few");
    }
}

/// The library's entry.
#[cfg(proved)]
mod entry {
    use super::*;
    use second::coverage::FIRST;
    use second::proved::{coverage::rescue as proved, Like, Rescue};
    use second::rescue::numbers_of;
    use second::texts::{lent, lent_mut};

    /// Compares both programs on a text with these rooms: the answer, and all memory then, guards and text too.
    fn same(random: &mut Random, text: &[u8], rooms: (usize, usize)) -> Rescue {
        let given = random.guarded(text);
        let proper = random.memory(rooms.0);
        let filling: Vec<u64> = (0..rooms.1).map(|_| random.any()).collect();
        let changes = random.guarded_codes(&filling);
        let (mut proper_wanted, mut changes_wanted) = (proper.clone(), changes.clone());
        let wanted = Rescue::like(rescue::rescue(
            text,
            lent_mut(&mut proper_wanted),
            lent_mut(&mut changes_wanted),
        ));
        let (mut proper_found, mut changes_found) = (proper, changes);
        let before = given.clone();
        let found = proved(
            lent(&given),
            lent_mut(&mut proper_found),
            lent_mut(&mut changes_found),
        );
        let cut = &text[..text.len().min(3000)];
        assert!(
            wanted == found,
            "{} bytes {}, rooms {rooms:?}\n second program {wanted:?}\n proved library {found:?}",
            text.len(),
            cut.escape_ascii()
        );
        assert!(given == before, "the text {}", cut.escape_ascii());
        assert!(
            proper_wanted == proper_found,
            "{}\n second program {}\n proved library {}",
            cut.escape_ascii(),
            proper_wanted.escape_ascii(),
            proper_found.escape_ascii()
        );
        let differs = |nth: &usize| changes_wanted[*nth] != changes_found[*nth];
        let first = (0..changes_found.len()).find(differs);
        assert!(
            first.is_none(),
            "{}, rooms {rooms:?}: number {first:?} of the changes, with their guard: {:?} {:?}",
            cut.escape_ascii(),
            &changes_wanted[..changes_wanted.len().min(200)],
            &changes_found[..changes_found.len().min(200)]
        );
        found
    }

    /// The rooms that a text needs, if it is of the looser form and not too long.
    fn needed(text: &[u8]) -> Option<(Rescued, (usize, usize))> {
        if text.len() > LONGEST || !accepts(text) {
            return None;
        }
        let rescued = rescue_of(text);
        let rooms = (rescued.text.len(), numbers_of(&rescued.changes).len());
        Some((rescued, rooms))
    }

    /// With rooms that are often exact or too short, one or both.
    fn try_text(random: &mut Random, text: &[u8], met: &mut Met) {
        let needed = needed(text);
        let (bytes, numbers) = needed.as_ref().map_or((20, 20), |needed| needed.1);
        let rooms = match random.below(3) {
            0 => (random.room(bytes), random.room(numbers)),
            1 => (bytes, numbers),
            _ => (text.len(), 4 * text.len()), // what is always enough
        };
        let found = same(random, text, rooms);
        met.count(found.refusal, needed.as_ref().map(|needed| &needed.0));
    }

    #[test]
    fn edited_texts() {
        let mut random = Random::for_test("jgv_coverage_rescue");
        let mut met = Met::default();
        for nth in 0..200_000 {
            let kind = random.pick(&KINDS);
            let text = match nth % 5000 {
                0 => random.long_text(nth % 10_000 == 0),
                _ => random.edited(kind),
            };
            try_text(&mut random, &text, &mut met);
        }
        met.finish("jgv_coverage_rescue", &[0, 8, 9, 10, 13], 20);
    }

    #[test]
    fn every_short_body() {
        let mut random = Random::for_test("every short body");
        let mut met = Met::default();
        for body in every_body() {
            let text = text_of_body(&body);
            let needed = needed(&text);
            let rooms = needed.as_ref().map_or((0, 0), |needed| needed.1);
            let found = same(&mut random, &text, rooms);
            met.count(found.refusal, needed.as_ref().map(|needed| &needed.0));
        }
        met.finish("every short body", &[0, 9], 20);
    }

    #[test]
    fn long_texts() {
        let mut random = Random::for_test("long edited texts");
        let mut met = Met::default();
        for nth in 0..120 {
            let text = match nth {
                0..8 => random.text_of_length(FIRST, LONGEST), // proper
                _ => random.long_edited(),
            };
            try_text(&mut random, &text, &mut met);
        }
        met.finish("long edited texts", &[0, 8, 9, 13], 1);
    }

    /// "8 for text or list": exact rooms are enough, and one byte or one number less is not.
    #[test]
    fn rooms_one_short() {
        let mut random = Random::for_test("rooms of a rescue");
        let mut texts = extremes();
        texts.push(SAMPLE.to_vec());
        texts.extend((0..3000).map(|_| random.edited(Kind::Border)));
        let mut short = [0, 0];
        for text in texts {
            let (_, (bytes, numbers)) = needed(&text).expect("of the looser form");
            assert_eq!(same(&mut random, &text, (bytes, numbers)).refusal, 0);
            assert_eq!(same(&mut random, &text, (bytes - 1, numbers)).refusal, 8);
            short[0] += 1;
            for less in [1, 2] {
                if numbers >= less && text.len() < 1000 {
                    let found = same(&mut random, &text, (bytes, numbers - less));
                    assert_eq!(found.refusal, 8);
                    short[1] += 1;
                }
            }
        }
        say(&format!(
            "rescues with a text's and a list's room too short: {short:?}"
        ));
        assert!(short[1] > 3000);
    }

    #[test]
    fn the_sample() {
        let (mut proper, mut changes) = ([0; SAMPLE.len()], [0; 4 * SAMPLE.len()]);
        let found = proved(SAMPLE, &mut proper, &mut changes);
        assert_eq!(found.length as usize, SAMPLE_PROPER.len());
        assert_eq!(found.changes as usize, SAMPLE_CHANGES.len());
        assert_eq!(&proper[..SAMPLE_PROPER.len()], SAMPLE_PROPER);
        let numbers = numbers_of(&SAMPLE_CHANGES);
        assert_eq!(&changes[..numbers.len()], numbers);
    }
}

/// `coverage rescue` of RATTLE_BIN on a text.
fn run(text: &[u8]) -> Output {
    let folder = std::env::var("RATTLE_BIN").expect("RATTLE_BIN, so nothing was compared");
    let file = PathBuf::from(env!("CARGO_TARGET_TMPDIR")).join("coverage_rescue");
    std::fs::write(&file, text).expect("a scratch file");
    let mut program = Command::new(PathBuf::from(folder).join("coverage"));
    program.arg("rescue").arg(&file);
    program.output().expect("a program of RATTLE_BIN")
}

/// The program on files: the proper text, and a line for each change; or nothing, and one line.
#[test]
fn the_program() {
    let mut random = Random::for_test("coverage rescue");
    let mut met = Met::default();
    let mut extremes = extremes();
    extremes.push(text_of_body(&b"O".repeat(LONGEST))); // too long
    for nth in 0..800 {
        let kind = random.pick(&KINDS);
        let text = match extremes.pop() {
            Some(text) => text,
            None if nth % 100 == 0 => random.long_edited(),
            None => random.edited(kind),
        };
        let found = run(&text);
        let (mut proper, mut numbers) = (vec![0; text.len()], vec![0; 4 * text.len()]);
        match rescue::rescue(&text, &mut proper, &mut numbers) {
            Ok(_) => {
                let rescued = rescue_of(&text);
                assert!(found.stdout == rescued.text, "{}", text.escape_ascii());
                let lines = said(&rescued.changes);
                assert!(found.stderr == lines.as_bytes(), "{}", text.escape_ascii());
                met.count(0, Some(&rescued));
            }
            Err(refused) => {
                assert!(found.stdout.is_empty());
                let line = String::from_utf8(found.stderr).expect("a line of text");
                let number = format!("refusal {}", refused.refusal);
                let place = format!("{number} at place {}:", refused.place);
                let wanted = if refused.refusal == 9 { place } else { number };
                assert!(
                    line.lines().count() == 1 && line.contains(&wanted),
                    "{line}"
                );
                met.count(refused.refusal, None);
            }
        }
    }
    met.finish("coverage rescue", &[0, 9, 10, 13], 1);
}

/// The sample, by the second program.
#[test]
fn the_sample_alone() {
    let rescued = rescue_of(SAMPLE);
    assert_eq!(rescued.text, SAMPLE_PROPER);
    assert_eq!(rescued.changes, SAMPLE_CHANGES);
}

/// The second program against 02's words, on a text of the looser form: the same ground, a proper text that is not longer
/// and is itself when it is rescued again, the changes found by comparing, and "the list is empty exactly for a
/// proper text, which comes back unchanged".
fn check_alone(text: &[u8]) -> Rescued {
    let rescued = rescue_of(text);
    let whole = marks_of(text).into_iter().filter(|mark| mark.whole);
    let ground = ground_of(whole.map(|mark| span_of_name(&mark.name)).collect());
    assert!(coverage::accepts(RULES, &rescued.text));
    assert_eq!(ground_of_text(&rescued.text), ground);
    assert!(rescued.text[..7] == text[..7] && rescued.text.len() <= text.len());
    assert_eq!(
        rescued.changes,
        plain_changes(text),
        "{}",
        text.escape_ascii()
    );
    let is_proper = coverage::accepts(RULES, text);
    assert_eq!(rescued.changes.is_empty(), is_proper);
    assert_eq!(rescued.text == text, is_proper);
    assert!(rescue_of(&rescued.text).changes.is_empty());
    rescued
}

#[test]
fn alone() {
    let mut random = Random::for_test("W-206 alone");
    let mut met = Met::default();
    for _ in 0..20_000 {
        let kind = random.pick(&[Kind::Random, Kind::Border]);
        let text = random.edited(kind);
        assert!(accepts(&text), "{}", text.escape_ascii());
        met.count(0, Some(&check_alone(&text)));
    }
    for body in every_body() {
        let text = text_of_body(&body);
        if accepts(&text) {
            met.count(0, Some(&check_alone(&text)));
        }
    }
    met.finish("W-206 alone", &[0], 100);
}

/// The place by its definition: every text of the looser form up to eight bytes of few sorts, and all that they begin with.
#[test]
fn places_alone() {
    let sorts: [&[u8]; 4] = [b"(", b")", b"0", b"N"];
    let mut parts: BTreeSet<Vec<u8>> = BTreeSet::new();
    for body in (0..=8).flat_map(|count| strings(&sorts, count)) {
        if accepts(&text_of_body(&body)) {
            parts.extend((0..=body.len()).map(|end| body[..end].to_vec()));
        }
    }
    // five bytes open three lists at most, and three more close them
    for body in (0..=5).flat_map(|count| strings(&sorts, count)) {
        let text = text_of_body(&body);
        assert_eq!(begins_some(&text), parts.contains(&body));
        let longest = (0..=body.len())
            .rev()
            .find(|&end| parts.contains(&body[..end]));
        assert_eq!(
            Some(place(&text) as usize),
            longest.map(|end| end + HEADING.len())
        );
    }
    // 02's own: "depth 15, no list for a digit that deep"; and headings of version 1 only
    let deepest = text_of_body(&[b"N".to_vec(), b"(0".repeat(15)].concat());
    assert_eq!(place(&[&deepest[..], b"("].concat()), deepest.len() as u64);
    assert_eq!(place(b"CVR\0\x0140"), 5);
    assert_eq!(place(b"CVR\0"), 4);
    assert_eq!(place(b"cvr"), 0);
    assert_eq!(place(b""), 0);
}
