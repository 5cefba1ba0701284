//! W-207, a summary kept beside the text: `jgv_summary`, `jgv_summary_ask` and `coverage summary`
//! against the second program, on texts of both versions; and the second program against 02's words.

use second::compare::say;
use second::coverage::{accepts, ask, ground_of_text, ground_size, span_of_name, RULES};
use second::grid::{arrangement_of, code_of, Name, LETTERS};
use second::random::{Kind, Random, KINDS};
use second::summary::{self, districts, full, printed, printed_answer, Counters, COUNTERS};
use std::collections::BTreeMap;
use std::ffi::OsStr;
use std::os::unix::ffi::OsStrExt;
use std::path::PathBuf;
use std::process::Command;

#[cfg(not(proved))]
#[test]
fn the_proved_library_is_linked() {
    panic!("RATTLE_LIBS is not set, so nothing was compared");
}

/// A name of a cell of resolution 0 to 2.
fn coarse(random: &mut Random) -> Name {
    let digits = random.below(3);
    let mut name = vec![random.pick(&LETTERS)];
    name.extend((0..digits).map(|_| random.pick(b"012345678")));
    name
}

/// Counters as a text may have them, and as none may.
fn any_counters(random: &mut Random) -> Counters {
    let mut counters = [random.pick(&[0, full(), full(), full()]); COUNTERS];
    for _ in 0..random.below(4) {
        let nth = random.below(COUNTERS as u64) as usize;
        counters[nth] = match random.below(6) {
            0 => 0,
            1 => full() - 1,
            2 => full() + 1,
            3 => random.below(full()),
            4 => random.any(),
            _ => full(),
        };
    }
    counters
}

/// The library's entries.
#[cfg(proved)]
mod entries {
    use super::*;
    use second::compare::{About, Refusing, Tally};
    use second::coverage::{arrangement_of_text, profile_of_text, whole_cells};
    use second::proved::{self, coverage, Like, Summary, SummaryAsk};
    use second::texts::lent;

    const INPUTS: u64 = 1_050_000;

    /// The arrangement, deepest cell and profile of a text, if it is accepted.
    fn about(text: &[u8]) -> About {
        let accepted = accepts(RULES, text);
        let cells = if accepted { whole_cells(text) } else { vec![] };
        let deepest = cells.iter().map(|name| name.len() as u64 - 1).max();
        About {
            arrangement: accepted.then(|| arrangement_of_text(text)),
            resolution: deepest.unwrap_or(0),
            profile: accepted.then(|| profile_of_text(text)),
        }
    }

    /// A text, short or long.
    fn text(random: &mut Random, kind: Kind, nth: u64) -> Vec<u8> {
        match nth % 7000 {
            0 => random.long_text(true),
            3500 => random.long_text(false),
            _ => random.text(kind),
        }
    }

    #[test]
    fn summaries() {
        let entry = "jgv_summary";
        let mut random = Random::for_test(entry);
        let mut tally = Tally::needing(100);
        for nth in 0..INPUTS {
            let kind = random.pick(&KINDS);
            let text = text(&mut random, kind, nth);
            let given = random.guarded(&text);
            let before = given.clone();
            let found = proved::summary(lent(&given));
            let wanted = Summary::like(summary::summarize(&text));
            assert!(
                wanted == found && given == before,
                "{entry}: input {nth}: {} {found:?}",
                text.escape_ascii()
            );
            assert_eq!(
                found.counters.iter().sum::<u64>(),
                coverage::check(&text).size
            );
            tally.count(kind, found.refusal(), about(&text));
        }
        tally.finish(entry, &[13, 10, 9]);
    }

    /// Questions of any counters, by any numbers.
    #[test]
    fn questions() {
        let mut random = Random::for_test("jgv_summary_ask");
        let mut met: BTreeMap<(u64, u64), u64> = BTreeMap::new();
        for nth in 0..INPUTS {
            let kind = random.pick(&KINDS);
            let counters = any_counters(&mut random);
            let name = coarse(&mut random);
            let code = match random.below(4) {
                0 => random.code(kind),
                _ => code_of(random.below(4), random.below(4), &name),
            };
            let (n, s) = match random.below(4) {
                0 => random.arrangement(kind),
                _ => arrangement_of(code),
            };
            let wanted = SummaryAsk::like(summary::question(n, s, &counters, code));
            let before = counters;
            let found = proved::summary_ask(n, s, &counters, code);
            assert!(
                wanted == found && counters == before,
                "input {nth}: {n} {s} {code} {counters:?}: {wanted:?}, proved library {found:?}"
            );
            *met.entry((found.refusal, found.covered)).or_default() += 1;
        }
        say(&format!("jgv_summary_ask: {INPUTS} inputs {met:?}"));
        let wanted = [(0, 0), (0, 1), (2, 0), (4, 0), (5, 0), (14, 0)];
        assert!(met.keys().eq(&wanted), "{met:?}");
        assert!(met.values().all(|&count| count > 10_000), "{met:?}");
    }

    /// "And agree with asking the text": each coarse cell of each arrangement, of many texts.
    #[test]
    fn questions_agree_with_the_text() {
        let mut random = Random::for_test("W-207 agrees");
        let mut met = [0, 0, 0];
        for nth in 0..100_000 {
            let text = text(&mut random, Kind::Random, nth);
            let kept = proved::summary(&text);
            for _ in 0..4 {
                let (name, own) = (coarse(&mut random), random.chance(2));
                let (n, s) = match own {
                    true => (kept.n, kept.s),
                    false => (random.below(4), random.below(4)),
                };
                let code = code_of(n, s, &name);
                let by_text = coverage::ask(&text, code);
                if kept.refusal != 0 {
                    assert_eq!(by_text.refusal, kept.refusal);
                    continue;
                }
                let answer = proved::summary_ask(kept.n, kept.s, &kept.counters, code);
                assert_eq!(
                    (answer.refusal, answer.covered),
                    (by_text.refusal, by_text.covered)
                );
                met[(answer.refusal / 14 * 2 + answer.covered) as usize] += 1;
            }
        }
        say(&format!("questions of a text's summary: no, yes, 14: {met:?}"));
        assert!(met.iter().all(|&count| count > 5_000), "{met:?}");
    }

    /// "When a text gains one cell it held nothing of, only the counters of resolution-2 cells it
    /// overlaps differ."
    #[test]
    fn a_cell_is_gained() {
        let mut random = Random::for_test("W-207 gains");
        let mut gained = BTreeMap::new();
        for _ in 0..200_000 {
            let mut text = random.text(Kind::Random);
            let kept = proved::summary(&text);
            if kept.refusal != 0 {
                continue;
            }
            let name = random.name(Kind::Random);
            let (cell, ground) = (span_of_name(&name), ground_of_text(&text));
            if ground
                .iter()
                .any(|range| range.start < cell.end && cell.start < range.end)
            {
                continue;
            }
            let length = text.len();
            text.resize(length + 46, 0);
            let added = coverage::add(&mut text, length as u64, code_of(kept.n, kept.s, &name));
            if added.refusal != 0 {
                continue;
            }
            let then = proved::summary(&text[..added.length as usize]);
            for (nth, of) in districts().enumerate() {
                let overlaps = of.start < cell.end && cell.start < of.end;
                assert_eq!(then.counters[nth] != kept.counters[nth], overlaps);
                assert!(then.counters[nth] >= kept.counters[nth]);
            }
            *gained.entry(name.len() - 1).or_default() += 1;
        }
        say(&format!("cells gained, by resolution: {gained:?}"));
        assert!(gained.len() == 16 && gained.values().all(|&count: &u64| count > 100));
    }
}

/// What `coverage summary` of RATTLE_BIN prints of a text, asked for a name or not.
fn run(text: &[u8], name: Option<&[u8]>) -> (String, bool) {
    let folder = std::env::var("RATTLE_BIN").expect("RATTLE_BIN, so nothing was compared");
    let file = PathBuf::from(env!("CARGO_TARGET_TMPDIR")).join("coverage_summary");
    std::fs::write(&file, text).expect("a scratch file");
    let mut program = Command::new(PathBuf::from(folder).join("coverage"));
    program.arg("summary").arg(&file);
    program.args(name.map(OsStr::from_bytes));
    let found = program.output().expect("a program of RATTLE_BIN");
    (
        String::from_utf8(found.stdout).expect("lines of text"),
        found.stderr.is_empty(),
    )
}

/// The program on files: all districts, and questions by name.
#[test]
fn the_program() {
    let mut random = Random::for_test("coverage summary");
    let mut met: BTreeMap<String, u64> = BTreeMap::new();
    for nth in 0..3000 {
        let kind = random.pick(&KINDS);
        let text = match nth % 100 {
            0 => random.long_text(nth % 200 == 0),
            1 => [&b"CVR\0\x0100"[..], b"NOPQRS"].concat(),
            _ => random.text(kind),
        };
        let (wanted, name) = match nth % 2 {
            0 => (printed(&text), None),
            _ => {
                let name = match random.below(4) {
                    0 => random.name_bytes(kind),
                    _ => coarse(&mut random),
                };
                // the shell gives no zero byte to a program
                let name: Name = name.into_iter().filter(|&byte| byte != 0).collect();
                (printed_answer(&text, &name), Some(name))
            }
        };
        let (found, silent) = run(&text, name.as_deref());
        assert!(found == wanted, "{name:?} {text:?}: {found} {wanted}");
        let refused = wanted.parse::<u64>().is_ok() || wanted.trim_end().parse::<u64>().is_ok();
        assert_eq!(silent, !refused);
        let kind = match wanted.lines().next() {
            None => "nothing",
            Some(line) if line.ends_with("done") => "done",
            Some(line) if line.ends_with('%') => "a percentage",
            Some(line) => line,
        };
        *met.entry(kind.to_string()).or_default() += 1;
    }
    say(&format!("coverage summary: {met:?}"));
    for kind in ["nothing", "done", "a percentage", "yes", "no", "9", "10", "13", "2", "1", "3"] {
        assert!(met.get(kind) > Some(&4), "{kind}: {met:?}");
    }
}

/// The second program against 02's words: each counter by the ground inside its cell, counted range
/// by range; their sum; and each coarse cell asked of the text.
#[test]
fn alone() {
    let mut random = Random::for_test("W-207 alone");
    let names: Vec<Name> = LETTERS
        .iter()
        .flat_map(|&letter| {
            (b'0'..=b'8').flat_map(move |one| (b'0'..=b'8').map(move |two| vec![letter, one, two]))
        })
        .collect();
    assert!(names.len() == COUNTERS && names.iter().map(span_of_name).eq(districts()));
    for _ in 0..5_000 {
        let text = random.text(Kind::Random);
        let Ok(kept) = summary::summarize(&text) else {
            assert!(!accepts(RULES, &text));
            continue;
        };
        let ground = ground_of_text(&text);
        assert_eq!(kept.counters.iter().sum::<u64>(), ground_size(&ground));
        for (name, &count) in names.iter().zip(&kept.counters) {
            let of = span_of_name(name);
            let inside = ground
                .iter()
                .map(|range| range.end.min(of.end).saturating_sub(range.start.max(of.start)));
            assert_eq!(count, inside.sum::<u64>());
        }
        for _ in 0..20 {
            let code = code_of(kept.n, kept.s, &coarse(&mut random));
            let by_text = ask(&text, code).expect("a coarse cell of the text").covered;
            assert_eq!(
                summary::question(kept.n, kept.s, &kept.counters, code),
                Ok(by_text)
            );
        }
    }
}
