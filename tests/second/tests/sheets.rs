//! W-211, a partner's neighbour sheets: `jgv_sheet_check`, `jgv_sheet_write` and the program
//! `coverage sheet` against the second program, on good sheets and on damaged, cut, swapped and
//! overlong ones; and the second program against its own words.

use second::compare::say;
use second::coverage::{accepts, text_of, FIRST, RULES};
use second::grid::Name;
use second::random::{Kind, Random, KINDS};
use second::sheets::{self, meets, printed, record_in, records, sheet_of, wrong_record, RECORD};
use std::collections::BTreeMap;
use std::iter;
use std::path::PathBuf;
use std::process::{Command, Output};

#[cfg(not(proved))]
#[test]
fn the_proved_library_is_linked() {
    panic!("RATTLE_LIBS is not set, so nothing was compared");
}

/// What was done to a sheet.
#[derive(Clone, Copy, PartialEq, Eq, PartialOrd, Ord, Debug)]
enum Done {
    Nothing,
    ByteChanged,
    NeighboursExchanged,
    OtherNeighbour,
    RecordsSwapped,
    RecordMissing,
    RecordTwice,
    Cut,
    Overlong,
    HighByteFirst,
    NoCell,
    AnyBytes,
}

const DAMAGE: [Done; 11] = [
    Done::ByteChanged,
    Done::NeighboursExchanged,
    Done::OtherNeighbour,
    Done::RecordsSwapped,
    Done::RecordMissing,
    Done::RecordTwice,
    Done::Cut,
    Done::Overlong,
    Done::HighByteFirst,
    Done::NoCell,
    Done::AnyBytes,
];

/// A sheet for a text, ours or with one thing done to it. A text that is refused gets any bytes.
fn sheet_for(random: &mut Random, text: &[u8]) -> (Vec<u8>, Done) {
    if !accepts(RULES, text) {
        let length = random.below(100) as usize;
        return (random.memory(length), Done::AnyBytes);
    }
    let mut records = records(text);
    let done = match random.chance(4) {
        true => Done::Nothing,
        false => random.pick(&DAMAGE),
    };
    let which = random.below(records.len().max(1) as u64) as usize;
    let other = random.below(records.len().max(1) as u64) as usize;
    if !records.is_empty() {
        match done {
            Done::NeighboursExchanged => {
                let (one, two) = (random.below(5) as usize, random.below(5) as usize);
                records[which].swap(one, two);
            }
            Done::OtherNeighbour => {
                records[which][1 + random.below(4) as usize] = random.code(Kind::Random)
            }
            Done::NoCell => records[which][random.below(5) as usize] = random.bad_code(),
            Done::RecordsSwapped => records.swap(which, other),
            Done::RecordMissing => drop(records.remove(which)),
            Done::RecordTwice => records.insert(which, records[other]),
            _ => {}
        }
    }
    let mut sheet = sheet_of(&records);
    match done {
        Done::ByteChanged if !sheet.is_empty() => {
            let at = random.below(sheet.len() as u64) as usize;
            sheet[at] ^= 1 << random.below(8);
        }
        Done::Cut => sheet.truncate(random.below(sheet.len() as u64 + 1) as usize),
        Done::Overlong => {
            let more = 1 + random.below(90) as usize;
            let bytes = match random.chance(2) {
                true => vec![0; more],
                false => random.memory(more),
            };
            sheet.extend(bytes);
        }
        Done::HighByteFirst => sheet.chunks_mut(8).for_each(<[u8]>::reverse),
        Done::AnyBytes => {
            let length = sheet.len();
            sheet = random.memory(length);
        }
        _ => {}
    }
    (sheet, done)
}

/// Yes and no, by what was done.
#[derive(Default)]
struct Met(BTreeMap<Done, [u64; 2]>);

impl Met {
    fn count(&mut self, done: Done, right: bool) {
        self.0.entry(done).or_default()[usize::from(right)] += 1;
    }

    fn finish(&self, what: &str, least: u64) {
        say(&format!(
            "{what}: no and yes by what was done: {:?}",
            self.0
        ));
        assert!(self.0[&Done::Nothing][0] == 0 && self.0[&Done::Nothing][1] >= least);
        for done in DAMAGE {
            assert!(self.0[&done][0] >= least / 10, "{done:?}");
        }
    }
}

/// The library's entries, with the lent memory and the guards around it.
#[cfg(proved)]
mod entry {
    use super::*;
    use jeguarivo::{Sheet, SheetLength};
    use second::compare::{About, Refusing, Tally};
    use second::coverage::{arrangement_of_text, profile_of_text, whole_cells};
    use second::proved::{sheets as proved, Like};
    use second::texts::{lent, lent_mut};

    const INPUTS: u64 = 1_050_000;
    const LEAST: u64 = 100;

    fn about(text: &[u8]) -> About {
        let accepted = accepts(RULES, text);
        let cells = if accepted { whole_cells(text) } else { vec![] };
        let deepest = cells.iter().map(|name| name.len() as u64 - 1).max();
        About {
            arrangement: accepted.then(|| arrangement_of_text(text)),
            resolution: deepest.unwrap_or(0),
            profile: accepted.then(|| profile_of_text(text)),
        }
    }

    fn text(random: &mut Random, kind: Kind, nth: u64) -> Vec<u8> {
        match nth % 7000 {
            0 => random.long_text(true),
            3500 => random.long_text(false),
            _ => random.text(kind),
        }
    }

    #[test]
    fn check() {
        let entry = "jgv_sheet_check";
        let mut random = Random::for_test(entry);
        let (mut tally, mut met) = (Tally::needing(LEAST), Met::default());
        for nth in 0..INPUTS {
            let kind = random.pick(&KINDS);
            let text = text(&mut random, kind, nth);
            let (sheet, done) = sheet_for(&mut random, &text);
            let given = (random.guarded(&text), random.guarded(&sheet));
            let after = given.clone();
            let wanted: Sheet = Like::like(sheets::check(&text, &sheet));
            let found = proved::check(lent(&after.0), lent(&after.1));
            assert!(
                wanted == found && given == after,
                "{entry}: input {nth}, {done:?}: {wanted:?}, proved library {found:?}\n {:?}\n {sheet:?}",
                text.escape_ascii().to_string(),
            );
            tally.count(kind, wanted.refusal(), about(&text));
            if wanted.refusal == 0 {
                met.count(done, wanted.right == 1);
            }
        }
        tally.finish(entry, &[13, 10, 9]);
        met.finish(entry, 10_000);
    }

    #[test]
    fn write() {
        let entry = "jgv_sheet_write";
        let mut random = Random::for_test(entry);
        let mut tally = Tally::needing(LEAST);
        for nth in 0..INPUTS {
            let kind = random.pick(&KINDS);
            let text = text(&mut random, kind, nth);
            let cells = match accepts(RULES, &text) {
                true => whole_cells(&text).len(),
                false => 1,
            };
            let room = random.room(RECORD * cells);
            let memory = random.memory(room);
            let given = random.guarded(&memory);
            let (mut wanted_after, mut found_after) = (given.clone(), given.clone());
            let wanted: SheetLength = Like::like(sheets::write(&text, lent_mut(&mut wanted_after)));
            let found = proved::write(&text, lent_mut(&mut found_after));
            assert!(
                wanted == found && wanted_after == found_after,
                "{entry}: input {nth}: {wanted:?}, proved library {found:?}\n {:?}",
                text.escape_ascii().to_string(),
            );
            tally.count(kind, wanted.refusal(), about(&text));
            if found.refusal == 0 {
                let sheet = &lent(&found_after)[..found.length as usize];
                assert_eq!(proved::check(&text, sheet).right, 1);
            }
        }
        tally.finish(entry, &[13, 10, 9, 8]);
    }
}

/// Runs the program `coverage sheet` of RATTLE_BIN on a file, and a sheet if there is one to check.
/// Each test has files of its own, as tests run side by side.
fn run(test: &str, text: &[u8], sheet: Option<Option<&[u8]>>) -> Output {
    let folder = std::env::var("RATTLE_BIN").expect("RATTLE_BIN, so nothing was compared");
    let scratch = PathBuf::from(env!("CARGO_TARGET_TMPDIR"));
    let [file, other] = ["text", "sheet"].map(|name| scratch.join(format!("{test}_{name}")));
    std::fs::write(&file, text).expect("a scratch file");
    let mut command = Command::new(PathBuf::from(&folder).join("coverage"));
    command.arg("sheet").arg(&file);
    if let Some(sheet) = sheet {
        match sheet {
            Some(sheet) => std::fs::write(&other, sheet).expect("a scratch file"),
            None => drop(std::fs::remove_file(&other)),
        }
        command.arg(&other);
    }
    command.output().expect("coverage of RATTLE_BIN")
}

/// The program checks what it is given: `yes`, `no` and the record, or the refusal number.
#[test]
fn the_program_checks() {
    let mut random = Random::for_test("coverage sheet FILE SHEET");
    let mut met = Met::default();
    let mut refused = 0;
    for nth in 0..2000 {
        let kind = random.pick(&KINDS);
        let text = match nth % 100 {
            0 => random.long_text(nth % 200 == 0),
            _ => random.text(kind),
        };
        let (mut sheet, done) = sheet_for(&mut random, &text);
        let there = nth % 50 != 7; // a sheet that cannot be read counts as empty
        let found = run("checks", &text, Some(there.then_some(&sheet[..])));
        if !there {
            sheet.clear();
        }
        let wanted = printed(&text, &sheet);
        let found_line = String::from_utf8_lossy(&found.stdout).into_owned();
        assert!(
            found_line == wanted,
            "{nth}: {done:?}: {found_line} {wanted} {text:?}"
        );
        let is_refused = wanted.as_bytes()[0].is_ascii_digit();
        assert_eq!(found.stderr.is_empty(), there && !is_refused, "{nth}");
        refused += u64::from(is_refused);
        if !is_refused && there {
            met.count(done, wanted == "yes\n");
        }
    }
    met.finish("coverage sheet FILE SHEET", 50);
    assert!(refused > 200, "{refused}");
}

/// The program writes what the second program writes, and checks it with yes; nothing where the text is refused.
#[test]
fn the_program_writes() {
    let mut random = Random::for_test("coverage sheet FILE");
    let mut counts = [0, 0];
    for nth in 0..500 {
        let kind = random.pick(&KINDS);
        let text = match nth % 50 {
            0 => random.long_text(nth % 100 == 0),
            _ => random.text(kind),
        };
        let found = run("writes", &text, None);
        let refused = !(accepts(RULES, &text) && text.len() <= 65_536);
        let wanted = match refused {
            true => vec![],
            false => sheet_of(&records(&text)),
        };
        assert!(found.stdout == wanted, "{nth}");
        assert_eq!(found.stderr.is_empty(), !refused, "{nth}");
        if !refused {
            let told = run("writes", &text, Some(Some(&wanted)));
            assert_eq!(told.stdout, b"yes\n");
        }
        counts[usize::from(refused)] += 1;
    }
    assert!(counts.iter().all(|&count| count > 50), "{counts:?}");
    say(&format!(
        "coverage sheet FILE: {} sheets written, {} texts refused",
        counts[0], counts[1]
    ));
}

/// A text of so many whole cells: finest cells of P that lie apart.
fn many_cells(count: u64) -> Vec<u8> {
    let finest = |nth: u64| -> Name {
        let digits = (0..15).map(|at| b'0' + (nth * 2 / 9u64.pow(14 - at) % 9) as u8);
        iter::once(b'P').chain(digits).collect()
    };
    text_of(FIRST, 2, 1, &(0..count).map(finest).collect::<Vec<Name>>())
}

/// Sheets longer than any part that the program reads or writes at once, and damage at every part's edge.
#[test]
fn long_sheets() {
    let text = many_cells(20_000);
    assert!(accepts(RULES, &text) && text.len() <= 65_536);
    let sheet = sheet_of(&records(&text));
    assert!(sheet.len() > 10 * 65_536);
    assert!(run("long", &text, None).stdout == sheet);
    assert_eq!(run("long", &text, Some(Some(&sheet))).stdout, b"yes\n");
    for part in [65_520, 65_536, 131_040, 131_072, sheet.len()] {
        for at in part.saturating_sub(41)..(part + 41).min(sheet.len()) {
            if at % 7 != 0 && at % 40 != 0 && at % 40 != 39 {
                continue;
            }
            let mut spoilt = sheet.clone();
            spoilt[at] ^= 0x10;
            let wanted = format!("no {}\n", at / RECORD);
            assert_eq!(
                run("long", &text, Some(Some(&spoilt))).stdout,
                wanted.as_bytes()
            );
            let cut = run("long", &text, Some(Some(&sheet[..at])));
            assert_eq!(cut.stdout, wanted.as_bytes());
        }
    }
    for more in [1, 39, 40, 65_520, 200_000] {
        let overlong = [&sheet[..], &vec![0; more]].concat();
        let wanted = format!("no {}\n", sheet.len() / RECORD);
        assert_eq!(
            run("long", &text, Some(Some(&overlong))).stdout,
            wanted.as_bytes()
        );
    }
}

/// The second program against 02's words: a sheet is told right exactly where the four conditions hold,
/// and the record that a no names is the first that differs from ours, byte by byte.
#[test]
fn alone() {
    let mut random = Random::for_test("W-211 alone");
    let mut met = Met::default();
    for _ in 0..60_000 {
        let text = random.text(Kind::Random);
        if !accepts(RULES, &text) {
            continue;
        }
        let (sheet, done) = sheet_for(&mut random, &text);
        let told = wrong_record(&text, &sheet);
        assert_eq!(told.is_none(), meets(&text, &sheet), "{done:?}");
        met.count(done, told.is_none());
        let ours = sheet_of(&records(&text));
        let at = |bytes: &[u8], nth: usize| -> Vec<u8> {
            bytes
                .iter()
                .skip(RECORD * nth)
                .take(RECORD)
                .copied()
                .collect()
        };
        if let Some(record) = told {
            let record = record as usize;
            assert!((0..record).all(|nth| at(&sheet, nth) == at(&ours, nth)));
            assert_ne!(at(&sheet, record), at(&ours, record));
        }
    }
    met.finish("W-211 alone", 1000);
}

/// 02's own numbers: a record's bytes, and P0's neighbours of 01's table.
#[test]
fn one_record() {
    let text = text_of(FIRST, 0, 0, &[b"P0".to_vec()]);
    let sheet = sheet_of(&records(&text));
    let names: [&[u8]; 5] = [b"P0", b"N8", b"P1", b"P3", b"O2"];
    let codes = names.map(|name| second::grid::code_of(0, 0, name));
    assert_eq!(record_in(&sheet), Some(codes));
    assert_eq!(sheet[..8], codes[0].to_le_bytes());
    assert_eq!(sheets::check(&text, &sheet), Ok(None));
    assert_eq!(sheets::check(&text, &sheet[..39]), Ok(Some(0)));
    assert_eq!(sheets::check(&text, &[]), Ok(Some(0)));
    let longer = [&sheet[..], &[0]].concat();
    assert_eq!(sheets::check(&text, &longer), Ok(Some(1)));
}
