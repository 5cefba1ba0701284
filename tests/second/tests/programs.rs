//! The proved programs `record` and `name_fixes` against the second program, on random lines, good
//! and bad ones. RATTLE_BIN names the folder of the programs; without it these tests fail.

use second::compare::say;
use second::coverage::HEADING;
use second::flights::{
    counts, fix, geodetic_line_code, line_code, lines, named, named_by, number, recorded,
    recorded_by, Flown,
};
use second::grid::Answer;
use second::random::{Kind, Random, KINDS};
use std::fs::File;
use std::path::PathBuf;
use std::process::{Command, Output};

/// n, s, the resolution, the eccentricity if there is one, and the input of one run.
struct Run {
    setting: [u64; 3],
    eccentricity: Option<u64>,
    input: Vec<u8>,
}

impl Run {
    /// The code of a line, by the second program. The lines of a run leave none open.
    fn code(&self, line: &[u8]) -> Answer<u64> {
        let [n, s, resolution] = self.setting;
        code(n, s, resolution, self.eccentricity, line).expect("a line that leaves no cell open")
    }

    fn named(&self) -> Vec<u8> {
        let [n, s, resolution] = self.setting;
        match self.eccentricity {
            None => named(n, s, resolution, &self.input),
            Some(_) => named_by(&self.input, |line| self.code(line)),
        }
    }

    fn recorded(&self) -> Flown {
        let [n, s, resolution] = self.setting;
        match self.eccentricity {
            None => recorded(n, s, resolution, &self.input),
            Some(_) => recorded_by(n, s, &self.input, |line| self.code(line)),
        }
    }
}

/// The code of a line with or without an eccentricity, unless that is left open.
fn code(n: u64, s: u64, k: u64, eccentricity: Option<u64>, line: &[u8]) -> Option<Answer<u64>> {
    match eccentricity {
        None => Some(line_code(n, s, k, line)),
        Some(eccentricity) => geodetic_line_code(n, s, k, eccentricity, line),
    }
}

/// One line without its end: a fix of any kind, one time in four damaged. With an eccentricity the
/// second number is a sine, and the line leaves no cell open.
fn line(random: &mut Random, setting: [u64; 3], eccentricity: Option<u64>) -> Vec<u8> {
    let [n, s, resolution] = setting;
    let kind = random.pick(&KINDS);
    let (longitude, z) = random.fix(kind, n, s, resolution);
    let second = match eccentricity {
        None => z,
        Some(_) => random.sine(kind),
    };
    let line = damaged(random, format!("{longitude} {second}").into_bytes());
    match code(n, s, resolution, eccentricity, &line) {
        Some(_) => line,
        None => self::line(random, setting, eccentricity),
    }
}

/// A line, one time in four with a byte more, less or another, or cut.
fn damaged(random: &mut Random, mut line: Vec<u8>) -> Vec<u8> {
    if !random.chance(4) {
        return line;
    }
    let at = random.below(line.len() as u64) as usize;
    let byte = random.pick(b" \t\r-+.,0129x\0\x80\xff");
    match random.below(6) {
        0 => line.insert(at, byte),
        1 => line[at] = byte,
        2 => line.truncate(at),
        3 => drop(line.remove(at)),
        4 => line.extend(std::iter::repeat_n(byte, random.below(200) as usize)),
        _ => line.push(byte),
    }
    line
}

/// An input of so many lines. Some lines end as in Windows, and the last one may have no end.
fn input(random: &mut Random, setting: [u64; 3], eccentricity: Option<u64>, count: u64) -> Vec<u8> {
    let mut input = Vec::new();
    for _ in 0..count {
        input.extend(line(random, setting, eccentricity));
        input.extend(random.pick(&[&b"\n"[..], b"\n", b"\n", b"\r\n"]));
    }
    if random.chance(3) {
        input.pop();
    }
    input
}

/// All arrangements at all resolutions, a few lines each, and at times some thousands; or fewer
/// lines, each run with an eccentricity.
fn runs(random: &mut Random, on_ellipsoids: bool) -> Vec<Run> {
    let mut runs = Vec::new();
    for nth in 0..256 {
        let setting = [nth / 64, nth / 16 % 4, nth % 16];
        let kind = random.pick(&[Kind::Random, Kind::Border]);
        let eccentricity = on_ellipsoids.then(|| random.eccentricity(kind));
        let count = match (nth % 37, on_ellipsoids) {
            (1, false) => 6000,
            (1, true) => 500,
            _ => random.below(60),
        };
        let input = input(random, setting, eccentricity, count);
        runs.push(Run {
            setting,
            eccentricity,
            input,
        });
    }
    runs
}

/// Runs a program of RATTLE_BIN with the input from a file and what it says in another, as a person
/// would. Each test has files of its own, as tests run side by side.
fn output(program: &str, run: &Run) -> Output {
    let folder = std::env::var("RATTLE_BIN").expect("RATTLE_BIN, so nothing was compared");
    let test = std::thread::current();
    let file = PathBuf::from(env!("CARGO_TARGET_TMPDIR")).join(test.name().unwrap_or(program));
    let said = file.with_extension("said");
    std::fs::write(&file, &run.input).expect("a scratch file");
    let mut output = Command::new(PathBuf::from(folder).join(program))
        .args(run.setting.map(|number| number.to_string()))
        .args(run.eccentricity.map(|number| number.to_string()))
        .stdin(File::open(&file).expect("a scratch file"))
        .stderr(File::create(&said).expect("a scratch file"))
        .output()
        .expect("a program of RATTLE_BIN");
    output.stderr = std::fs::read(said).expect("a scratch file");
    output
}

/// What standard error is to say: it begins so, line by line.
fn check_said(said: &[u8], wanted: &[String], setting: [u64; 3]) {
    let said = String::from_utf8_lossy(said);
    let said: Vec<&str> = said.lines().collect();
    assert_eq!(said.len(), wanted.len(), "{setting:?}: {said:?} {wanted:?}");
    for (line, wanted) in said.iter().zip(wanted) {
        assert!(line.starts_with(wanted), "{setting:?}: {line:?} {wanted:?}");
    }
}

/// `name_fixes` on each run: how many lines there were, and how many were refused with 6.
fn name_all(test: &str, on_ellipsoids: bool) -> (usize, usize) {
    let mut random = Random::for_test(test);
    let (mut all, mut refused) = (0, 0);
    for run in runs(&mut random, on_ellipsoids) {
        let wanted = run.named();
        let found = output("name_fixes", &run);
        assert!(found.stdout == wanted, "{:?}: {:?}", run.setting, run.input);
        check_said(&found.stderr, &[], run.setting);
        all += lines(&wanted).len();
        refused += lines(&wanted).iter().filter(|&&line| line == b"6").count();
    }
    say(&format!("{test}: {all} lines; refused 6: {refused}"));
    (all, refused)
}

#[test]
fn name_fixes() {
    let (all, refused) = name_all("name_fixes", false);
    assert!(all > 30_000 && refused > 5000 && all - refused > 15_000);
}

/// With a fourth argument the lines are `longitude sine`.
#[test]
fn name_fixes_on_ellipsoids() {
    let (all, refused) = name_all("name_fixes on ellipsoids", true);
    assert!(all > 8000 && refused > 1500 && all - refused > 4000);
}

/// What `record` is to say of a flight: each line that it left out, and the counts.
fn said_of(flown: &Flown) -> Vec<String> {
    let refusal = |(line, refusal): &(u64, u64)| format!("record: line {line}: refusal {refusal}:");
    let mut said: Vec<String> = flown.left_out.iter().map(refusal).collect();
    let (taken, bad, full) = (flown.taken, flown.refused(6), flown.refused(13));
    said.push(format!("record: {}", counts(taken, bad, full)));
    said
}

/// `record` on a run, and what the second program says of it.
fn record_one(run: &Run) -> Flown {
    let wanted = run.recorded();
    let found = output("record", run);
    let setting = run.setting;
    assert!(found.stdout == wanted.text, "{setting:?}: {:?}", run.input);
    check_said(&found.stderr, &said_of(&wanted), setting);
    wanted
}

/// How many fixes were taken after the first that was refused with 13.
fn taken_after(flown: &Flown, lines: usize) -> usize {
    let mut refused = flown.left_out.iter();
    match refused.find(|(_, refusal)| *refusal == 13) {
        Some((first, _)) => lines - *first as usize - refused.count(),
        None => 0,
    }
}

/// `record` on each run: how many lines there were, refused with 6, refused with 13, and fixes taken
/// after the first of these.
fn record_all(test: &str, runs: Vec<Run>) -> [usize; 4] {
    let (mut all, mut bad, mut too_long, mut after, mut full) = (0, 0, 0, 0, 0);
    for run in runs {
        let flown = record_one(&run);
        let count = lines(&run.input).len();
        all += count;
        bad += flown.refused(6);
        too_long += flown.refused(13);
        after += taken_after(&flown, count);
        full += usize::from(flown.refused(13) > 0);
    }
    say(&format!(
        "{test}: {all} lines, refused 6: {bad}, 13: {too_long}; {full} flights filled their text, \
         and {after} fixes were taken after that"
    ));
    [all, bad, too_long, after]
}

#[test]
fn record() {
    let mut random = Random::for_test("record");
    let [all, bad, too_long, _] = record_all("record", runs(&mut random, false));
    assert!(all > 30_000 && bad > 5000 && too_long > 1000);
}

#[test]
fn record_on_ellipsoids() {
    let mut random = Random::for_test("record on ellipsoids");
    let [all, bad, ..] = record_all("record on ellipsoids", runs(&mut random, true));
    assert!(all > 8000 && bad > 1500);
}

/// A flight back and forth over a patch, with some lines that are no fixes: its cells share most of
/// their digits, and siblings merge. From time to time it goes to another patch, or back to where it
/// has been.
fn survey(random: &mut Random, setting: [u64; 3], count: u64) -> Vec<u8> {
    let cell = 900_000_000 / 3_i64.pow(setting[2] as u32).min(900_000_000);
    let step = (cell * random.pick(&[1, 2, 3, 7]) / random.pick(&[1, 2, 5])).max(1);
    let across = random.pick(&[6, 20, 60, 200]) * step;
    let turn =
        random.pick(&[1, 3, 30]) * (4_000_000_000_000_000_000 / 3_i64.pow(setting[2] as u32));
    let (mut longitude, mut z) = random.fix(Kind::Random, setting[0], setting[1], setting[2]);
    let patch = random.pick(&[8, 8, 20, 60]);
    let (mut west, mut east, mut been) = (longitude, true, Vec::new());
    let mut input = Vec::new();
    for _ in 0..count {
        let bad = random.chance(50);
        input.extend(
            match bad {
                true => format!("{longitude} {z} \n"),
                false => format!("{longitude} {z}\n"),
            }
            .into_bytes(),
        );
        longitude += if east { step } else { -step };
        if (longitude - west).abs() > across {
            (east, z) = (!east, z + random.below(turn as u64) as i64 - turn / 2);
            longitude += if east { step } else { -step };
        }
        if random.chance(patch) {
            been.push((longitude, z));
            (longitude, z) = match random.chance(3) {
                true => random.pick(&been),
                false => random.fix(Kind::Random, setting[0], setting[1], setting[2]),
            };
            west = longitude;
        }
    }
    input
}

/// A flight that wanders over few cells, by at most one in a step: lists fill up, become whole and merge
/// while the next cell lies in them, beside them or in the list above. Now and then it goes elsewhere.
fn wander(random: &mut Random, setting: [u64; 3], count: u64) -> Vec<u8> {
    let [n, s, resolution] = setting;
    let rows = 3_i64.pow(resolution as u32);
    let (wide, high) = (900_000_000 / rows, 1_333_333_333_333_333_333 / rows);
    let mut middle = random.fix(Kind::Random, n, s, resolution);
    let (mut east, mut up) = (0, 0);
    let far = random.pick(&[2, 4, 9]);
    let mut input = Vec::new();
    for _ in 0..count {
        let longitude = (middle.0 + east).clamp(-1_800_000_000, 1_800_000_000);
        let z = (middle.1 + up).clamp(-1_000_000_000_000_000_000, 1_000_000_000_000_000_000);
        input.extend(format!("{longitude} {z}\n").into_bytes());
        let mut step = |size: i64| random.below(2 * size as u64 + 1) as i64 - size;
        east = (east + step(wide)).clamp(-far * wide, far * wide);
        up = (up + step(high)).clamp(-far * high, far * high);
        if random.chance(60) {
            middle = random.fix(Kind::Random, n, s, resolution);
        }
    }
    input
}

/// What is kept in mind of the last cell changes nothing: flights from cell to cell.
#[test]
fn record_near() {
    let mut random = Random::for_test("record near");
    let mut runs = Vec::new();
    for nth in 0..150 {
        let setting = [nth % 4, nth / 4 % 4, 1 + nth % 15];
        let input = wander(&mut random, setting, 1500);
        runs.push(Run {
            setting,
            eccentricity: None,
            input,
        });
    }
    let [all, ..] = record_all("record, from cell to cell", runs);
    assert!(all > 200_000);
}

/// Flights that fill their text: after that a fix is refused with 13 where its cell doesn't fit, and
/// taken where it lies in ground that is there, or still fits.
#[test]
fn record_full() {
    let mut random = Random::for_test("record full");
    let mut runs = Vec::new();
    for nth in 0..30 {
        let setting = [nth % 4, nth / 4 % 4, 11 + nth % 5];
        let input = survey(&mut random, setting, 15_000);
        runs.push(Run {
            setting,
            eccentricity: None,
            input,
        });
    }
    let [all, bad, too_long, after] = record_all("record, full texts", runs);
    assert!(all > 400_000 && bad > 5000 && too_long > 3000 && after > 100);
}

/// `name_fixes` on an input, by both programs.
fn names(setting: [u64; 3], input: &[u8], wanted: &str) {
    let [n, s, resolution] = setting;
    let by_second = named(n, s, resolution, input);
    assert_eq!(String::from_utf8_lossy(&by_second), wanted);
    let run = Run {
        setting,
        eccentricity: None,
        input: input.to_vec(),
    };
    let found = output("name_fixes", &run);
    assert_eq!(String::from_utf8_lossy(&found.stdout), wanted);
    check_said(&found.stderr, &[], setting);
}

/// `record` on an input, by both programs: the text's body, and what is said.
fn records(setting: [u64; 3], input: &[u8], body: &[u8], said: &[&str]) {
    let run = Run {
        setting,
        eccentricity: None,
        input: input.to_vec(),
    };
    let flown = record_one(&run);
    assert_eq!(flown.text, [HEADING, body].concat());
    let by_second = said_of(&flown);
    assert_eq!(by_second.len(), said.len());
    for (line, said) in by_second.iter().zip(said) {
        assert!(line.starts_with(said), "{line:?} {said:?}");
    }
}

/// A fix with a carriage return, one number alone, and a number of 64 bits.
#[test]
fn printed_lines() {
    assert_eq!(fix(b"-42 7\r"), Some((-42, 7)));
    assert_eq!(fix(b"7"), None);
    assert_eq!(number(b"9223372036854775807"), Some(i64::MAX));
    assert_eq!(number(b"9223372036854775808"), None);
    assert_eq!(lines(b"1\n\n23"), [&b"1"[..], b"", b"23"]);
    let setting = [0, 0, 2];
    names(setting, b"0 0\n", "Q33\n");
    names(setting, b"\n", "6\n");
    names(setting, b"1\n\n23", "6\n6\n6\n");
    names(setting, b"-42 7\r\n42 7\r\n7\n", "P55\nQ33\n6\n");
    let long = b"9223372036854775808 0\n0 9223372036854775808\n";
    names(setting, long, "6\n6\n");
}

/// A cell that is flown later goes to its place, and one that is flown again changes nothing. Line
/// numbers are printed in decimal.
#[test]
fn printed_flights() {
    let setting = [0, 0, 0];
    let three = b"-1800000000 0\n0 0\n-900000000 0\n0 0\n";
    let said = ["record: 4 fixes taken, 0 lines refused with 6, 0 with 13"];
    records(setting, three, b"OPQ", &said);
    let late = [&b"0 0\n".repeat(204)[..], b"x\n"].concat();
    let said = [
        "record: line 205: refusal 6:",
        "record: 204 fixes taken, 1 line refused with 6, 0 with 13",
    ];
    records(setting, &late, b"Q", &said);
}

/// More than 65,536 cells, of which all but the last few merge: none is refused.
#[test]
fn many_cells_that_merge() {
    let many: String = (0..=65_536_i64)
        .map(|i| format!("{} {}\n", i % 300 * 25_000, i / 300 * 45_000_000_000_000))
        .collect();
    let run = Run {
        setting: [0, 0, 9],
        eccentricity: None,
        input: many.into_bytes(),
    };
    let flown = record_one(&run);
    assert_eq!((flown.taken, flown.left_out.len()), (65_537, 0));
}
