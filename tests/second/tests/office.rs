//! The proved program `settings` against the second program: the file after each command, what is printed,
//! and files that are encodings, damaged or cut; and `record` and `name_fixes` with the settings of a revision.
//! RATTLE_BIN names the folder of the programs.

use second::compare::say;
use second::flights::{geodetic_line_code, named_by, recorded_by};
use second::random::{Kind, Random, KINDS};
use second::settings::{checked, encoded, words, Call, Log, Settings};
use std::io::Write;
use std::path::PathBuf;
use std::process::{Command, Output, Stdio};

/// A folder of its own for a test, removed at its end.
struct Folder(PathBuf);

impl Folder {
    fn new(name: &str) -> Folder {
        let folder = std::env::temp_dir().join(format!("jeguarivo-{name}-{}", std::process::id()));
        std::fs::create_dir_all(&folder).expect("a folder");
        Folder(folder)
    }

    /// Runs a program with words and an input, in this folder.
    fn run(&self, program: &str, words: &str, input: &[u8]) -> Output {
        let programs = std::env::var("RATTLE_BIN").expect("RATTLE_BIN names the programs' folder");
        let mut started = Command::new(PathBuf::from(programs).join(program))
            .args(words.split(' '))
            .current_dir(&self.0)
            .stdin(Stdio::piped())
            .stdout(Stdio::piped())
            .stderr(Stdio::piped())
            .spawn()
            .expect("the program runs");
        let written = started.stdin.take().expect("an input").write_all(input);
        let output = started.wait_with_output().expect("the program ends");
        assert!(output.status.success(), "{words}: {:?}", output.status);
        // a program that refuses its words reads nothing
        assert!(written.is_ok() || output.stdout.is_empty(), "{words}");
        output
    }

    /// Runs `settings FILE` with words: standard output, and standard error.
    fn settings(&self, words: &str) -> (String, String) {
        let output = self.run("settings", &format!("office.set {words}"), b"");
        let text = |bytes| String::from_utf8(bytes).expect("plain text");
        (text(output.stdout), text(output.stderr))
    }

    fn file(&self) -> PathBuf {
        self.0.join("office.set")
    }

    /// The one file in the folder.
    fn bytes(&self) -> Vec<u8> {
        let files = std::fs::read_dir(&self.0).expect("the folder").count();
        assert_eq!(files, 1, "nothing but the history is left");
        std::fs::read(self.file()).expect("the history")
    }
}

impl Drop for Folder {
    fn drop(&mut self) {
        std::fs::remove_dir_all(&self.0).expect("the folder is removed");
    }
}

fn settings(random: &mut Random, kind: Kind) -> Settings {
    [
        random.number(kind, 4),
        random.number(kind, 4),
        random.number(kind, 16),
        random.number(kind, 10_000_000_001),
    ]
    .map(|number| number % (1 << 62)) // a word has at most 19 digits
}

fn good(random: &mut Random) -> Settings {
    let kind = random.pick(&[Kind::Random, Kind::Border]);
    settings(random, kind)
}

/// A log of so many revisions.
fn log(random: &mut Random, revisions: u64) -> Log {
    Log((0..revisions).map(|_| good(random)).collect())
}

/// What standard error says of a refusal.
fn refused(number: u64, said: &str) {
    let start = format!("settings: refusal {number}: ");
    assert!(said.starts_with(&start), "{number}: {said}");
}

/// One command on a file that holds the log: what is printed, and the file after it.
fn command(random: &mut Random, folder: &Folder, log: &mut Log) -> u64 {
    let newest = log.newest();
    let near = |random: &mut Random| match random.below(4) {
        0 => newest.saturating_sub(random.below(36)),
        1 => newest + random.below(3),
        _ => newest,
    };
    let from = near(random);
    let wanted = near(random);
    let (call, line) = match random.below(3) {
        0 => (Call::Back(from, wanted), format!("back {from} {wanted}")),
        _ => {
            let kind = random.pick(&[Kind::Random, Kind::Border, Kind::Bad]);
            let to = settings(random, kind);
            (
                Call::Change(from, to),
                format!("change {from} {}", words(to)),
            )
        }
    };
    let answer = log.call(call);
    let (printed, said) = folder.settings(&line);
    match answer {
        Ok(()) => assert_eq!(
            (printed, said),
            (format!("{}\n", log.newest()), String::new())
        ),
        Err(number) => {
            assert_eq!(printed, "");
            refused(number, &said);
        }
    }
    assert_eq!(folder.bytes(), encoded(log), "the file after {line}");
    answer.err().unwrap_or(0)
}

#[test]
fn commands_in_a_row() {
    let mut random = Random::for_test("settings FILE");
    let folder = Folder::new("commands");
    let mut met = std::collections::BTreeMap::new();
    for _ in 0..12 {
        let first = good(&mut random);
        let printed = folder.settings(&format!("fresh {}", words(first)));
        assert_eq!(printed, ("0\n".to_string(), String::new()));
        let mut log = Log::fresh(first).expect("good settings");
        for _ in 0..45 {
            let number = command(&mut random, &folder, &mut log);
            *met.entry(number).or_insert(0) += 1;
        }
        let asked = log.newest() - random.below(40).min(log.newest());
        let (printed, said) = folder.settings(&format!("read {asked}"));
        match log.read(asked) {
            Ok(found) => assert_eq!(
                (printed, said),
                (format!("{}\n", words(found)), String::new())
            ),
            Err(number) => refused(number, &said),
        }
        assert_eq!(folder.settings("list"), (log.list(), String::new()));
        std::fs::remove_file(folder.file()).expect("the file is removed");
    }
    say(&format!("settings FILE: commands by refusal {met:?}"));
    assert!([0, 16, 18].iter().all(|number| met[number] >= 20));
}

/// Encodings of histories of any length, also of the last revision there is.
#[test]
fn encodings() {
    let mut random = Random::for_test("encodings");
    let folder = Folder::new("encodings");
    for nth in 0..300 {
        let revisions = match nth % 3 {
            0 => 1 + random.below(34),
            1 => 65_504 + random.below(33),
            _ => 1 + random.below(65_536),
        };
        let log = log(&mut random, revisions);
        let bytes = encoded(&log);
        assert_eq!(checked(&bytes), Ok(()));
        std::fs::write(folder.file(), &bytes).expect("the file is written");
        assert_eq!(folder.settings("list"), (log.list(), String::new()));
    }
}

/// An encoding with one or two bytes changed, cut, or with bytes behind it.
fn damaged(random: &mut Random, log: &Log) -> Vec<u8> {
    let mut bytes = encoded(log);
    let at = random.below(bytes.len() as u64) as usize;
    match random.below(6) {
        0 => bytes.truncate(at),
        1 => bytes.extend((0..=random.below(3)).map(|_| 0)),
        2 => bytes[random.below(7) as usize] = random.any() as u8,
        3 => bytes[at] = random.pick(&[0, 1, 2, 3, 4, 15, 16, 84, 255]),
        // the bytes of an eccentricity, about its limit 02 54 0B E4 00
        4 => {
            let place = random.below(32) as usize;
            let near = 10_000_000_000_u64 + random.below(3) * 256 - 256 + random.below(3);
            bytes[7 + 8 * place + 3..7 + 8 * place + 8].copy_from_slice(&near.to_be_bytes()[3..]);
        }
        _ => bytes[at] = bytes[at].wrapping_add(1),
    }
    if random.chance(3) {
        bytes.truncate(random.below(265) as usize);
    }
    bytes
}

#[test]
fn damaged_and_cut() {
    let mut random = Random::for_test("damaged encodings");
    let folder = Folder::new("damaged");
    let (mut good, mut places) = (0, std::collections::BTreeSet::new());
    for _ in 0..4000 {
        let revisions = random.pick(&[1, 2, 5, 31, 32, 33, 300]) + random.below(2);
        let log = log(&mut random, revisions);
        let bytes = damaged(&mut random, &log);
        std::fs::write(folder.file(), &bytes).expect("the file is written");
        let (printed, said) = folder.settings("list");
        match checked(&bytes) {
            Ok(()) => {
                good += 1;
                assert!(
                    printed.lines().count() <= 32 && said.is_empty(),
                    "{bytes:?}"
                );
            }
            Err(place) => {
                let wanted = format!(
                    "settings: office.set: refusal 9 at place {place}: not a history of settings\n"
                );
                assert_eq!((printed, said), (String::new(), wanted), "{bytes:?}");
                places.insert(place);
            }
        }
        assert_eq!(folder.bytes(), bytes, "a file that is read stays as it is");
    }
    say(&format!(
        "damaged encodings: {good} still good, 9 at {} places",
        places.len()
    ));
    assert!(good >= 100 && places.len() >= 200, "too little was tried");
}

/// Every encoding cut at every place, and the empty file.
#[test]
fn every_cut() {
    let mut random = Random::for_test("cut encodings");
    let folder = Folder::new("cut");
    for revisions in [1, 20, 40] {
        let bytes = encoded(&log(&mut random, revisions));
        for length in 0..bytes.len() {
            assert_eq!(checked(&bytes[..length]), Err(length as u64));
            std::fs::write(folder.file(), &bytes[..length]).expect("the file is written");
            let (printed, said) = folder.settings("list");
            let wanted = format!(
                "settings: office.set: refusal 9 at place {length}: not a history of settings\n"
            );
            assert_eq!((printed, said), (String::new(), wanted));
        }
    }
}

/// A flight of lines `longitude sine`, good and bad ones, that leave no cell open.
fn flight(random: &mut Random, settings: Settings) -> Vec<u8> {
    let [n, s, resolution, eccentricity] = settings;
    let mut input = Vec::new();
    for _ in 0..40 {
        let kind = random.pick(&KINDS);
        let (longitude, _) = random.fix(kind, n, s, resolution);
        let line = format!("{longitude} {}", random.sine(kind));
        if geodetic_line_code(n, s, resolution, eccentricity, line.as_bytes()).is_some() {
            input.extend(line.bytes());
            input.push(b'\n');
        }
    }
    input
}

/// `record` and `name_fixes` with a revision that is kept: the second program's answers with what was accepted
/// under it. The words are `settings FILE` and, if it is named, the revision.
fn flown(random: &mut Random, folder: &Folder, words: &str, revision: u64, settings: Settings) {
    let [n, s, resolution, eccentricity] = settings;
    let input = flight(random, settings);
    let code = |line: &[u8]| {
        geodetic_line_code(n, s, resolution, eccentricity, line)
            .expect("a line that leaves no cell open")
    };
    let used = |program: &str| format!("{program}: revision {revision} of office.set\n");

    let named = folder.run("name_fixes", words, &input);
    assert_eq!(named.stdout, named_by(&input, code), "{words}");
    assert_eq!(named.stderr, used("name_fixes").as_bytes(), "{words}");

    let wanted = recorded_by(n, s, &input, code);
    let to = format!("{words} to kept.cvr");
    for words in [words, &to] {
        let found = folder.run("record", words, &input);
        assert_eq!(found.stdout, wanted.text, "{words}");
        let said = String::from_utf8(found.stderr).expect("plain text");
        assert!(said.starts_with(&used("record")), "{words}: {said}");
    }
    let kept = folder.0.join("kept.cvr");
    assert_eq!(std::fs::read(&kept).expect("the text"), wanted.text);
    std::fs::remove_file(kept).expect("the text is removed");
}

#[test]
fn flights_with_settings() {
    let mut random = Random::for_test("record settings FILE");
    let folder = Folder::new("flights");
    let (mut kept, mut not_kept) = (0, 0);
    for nth in 0..300 {
        let revisions = 1 + random.below(50);
        let log = log(&mut random, revisions);
        std::fs::write(folder.file(), encoded(&log)).expect("the file is written");
        let newest = log.newest();
        let (revision, words) = match nth % 3 {
            0 => (newest, "settings office.set".to_string()),
            _ => {
                let revision = (newest + 1).saturating_sub(random.below(36));
                (revision, format!("settings office.set {revision}"))
            }
        };
        match log.read(revision) {
            Ok(settings) => {
                kept += 1;
                flown(&mut random, &folder, &words, revision, settings);
            }
            Err(number) => {
                not_kept += 1;
                for program in ["record", "name_fixes"] {
                    let found = folder.run(program, &words, b"");
                    let said = String::from_utf8(found.stderr).expect("plain text");
                    let start = format!("{program}: refusal {number}: ");
                    assert!(
                        found.stdout.is_empty() && said.starts_with(&start),
                        "{said}"
                    );
                }
            }
        }
        assert_eq!(folder.bytes(), encoded(&log), "the history stays as it is");
    }
    say(&format!(
        "settings FILE for flights: {kept} with a kept revision, {not_kept} with none"
    ));
    assert!(kept >= 150 && not_kept >= 5, "too little was tried");
}
