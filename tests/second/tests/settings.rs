//! Request W-209: over random runs of calls, each given what the last handed back, the proved library
//! refuses as the second program does and reads what was accepted. A refused change hands back the same.

#[cfg(not(proved))]
#[test]
fn the_proved_library_is_linked() {
    panic!("RATTLE_LIBS is not set, so nothing was compared");
}

#[cfg(proved)]
mod proved {
    use second::compare::say;
    use second::proved::settings::{back, change, fresh, read, History};
    use second::random::{Kind, Random, KINDS};
    use second::settings::{Call, Log, Settings};
    use std::collections::BTreeMap;

    /// Settings, good, at borders or bad.
    fn settings(random: &mut Random, kind: Kind) -> Settings {
        [
            random.number(kind, 4),
            random.number(kind, 4),
            random.number(kind, 16),
            random.number(kind, 10_000_000_001),
        ]
    }

    /// A revision: the newest, one near a border of those that are kept, or any.
    fn revision(random: &mut Random, newest: u64, often: u64) -> u64 {
        if !random.chance(often) {
            return newest;
        }
        match random.below(6) {
            0 => newest.wrapping_sub(random.below(4)),
            1 => newest + random.below(4),
            2 => newest.wrapping_sub(30 + random.below(4)),
            3 => newest + (random.pick(&[1 << 8, 1 << 16, 1 << 32, 1 << 63])),
            4 => random.below(newest + 1),
            _ => random.any(),
        }
    }

    fn call(random: &mut Random, newest: u64) -> Call {
        let from = revision(random, newest, 8);
        if random.chance(4) {
            return Call::Back(from, revision(random, newest, 1));
        }
        let kind = random.pick(&[Kind::Random, Kind::Border, Kind::Random, Kind::Bad]);
        Call::Change(from, settings(random, kind))
    }

    /// What the library answers to a call: its refusal and the history.
    fn called(history: History, call: Call) -> (u64, History) {
        let answer = match call {
            Call::Change(from, [n, s, k, e]) => change(history, from, n, s, k, e),
            Call::Back(from, wanted) => back(history, from, wanted),
        };
        (answer.refusal, answer.history)
    }

    /// One revision, read by both.
    fn same(log: &Log, history: History, revision: u64) {
        let got = read(history, revision).settings;
        let refusal = read(history, revision).refusal;
        let found = [got.n, got.s, got.resolution, got.eccentricity];
        match log.read(revision) {
            Ok(wanted) => assert_eq!((refusal, found), (0, wanted), "revision {revision}"),
            Err(number) => assert_eq!((refusal, found), (number, [0; 4]), "revision {revision}"),
        }
    }

    /// Every revision about those that are kept.
    fn same_all(log: &Log, history: History) {
        let newest = log.newest();
        assert_eq!(history.newest, newest);
        for revision in newest.saturating_sub(34)..=newest + 3 {
            same(log, history, revision);
        }
    }

    /// A run of so many calls from a fresh history.
    fn run(random: &mut Random, calls: u64, met: &mut BTreeMap<u64, u64>) {
        let kind = random.pick(&[Kind::Random, Kind::Border]);
        let first = settings(random, kind);
        let [n, s, k, e] = first;
        let mut log = Log::fresh(first).expect("good settings");
        let mut history = fresh(n, s, k, e).history;
        for _ in 0..calls {
            let call = call(random, log.newest());
            let wanted = log.call(call).err().unwrap_or(0);
            let (refusal, next) = called(history, call);
            assert_eq!(refusal, wanted, "{call:?} at {}", log.newest());
            if refusal != 0 {
                assert_eq!(next, history, "{call:?} refused with {refusal}");
            }
            history = next;
            *met.entry(refusal).or_default() += 1;
            let asked = revision(random, log.newest(), 1);
            same(&log, history, asked);
        }
        same_all(&log, history);
    }

    #[test]
    fn random_runs() {
        let mut random = Random::for_test("settings");
        let mut met = BTreeMap::new();
        for nth in 0..20_000 {
            let calls = if nth % 100 == 0 {
                1500
            } else {
                random.below(100)
            };
            run(&mut random, calls, &mut met);
        }
        say(&format!("settings: runs of calls, by refusal {met:?}"));
        for number in [0, 2, 5, 6, 16, 18] {
            assert!(met[&number] >= 1000, "{number} only {} times", met[&number]);
        }
    }

    #[test]
    fn fresh_histories() {
        let mut random = Random::for_test("fresh settings");
        let mut met: BTreeMap<u64, u64> = BTreeMap::new();
        for _ in 0..1_000_000 {
            let kind = random.pick(&KINDS);
            let first = settings(&mut random, kind);
            let [n, s, k, e] = first;
            let answer = fresh(n, s, k, e);
            match Log::fresh(first) {
                Ok(log) => same(&log, answer.history, random.below(2)),
                Err(_) => assert_eq!(answer.history, History::default()),
            }
            let wanted = Log::fresh(first).err().unwrap_or(0);
            assert_eq!(answer.refusal, wanted, "{first:?}");
            *met.entry(wanted).or_default() += 1;
        }
        say(&format!("fresh settings: by refusal {met:?}"));
        assert_eq!(met.len(), 4, "0, 5, 2 and 6 are met");
    }

    /// 65,535 revisions are made, and all further changes are refused with 17.
    #[test]
    fn seventy_thousand_changes_in_a_row() {
        let mut random = Random::for_test("seventy thousand changes");
        let mut log = Log::fresh([0; 4]).expect("good settings");
        let mut history = fresh(0, 0, 0, 0).history;
        for nth in 0..70_000 {
            let kind = random.pick(&[Kind::Random, Kind::Border]);
            let call = match nth % 3 {
                0 => Call::Back(log.newest(), log.newest() - log.newest().min(nth % 32)),
                _ => Call::Change(log.newest(), settings(&mut random, kind)),
            };
            let wanted = log.call(call).err().unwrap_or(0);
            assert_eq!(wanted, if nth < 65_535 { 0 } else { 17 });
            let (refusal, next) = called(history, call);
            assert_eq!(refusal, wanted, "change {nth}");
            assert!(refusal == 0 || next == history, "change {nth}");
            history = next;
            same(&log, history, revision(&mut random, log.newest(), 1));
            if nth % 1000 == 0 || nth > 69_990 {
                same_all(&log, history);
            }
        }
        assert_eq!(history.newest, 65_535);
    }

    /// A history that no calls made gets some answer, and a refused change hands it back as it was.
    #[test]
    fn any_history() {
        let mut random = Random::for_test("any history");
        for _ in 0..100_000 {
            let mut history = History::default();
            history.newest = random.pick(&[0, 31, 32, 65_534, 65_535, 65_536, 1 << 32, u64::MAX]);
            for kept in &mut history.kept {
                [kept.n, kept.s, kept.resolution, kept.eccentricity] =
                    [random.any(), random.any(), random.any(), random.any()];
            }
            let call = call(&mut random, history.newest.min(1 << 62));
            let (refusal, next) = called(history, call);
            assert!(refusal == 0 || next == history);
        }
    }
}
