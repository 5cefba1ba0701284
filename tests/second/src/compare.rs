//! Runs the second program and the proved one on the same inputs, and counts what was met.

use crate::coverage::Profile;
use crate::grid::{arrangement_of, resolution_of};
use crate::random::{Kind, Random, KINDS};
use std::collections::BTreeMap;
use std::fmt::Debug;
use std::io::Write;

/// The whole answer of an entry, with the lent bytes after it where it has any.
pub trait Refusing: PartialEq + Debug {
    fn refusal(&self) -> u64;
}

/// The inputs that each entry is compared on.
pub const INPUTS: u64 = 1_050_000;

/// The least number of times that each refusal has to be met, so that it was really tried.
const LEAST: u64 = 1000;

/// What an input holds of the sixteen arrangements and the sixteen resolutions, and of the versions
/// and depths of coverage texts.
#[derive(Clone, Copy)]
pub struct About {
    pub arrangement: Option<(u64, u64)>,
    pub resolution: u64,
    pub profile: Option<Profile>,
}

impl About {
    /// What an input that is asked in an arrangement holds.
    pub fn arranged(n: u64, s: u64, resolution: u64) -> About {
        About {
            arrangement: Some((n, s)),
            resolution,
            profile: None,
        }
    }

    /// What a code holds.
    pub fn code(code: u64) -> About {
        let (n, s) = arrangement_of(code);
        About::arranged(n, s, resolution_of(code))
    }
}

/// Writes a line past the test harness, which would hold it back for a test that passes.
pub fn say(line: &str) {
    writeln!(std::io::stdout(), "{line}").expect("standard output");
}

/// Counts of inputs: by kind, by refusal (0 for accepted), and of the accepted ones by
/// arrangement, resolution and profile; and of those refused with 15 by profile.
#[derive(Default)]
pub struct Tally {
    least: u64,
    kinds: [u64; 3],
    refusals: BTreeMap<u64, u64>,
    arrangements: BTreeMap<(u64, u64), u64>,
    resolutions: BTreeMap<u64, u64>,
    profiles: BTreeMap<Profile, u64>,
    outside: BTreeMap<Profile, u64>,
}

impl Tally {
    /// A tally that wants each refusal, arrangement and resolution at least so often.
    pub fn needing(least: u64) -> Tally {
        Tally {
            least,
            ..Tally::default()
        }
    }

    pub fn count(&mut self, kind: Kind, refusal: u64, about: About) {
        self.kinds[kind as usize] += 1;
        *self.refusals.entry(refusal).or_default() += 1;
        if refusal == 0 {
            if let Some(arrangement) = about.arrangement {
                *self.arrangements.entry(arrangement).or_default() += 1;
            }
            *self.resolutions.entry(about.resolution).or_default() += 1;
        }
        let profiles = match refusal {
            0 => &mut self.profiles,
            15 => &mut self.outside,
            _ => return,
        };
        if let Some(profile) = about.profile {
            *profiles.entry(profile).or_default() += 1;
        }
    }

    /// States the counts, and fails where too little was tried.
    pub fn finish(&self, entry: &str, refusals: &[u64]) {
        let total: u64 = self.kinds.iter().sum();
        let [random, border, bad] = self.kinds;
        let mut line =
            format!("{entry}: {total} inputs (random {random}, border {border}, bad {bad})");
        for (refusal, count) in &self.refusals {
            match refusal {
                0 => line += &format!("; accepted {count}"),
                _ => line += &format!("; refused {refusal}: {count}"),
            }
        }
        say(&line);
        let met: Vec<u64> = self.refusals.keys().copied().collect();
        let mut wanted = vec![0];
        wanted.extend(refusals);
        wanted.sort();
        assert_eq!(met, wanted, "{entry}: the refusals met");
        for (refusal, count) in &self.refusals {
            let least = self.least;
            assert!(*count >= least, "{entry}: {refusal} only {count} times");
        }
        self.check_spread(entry, if refusals.contains(&12) { 15 } else { 16 });
        self.check_profiles(entry, refusals.contains(&15));
    }

    /// Both versions and all depths, each often, where the entry has them; and 15 at every depth.
    fn check_profiles(&self, entry: &str, has_15: bool) {
        assert!([0, 17].contains(&self.profiles.len()), "{entry}: profiles");
        let outside = if has_15 { 16 } else { 0 };
        assert!(self.outside.len() == outside, "{entry}: 15 by depth");
        for (profile, count) in self.profiles.iter().chain(&self.outside) {
            assert!(*count >= self.least, "{entry}: {profile:?} {count} times");
        }
        if let (Some(least), Some(most)) =
            (self.profiles.values().min(), self.profiles.values().max())
        {
            let least_15 = self.outside.values().min();
            let line =
                format!("{entry}: accepted from {least} to {most} times by version and depth");
            say(&least_15.map_or(line.clone(), |least| {
                format!("{line}, 15 at each depth {least} times or more")
            }));
        }
    }

    /// All arrangements and all resolutions, each often, where the entry has them. Refusal 12
    /// takes one resolution away: a face has no parent, and a finest cell no child.
    fn check_spread(&self, entry: &str, resolutions: usize) {
        let spread = (self.arrangements.len(), self.resolutions.len());
        assert!([0, 16].contains(&spread.0), "{entry}: arrangements");
        assert!(spread.1 == resolutions, "{entry}: resolutions");
        let least = self
            .arrangements
            .values()
            .chain(self.resolutions.values())
            .min();
        assert!(least >= Some(&self.least), "{entry}: spread");
        assert!(self.refusals[&0] >= 100 * self.least, "{entry}: accepted");
    }
}

/// Compares the whole answers of both programs on many inputs of every kind.
pub fn compare<I: Debug, A: Refusing>(
    entry: &str,
    refusals: &[u64],
    make: impl Fn(&mut Random, Kind) -> I,
    about: impl Fn(&I) -> About,
    second: impl Fn(&I) -> A,
    proved: impl Fn(&I) -> A,
) {
    compare_mix(entry, refusals, &KINDS, INPUTS, make, about, second, proved);
}

/// The same with a mix of kinds and a number of inputs of one's own.
#[allow(clippy::too_many_arguments)]
pub fn compare_mix<I: Debug, A: Refusing>(
    entry: &str,
    refusals: &[u64],
    mix: &[Kind],
    inputs: u64,
    make: impl Fn(&mut Random, Kind) -> I,
    about: impl Fn(&I) -> About,
    second: impl Fn(&I) -> A,
    proved: impl Fn(&I) -> A,
) {
    let mut random = Random::for_test(entry);
    let mut tally = Tally::needing(LEAST);
    for _ in 0..inputs {
        let kind = random.pick(mix);
        let input = make(&mut random, kind);
        let wanted = second(&input);
        let found = proved(&input);
        assert!(
            wanted == found,
            "{entry}\n input {input:?}\n second program {wanted:?}\n proved library {found:?}"
        );
        tally.count(kind, wanted.refusal(), about(&input));
    }
    tally.finish(entry, refusals);
}
