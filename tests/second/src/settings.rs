//! Request W-209: settings with a past. Here nothing is ever dropped: the whole log of what was accepted
//! is kept, and "the last 32 revisions" is asked of it.

use crate::grid::Answer;

/// "Arrangement, working resolution and eccentricity": n, s, resolution, eccentricity.
pub type Settings = [u64; 4];

/// What was accepted under each revision, from 0 on.
#[derive(Clone, Debug, PartialEq, Eq)]
pub struct Log(pub Vec<Settings>);

/// A change, "going back included", names "the revision it was made from".
#[derive(Clone, Copy, Debug)]
pub enum Call {
    Change(u64, Settings),
    Back(u64, u64),
}

/// "contents by 5, 2 and 6"
pub fn contents(settings: Settings) -> Answer<()> {
    let [n, s, resolution, eccentricity] = settings;
    if n > 3 || s > 3 {
        return Err(5);
    }
    if resolution > 15 {
        return Err(2);
    }
    if eccentricity > 10_000_000_000 {
        return Err(6);
    }
    Ok(())
}

impl Log {
    /// "Revision 0 is what the fresh history is made with."
    pub fn fresh(settings: Settings) -> Answer<Log> {
        contents(settings)?;
        Ok(Log(vec![settings]))
    }

    pub fn newest(&self) -> u64 {
        self.0.len() as u64 - 1
    }

    /// "the last 32 revisions", oldest first
    pub fn kept(&self) -> Vec<u64> {
        let mut all: Vec<u64> = (0..self.0.len() as u64).collect();
        all.drain(..all.len().saturating_sub(32));
        all
    }

    /// "reading .. one that is dropped or not yet made is 18"
    pub fn read(&self, revision: u64) -> Answer<Settings> {
        if !self.kept().contains(&revision) {
            return Err(18);
        }
        Ok(self.0[revision as usize])
    }

    /// "16 for a stale revision, 17 past revision 65,535"
    fn add(&mut self, from: u64, settings: Settings) -> Answer<()> {
        if from != self.newest() {
            return Err(16);
        }
        if self.newest() + 1 > 65_535 {
            return Err(17);
        }
        self.0.push(settings);
        Ok(())
    }

    /// "A refused change leaves the history the same."
    pub fn call(&mut self, call: Call) -> Answer<()> {
        match call {
            Call::Change(from, settings) => {
                contents(settings)?;
                self.add(from, settings)
            }
            // "18, judged before 16"; "a new revision with old contents"
            Call::Back(from, wanted) => {
                let old = self.read(wanted)?;
                self.add(from, old)
            }
        }
    }

    /// A line for each kept revision, the newest last.
    pub fn list(&self) -> String {
        let line = |&revision: &u64| format!("{revision} {}\n", words(self.0[revision as usize]));
        self.kept().iter().map(line).collect()
    }
}

/// Settings as words.
pub fn words(settings: Settings) -> String {
    settings.map(|number| number.to_string()).join(" ")
}

// ---- a history as bytes (docs/DECISIONS.md, W-209)

/// A number high byte first.
fn number(out: &mut Vec<u8>, width: usize, number: u64) {
    out.extend(&number.to_be_bytes()[8 - width..]);
}

/// `JGS`, the version 1 in two bytes, the newest revision in two, and for the places 0 to 31 what was
/// accepted under the kept revision with that remainder, or zeros.
pub fn encoded(log: &Log) -> Vec<u8> {
    let mut out = b"JGS\x00\x01".to_vec();
    number(&mut out, 2, log.newest());
    for place in 0..32 {
        let revision = log.kept().into_iter().find(|kept| kept % 32 == place);
        let settings = revision.map_or([0; 4], |revision| log.0[revision as usize]);
        for (width, part) in [1, 1, 1, 5].into_iter().zip(settings) {
            number(&mut out, width, part);
        }
    }
    out
}

/// The fields behind the newest revision: how many bytes, and the greatest number. A place that no
/// revision has reached holds zeros.
fn fields(newest: u64) -> Vec<(usize, u64)> {
    let of_place = |place: u64| {
        let most = [3, 3, 15, 10_000_000_000].map(|most| if place <= newest { most } else { 0 });
        [1, 1, 1, 5].into_iter().zip(most)
    };
    (0..32).flat_map(of_place).collect()
}

/// Whether some history's encoding begins with these bytes.
pub fn begins(bytes: &[u8]) -> bool {
    let heading = b"JGS\x00\x01";
    if bytes.len() <= 7 {
        return bytes.iter().zip(heading).all(|(a, b)| a == b);
    }
    if !bytes.starts_with(heading) {
        return false;
    }
    let mut rest = &bytes[7..];
    for (width, most) in fields(u64::from(bytes[5]) * 256 + u64::from(bytes[6])) {
        if rest.is_empty() {
            return true;
        }
        // the least number that goes on so
        let mut least = 0;
        for at in 0..width {
            least = least * 256 + rest.get(at).map_or(0, |&byte| u64::from(byte));
        }
        if least > most {
            return false;
        }
        rest = &rest[width.min(rest.len())..];
    }
    rest.is_empty()
}

/// 9 with the place, unless the bytes are an encoding: "the longest leading part that" some encoding
/// "begins with".
pub fn checked(bytes: &[u8]) -> Result<(), u64> {
    if bytes.len() == 263 && begins(bytes) {
        return Ok(());
    }
    let longest = (0..=bytes.len())
        .rev()
        .find(|&length| begins(&bytes[..length]));
    Err(longest.expect("every encoding begins with nothing") as u64)
}
