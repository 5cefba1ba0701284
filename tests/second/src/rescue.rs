//! Document 02's W-206, the rescue of hand-edited texts: "accept this looser body (same letters, digits and bracket
//! nesting, depth 15, no list for a digit that deep, no order or uniqueness asked) and give the proper text of the
//! same ground, with a list of what was changed, by place in the whole text, from 0, and then kind".
//!
//! The looser grammar is read by going down, rule by rule. The place of a bad text is found by its definition: a
//! leading part counts where it can be completed to a text of that grammar. The proper text is that of the fewest
//! cells of the ground. Each kind is looked for by itself, all letters and digits at hand; `plain_changes` does it by
//! the paper's words with no more than comparing, for the tests.

use crate::coverage::{
    fewest, ground_of, name_of_span, span_of_name, text_of, Refused, TextAnswer,
};
use crate::coverage::{FIRST, HEADING, LONGEST, RULES};
use crate::grid::{Name, LETTERS};
use std::collections::{HashMap, HashSet};

/// What was changed: where in the whole text, from 0, and its kind, from 1 to 4.
pub type Change = (u64, u64);

/// A letter or digit of the hand-edited text.
#[derive(Clone, Debug, PartialEq, Eq)]
pub struct Mark {
    pub place: u64,
    /// "The cell whose name is the face letter, then the digits whose lists it stands in, outermost first, then
    /// itself."
    pub name: Name,
    /// It has no list, not even an empty one.
    pub whole: bool,
    /// "The one right before it in the same list or body."
    pub before: Option<u8>,
}

/// A hand-edited text made proper.
#[derive(Clone, Debug, PartialEq, Eq)]
pub struct Rescued {
    pub text: Vec<u8>,
    pub changes: Vec<Change>,
}

// ---------------------------------------------------------------- the looser grammar

/// Any number of faces, or of nodes where `digits` stand around them; what is left behind the last. A list may be
/// empty, and its marks stand in any order.
fn marks(mut bytes: &[u8], digits: usize) -> Option<&[u8]> {
    let known: &[u8] = if digits == 0 { &LETTERS } else { b"012345678" };
    while let Some((mark, rest)) = bytes.split_first() {
        if !known.contains(mark) {
            break;
        }
        bytes = match rest.strip_prefix(b"(") {
            Some(inside) => list(inside, digits + 1)?,
            None => rest,
        };
    }
    Some(bytes)
}

/// The rest of a list behind its opening bracket, whose nodes are so many digits deep.
fn list(bytes: &[u8], digits: usize) -> Option<&[u8]> {
    if digits > RULES.deepest {
        return None;
    }
    marks(bytes, digits)?.strip_prefix(b")")
}

/// The heading is one of version 1: "rescue still takes 1 only".
fn heading_is_good(heading: &[u8]) -> bool {
    let good = |(at, byte): (usize, &u8)| match at {
        5 | 6 => b"0123".contains(byte),
        _ => *byte == HEADING[at],
    };
    heading.len() == HEADING.len() && heading.iter().enumerate().all(good)
}

/// Is this a text of the looser form, whatever its length?
pub fn accepts(text: &[u8]) -> bool {
    let (heading, body) = text.split_at(text.len().min(HEADING.len()));
    heading_is_good(heading) && marks(body, 0) == Some(&[])
}

/// Does some text of the looser form, whatever its length, begin with this part? If any does, so does the part with
/// the rest of a heading, or with its lists closed: whatever a list has so far, it may end.
pub fn begins_some(part: &[u8]) -> bool {
    if part.len() < HEADING.len() {
        return accepts(&[part, &HEADING[part.len()..]].concat());
    }
    let body = &part[HEADING.len()..];
    let count = |bracket: u8| body.iter().filter(|&&byte| byte == bracket).count();
    let closing = vec![b')'; count(b'(').saturating_sub(count(b')'))];
    accepts(&[part, &closing].concat())
}

/// "9 for bodies outside the looser form, its place read from that form": the length of the longest leading part that
/// some such text begins with. A leading part of such a part is one too, so halving the doubt finds the longest.
pub fn place(text: &[u8]) -> u64 {
    let (mut good, mut bad) = (0, text.len() + 1);
    while good + 1 < bad {
        let middle = good + (bad - good) / 2;
        match begins_some(&text[..middle]) {
            true => good = middle,
            false => bad = middle,
        }
    }
    good as u64
}

/// Refuses 13, 10, 9. "Five bytes or more, mark right, version not 1" is 10.
fn checked(text: &[u8]) -> TextAnswer<()> {
    if text.len() > LONGEST {
        return Err(13.into());
    }
    if text.len() >= 5 && text.starts_with(b"CVR") && text[3..5] != [0, 1] {
        return Err(10.into());
    }
    if accepts(text) {
        return Ok(());
    }
    Err(Refused {
        refusal: 9,
        place: place(text),
    })
}

/// The letters and digits of a text of the looser form, in the order they stand.
pub fn marks_of(text: &[u8]) -> Vec<Mark> {
    let mut all = Vec::new();
    let mut around = Name::new();
    let mut lasts = vec![None]; // of the body, and of each open list
    for (place, &byte) in text.iter().enumerate().skip(HEADING.len()) {
        match byte {
            b'(' => lasts.push(None),
            b')' => {
                lasts.pop();
                around.pop();
            }
            _ => {
                let last = lasts.last_mut().expect("the body stays open");
                let whole = text.get(place + 1) != Some(&b'(');
                let name = [&around[..], &[byte]].concat();
                all.push(Mark {
                    place: place as u64,
                    name,
                    whole,
                    before: last.replace(byte),
                });
                if !whole {
                    around.push(byte);
                }
            }
        }
    }
    all
}

// ---------------------------------------------------------------- the proper text and what was changed

/// The names of the fewest cells of the ground, "an empty list covers nothing".
fn proper_cells(marks: &[Mark]) -> Vec<Name> {
    let whole = marks.iter().filter(|mark| mark.whole);
    let ground = ground_of(whole.map(|mark| span_of_name(&mark.name)).collect());
    fewest(&ground).iter().map(name_of_span).collect()
}

/// "Kind 1 is a letter or digit that names a whole cell named whole earlier, or one inside a larger whole cell named
/// anywhere."
fn ones(marks: &[Mark]) -> Vec<Change> {
    let whole = || marks.iter().filter(|mark| mark.whole);
    let named: HashSet<&[u8]> = whole().map(|mark| &mark.name[..]).collect();
    let mut earlier: HashSet<&[u8]> = HashSet::new();
    let mut changes = Vec::new();
    for mark in whole() {
        let larger = (1..mark.name.len()).any(|end| named.contains(&mark.name[..end]));
        if !earlier.insert(&mark.name) || larger {
            changes.push((mark.place, 1));
        }
    }
    changes
}

/// "Kind 2 is a letter or digit not above the one right before it in the same list or body."
fn twos(marks: &[Mark]) -> Vec<Change> {
    let not_above = |mark: &&Mark| {
        mark.before
            .is_some_and(|before| *mark.name.last().expect("a name") <= before)
    };
    let two = |mark: &Mark| (mark.place, 2);
    marks.iter().filter(not_above).map(two).collect()
}

/// "Kind 3 is the opening bracket of an empty list."
fn threes(text: &[u8]) -> Vec<Change> {
    let empty = |place: &usize| text[*place..].starts_with(b"()");
    let body = HEADING.len()..text.len();
    body.filter(empty).map(|place| (place as u64, 3)).collect()
}

/// "Kind 4 is, for each cell whole in the answer and nowhere named whole, the first letter or digit standing for it."
fn fours(marks: &[Mark], proper: &[Name]) -> Vec<Change> {
    let whole = marks.iter().filter(|mark| mark.whole);
    let named: HashSet<&[u8]> = whole.map(|mark| &mark.name[..]).collect();
    let mut first: HashMap<&[u8], u64> = HashMap::new();
    for mark in marks {
        first.entry(&mark.name).or_insert(mark.place);
    }
    let unnamed = proper.iter().filter(|name| !named.contains(&name[..]));
    unnamed.map(|name| (first[&name[..]], 4)).collect()
}

/// The proper text and the changes of a text of the looser form.
pub fn rescue_of(text: &[u8]) -> Rescued {
    let marks = marks_of(text);
    let proper = proper_cells(&marks);
    let kinds = [
        ones(&marks),
        twos(&marks),
        threes(text),
        fours(&marks, &proper),
    ];
    let mut changes = kinds.concat();
    changes.sort();
    let (n, s) = (u64::from(text[5] - b'0'), u64::from(text[6] - b'0'));
    Rescued {
        text: text_of(FIRST, n, s, &proper),
        changes,
    }
}

/// The changes once more, mark by mark with all the others; slow.
pub fn plain_changes(text: &[u8]) -> Vec<Change> {
    let marks = marks_of(text);
    let proper = proper_cells(&marks);
    let mut changes = Vec::new();
    for (place, byte) in text.iter().enumerate().skip(HEADING.len()) {
        let place = place as u64;
        let Some(mark) = marks.iter().find(|mark| mark.place == place) else {
            if *byte == b'(' && text.get(place as usize + 1) == Some(&b')') {
                changes.push((place, 3));
            }
            continue;
        };
        let stands_for = |other: &&Mark| other.name == mark.name;
        let named_earlier =
            |other: &Mark| other.whole && other.name == mark.name && other.place < place;
        let larger = |other: &Mark| {
            other.whole && mark.name.starts_with(&other.name) && other.name.len() < mark.name.len()
        };
        if mark.whole
            && marks
                .iter()
                .any(|other| named_earlier(other) || larger(other))
        {
            changes.push((place, 1));
        }
        if mark.before >= mark.name.last().copied() {
            changes.push((place, 2));
        }
        let nowhere_named = !marks.iter().filter(stands_for).any(|other| other.whole);
        let first = marks.iter().find(stands_for) == Some(mark);
        if proper.contains(&mark.name) && nowhere_named && first {
            changes.push((place, 4));
        }
    }
    changes
}

// ---------------------------------------------------------------- the entry and the program

/// The changes as the entry lends them: "as pairs of numbers, place and kind; its room is counted in numbers".
pub fn numbers_of(changes: &[Change]) -> Vec<u64> {
    changes
        .iter()
        .flat_map(|&(place, kind)| [place, kind])
        .collect()
}

/// The proper text and the changes, each to the front of lent memory: the length of the one and the number of the
/// others. Refuses 13, 10, 9, "8 for text or list".
pub fn rescue(text: &[u8], proper: &mut [u8], changes: &mut [u64]) -> TextAnswer<(u64, u64)> {
    checked(text)?;
    let rescued = rescue_of(text);
    let numbers = numbers_of(&rescued.changes);
    if proper.len() < rescued.text.len() || changes.len() < numbers.len() {
        return Err(8.into());
    }
    proper[..rescued.text.len()].copy_from_slice(&rescued.text);
    changes[..numbers.len()].copy_from_slice(&numbers);
    Ok((rescued.text.len() as u64, rescued.changes.len() as u64))
}

/// What `coverage rescue FILE` says of each kind on standard error.
pub const WORDS: [&str; 4] = [
    "named already, or inside a whole cell",
    "not above the one right before it",
    "an empty list",
    "whole by its parts",
];

/// Its lines, one a change.
pub fn said(changes: &[Change]) -> String {
    let line = |&(place, kind): &Change| format!("{place} {kind}: {}\n", WORDS[kind as usize - 1]);
    changes.iter().map(line).collect()
}
