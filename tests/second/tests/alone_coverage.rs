//! The second program's coverage texts by itself: facts that 01 and 02 state, tried without a
//! proved library. Every short text of either version, at small depths, is set against the texts
//! that the grammar derives.

use second::compare::say;
use second::coverage::*;
use second::grid::{arrangements, cell_of, code_of, finest_cells, Name, LETTERS};
use second::random::{Kind, Random};
use second::texts::codes_of;
use std::collections::{BTreeMap, BTreeSet, HashMap, HashSet};

// ---------------------------------------------------------------- derivations

/// What is still to be derived.
#[derive(Clone)]
enum Left {
    Byte(u8),
    /// Faces from this letter on.
    Faces(u8),
    /// The rest of the list of a cell: from which digit on, the nodes so far, the whole ones.
    Nodes(Name, u8, u8, u8),
}

/// A derivation under way: the bytes and the whole cells so far, and what is left, next one last.
#[derive(Clone, Default)]
struct Form {
    bytes: Vec<u8>,
    cells: Vec<Name>,
    left: Vec<Left>,
}

impl Form {
    /// The form with some byte more, and with this left in front of the rest.
    fn with(&self, byte: Option<u8>, cell: Option<Name>, left: &[Left]) -> Form {
        let mut form = self.clone();
        form.bytes.extend(byte);
        form.cells.extend(cell);
        form.left.extend(left.iter().rev().cloned());
        form
    }

    fn least_length(&self) -> usize {
        let least = |left: &Left| match left {
            Left::Byte(_) | Left::Nodes(_, _, 0, _) => 1,
            _ => 0,
        };
        self.bytes.len() + self.left.iter().map(least).sum::<usize>()
    }

    /// The forms that one step makes, by the sentences of 01's grammar, and of 02's for version 2.
    fn steps(mut self, rules: Rules, profile: Profile) -> Vec<Form> {
        let mut steps = Vec::new();
        let mut marked = |form: &Form, name: Name, after: Left, whole: Left, depth: usize| {
            // "a digit (whole), or a digit and a bracketed list"; so are letters
            let mark = name.last().copied();
            steps.push(form.with(mark, Some(name.clone()), &[whole]));
            // "N and S may appear only whole, and nothing lies deeper than that depth"
            let only_whole = profile.version == 2 && [&b"N"[..], b"S"].contains(&&name[..]);
            if depth < profile.depth as usize && !only_whole {
                let nodes = Left::Nodes(name, 0, 0, 0);
                let list = [Left::Byte(b'('), nodes, Left::Byte(b')'), after];
                steps.push(form.with(mark, None, &list));
            }
        };
        match self.left.pop() {
            None => (),
            Some(Left::Byte(byte)) => steps.push(self.with(Some(byte), None, &[])),
            Some(Left::Faces(from)) => {
                for letter in from..=b'S' {
                    let next = Left::Faces(letter + 1);
                    marked(&self, vec![letter], next.clone(), next, 0);
                }
                steps.push(self.with(None, None, &[]));
            }
            Some(Left::Nodes(of, from, nodes, whole)) => {
                for digit in from..rules.digits {
                    let name = [&of[..], &[b'0' + digit]].concat();
                    let rest = |whole| Left::Nodes(of.clone(), digit + 1, nodes + 1, whole);
                    marked(&self, name, rest(whole), rest(whole + 1), of.len());
                }
                // "one or more nodes", "never consists of nine whole nodes"
                if nodes > 0 && whole != rules.digits {
                    steps.push(self.with(None, None, &[]));
                }
            }
        }
        steps
    }
}

/// All bodies up to a length that begin like this and go on with bytes of an alphabet, each with
/// its whole cells, by deriving them in every way.
fn derived(
    rules: Rules,
    profile: Profile,
    beginning: &[u8],
    alphabet: &[u8],
    length: usize,
) -> Vec<(Vec<u8>, Vec<Name>)> {
    let mut all = Vec::new();
    let mut under_way = vec![Form::default().with(None, None, &[Left::Faces(b'N')])];
    while let Some(form) = under_way.pop() {
        if form.left.is_empty() {
            if form.bytes.len() >= beginning.len() {
                all.push((form.bytes, form.cells));
            }
            continue;
        }
        under_way.extend(form.steps(rules, profile).into_iter().filter(|form| {
            let last = form.bytes.len().wrapping_sub(1);
            let fits = match (form.bytes.get(last), beginning.get(last)) {
                (None, _) => true,
                (Some(byte), Some(wanted)) => byte == wanted,
                (Some(byte), None) => alphabet.contains(byte),
            };
            fits && form.least_length() <= length
        }));
    }
    all
}

/// A text of version 1.
fn text(body: &[u8]) -> Vec<u8> {
    [HEADING, body].concat()
}

/// A text of a profile.
fn text_in(profile: Profile, body: &[u8]) -> Vec<u8> {
    [&heading(profile, 0, 0)[..], body].concat()
}

/// Version 1, and version 2 with each depth up to the deepest.
fn profiles(rules: Rules) -> Vec<Profile> {
    let deepest = rules.deepest as u64;
    let first = Profile {
        depth: deepest,
        ..FIRST
    };
    [first]
        .into_iter()
        .chain((0..=deepest).map(handheld))
        .collect()
}

/// Calls with every string over an alphabet up to a length.
fn every_string(alphabet: &[u8], length: usize, mut call: impl FnMut(&[u8])) {
    for length in 0..=length {
        let mut digits = vec![0; length];
        let mut string = vec![alphabet[0]; length];
        loop {
            call(&string);
            let Some(at) = digits.iter().rposition(|&d| d + 1 < alphabet.len()) else {
                break;
            };
            digits[at] += 1;
            digits[at + 1..].fill(0);
            for at in at..length {
                string[at] = alphabet[digits[at]];
            }
        }
    }
}

/// Accepted are exactly the derived ones, among all strings up to a length after a beginning.
fn accepted_are_derived(
    rules: Rules,
    profile: Profile,
    beginning: &[u8],
    alphabet: &[u8],
    length: usize,
) -> [u64; 2] {
    let longest = beginning.len() + length;
    let derived = derived(rules, profile, beginning, alphabet, longest);
    let set: HashSet<&[u8]> = derived.iter().map(|(body, _)| &body[..]).collect();
    assert_eq!(set.len(), derived.len(), "each text has one reading");
    let (mut all, mut accepted) = (0, 0);
    let mut tried = text_in(profile, beginning);
    let start = tried.len();
    let body = start - beginning.len();
    every_string(alphabet, length, |string| {
        tried.truncate(start);
        tried.extend_from_slice(string);
        all += 1;
        if accepts(rules, &tried) {
            accepted += 1;
            assert!(set.contains(&tried[body..]), "{}", tried.escape_ascii());
        }
    });
    assert_eq!(accepted, set.len() as u64);
    [all, accepted]
}

/// The place is that of the longest leading part of any derived text, among all strings up to a
/// length after a beginning that is a leading part itself.
fn places_are_derived(
    rules: Rules,
    profile: Profile,
    beginning: &[u8],
    alphabet: &[u8],
    length: usize,
    longest: usize,
) -> u64 {
    let mut parts = HashSet::new();
    for (body, _) in derived(rules, profile, beginning, alphabet, longest) {
        parts.extend((beginning.len()..=body.len()).map(|end| body[..end].to_vec()));
    }
    assert!(parts.contains(beginning));
    let mut all = 0;
    let heading = heading(profile, 0, 0);
    every_string(alphabet, length, |string| {
        let body = [beginning, string].concat();
        let ends = (beginning.len()..=body.len()).rev();
        let longest = ends.into_iter().find(|&end| parts.contains(&body[..end]));
        let wanted = (heading.len() + longest.unwrap()) as u64;
        let text = [&heading[..], &body].concat();
        assert_eq!(place(rules, &text), wanted, "{}", text.escape_ascii());
        all += 1;
    });
    all
}

#[test]
fn short_texts() {
    let counts = accepted_are_derived(RULES, FIRST, b"", b"NOS018()", 8);
    say(&format!("short texts (all, accepted): {counts:?}"));
    // all marks of the grammar and some others
    let all_marks = b"NOPQRS012345678()9MT\xCE";
    let counts = accepted_are_derived(RULES, FIRST, b"", all_marks, 4);
    say(&format!("short texts of all marks: {counts:?}"));
    for depth in 0..=3 {
        let counts = accepted_are_derived(RULES, handheld(depth), b"", b"NOS018()", 7);
        say(&format!(
            "short texts for handhelds, depth {depth}: {counts:?}"
        ));
        accepted_are_derived(RULES, handheld(depth), b"", all_marks, 4);
    }
}

#[test]
fn places_of_short_texts() {
    let all_marks = b"NOPQRS012345678()9MT\xCE";
    let count = places_are_derived(RULES, FIRST, b"", b"NOS018()", 6, 10);
    say(&format!("places of short texts: {count}"));
    places_are_derived(RULES, FIRST, b"", all_marks, 3, 5);
    for depth in 0..=3 {
        let count = places_are_derived(RULES, handheld(depth), b"", b"NOS018()", 6, 10);
        say(&format!("places for handhelds, depth {depth}: {count}"));
        places_are_derived(RULES, handheld(depth), b"", all_marks, 3, 5);
    }
}

/// A smaller grammar, where all rules meet in a few bytes: two digits, two deep, and "a list
/// never consists of two whole nodes". It has finitely many texts, of either version.
#[test]
fn texts_of_a_smaller_grammar() {
    for (digits, deepest, alphabet) in [
        (2, 2, b"NS01()"),
        (2, 2, b"OS01()"),
        (2, 1, b"OQ01()"),
        (3, 1, b"N012()"),
    ] {
        let rules = Rules { digits, deepest };
        for profile in profiles(rules) {
            let counts = accepted_are_derived(rules, profile, b"", alphabet, 8);
            let places = places_are_derived(rules, profile, b"", alphabet, 7, usize::MAX);
            say(&format!(
                "{rules:?} {profile:?}: {counts:?}, places {places}"
            ));
        }
    }
}

// ---------------------------------------------------------------- headings

/// Every text of either version, at every depth, with up to three bytes of body, and the leading
/// parts of them and of longer ones with up to two, by the words: "the mark `CVR`, the 16-bit
/// version", "n and s as ASCII digits", "one more heading byte after s, a letter a to p".
fn short_texts_and_parts() -> [HashSet<Vec<u8>>; 2] {
    let [mut texts, mut parts] = [HashSet::new(), HashSet::new()];
    for profile in profiles(RULES) {
        let letter = match profile.version {
            1 => vec![],
            _ => vec![b"abcdefghijklmnop"[profile.depth as usize]],
        };
        let bodies = derived(RULES, profile, b"", b"NOPQRS012345678()", 4);
        for (n, s) in arrangements() {
            let digits = [b"0123"[n as usize], b"0123"[s as usize]];
            let version = [0, profile.version as u8];
            let heading = [b"CVR", &version[..], &digits, &letter].concat();
            parts.extend((0..heading.len()).map(|end| heading[..end].to_vec()));
            for (body, _) in &bodies {
                let text = [&heading[..], body].concat();
                let ends = heading.len()..=text.len().min(heading.len() + 2);
                parts.extend(ends.map(|end| text[..end].to_vec()));
                texts.insert(text);
            }
        }
    }
    [texts, parts]
}

/// Headings of both versions and every depth with any byte in each place, alone and with a body of
/// up to two bytes behind, cut at every length: accepted exactly where they are one of the texts,
/// refused with 10 exactly where five bytes are there and the version is neither 1 nor 2, and
/// else with 9 at the longest leading part.
#[test]
fn damaged_headings() {
    let [texts, parts] = short_texts_and_parts();
    let mut counts = BTreeMap::new();
    let bodies: [&[u8]; 7] = [b"", b"O", b"N(", b"O(", b"NS", b"aO", b"p"];
    for profile in profiles(RULES) {
        for ((n, s), body) in [(0, 0), (3, 1)]
            .into_iter()
            .flat_map(|a| bodies.map(|b| (a, b)))
        {
            let good = [&heading(profile, n, s)[..], body].concat();
            for (end, at) in (1..=good.len()).flat_map(|end| (0..end).map(move |at| (end, at))) {
                for byte in 0..=255 {
                    let mut tried = good[..end].to_vec();
                    tried[at] = byte;
                    let longest = (0..=end).rev().find(|&end| parts.contains(&tried[..end]));
                    let other = ![[0, 1], [0, 2]].contains(&[
                        tried.get(3).copied().unwrap_or(0),
                        tried.get(4).copied().unwrap_or(1),
                    ]);
                    let wanted = match () {
                        _ if texts.contains(&tried) => None,
                        _ if end >= 5 && tried.starts_with(b"CVR") && other => Some(10.into()),
                        _ => Some(at_place(longest)),
                    };
                    assert_eq!(check(&tried).err(), wanted, "{}", tried.escape_ascii());
                    *counts.entry(wanted.map_or(0, |no| no.refusal)).or_insert(0) += 1;
                }
            }
        }
    }
    say(&format!("damaged headings, by refusal: {counts:?}"));
    assert!(counts[&0] > 10_000 && counts[&9] > 500_000 && counts[&10] > 100_000);
}

fn at_place(longest: Option<usize>) -> Refused {
    at(longest.expect("no bytes are a leading part") as u64)
}

/// Accepted are exactly the derived ones, among short strings after a chain of lists, with about
/// as many closing brackets behind as the chain needs.
fn tails_are_derived(profile: Profile, beginning: &[u8], depth: usize) -> [u64; 2] {
    let (alphabet, length) = (b"08()S", 4);
    let longest = beginning.len() + length + depth + 1;
    let derived = derived(RULES, profile, beginning, alphabet, longest);
    let set: HashSet<&[u8]> = derived.iter().map(|(body, _)| &body[..]).collect();
    let (mut all, mut accepted) = (0, 0);
    every_string(alphabet, length, |string| {
        for closing in depth.saturating_sub(2)..=depth + 1 {
            let body = [beginning, string, &vec![b')'; closing]].concat();
            let wanted = set.contains(&body[..]);
            let text = text_in(profile, &body);
            assert_eq!(accepts(RULES, &text), wanted, "{}", text.escape_ascii());
            all += 1;
            accepted += u64::from(wanted);
        }
    });
    [all, accepted]
}

/// After eight whole nodes, and near the deepest: of version 1, and of version 2 at any depth.
#[test]
fn tails() {
    for depth in [0, 1, 2, 13, 14, 15] {
        tails_at(FIRST, depth);
    }
    for deepest in 0..=15 {
        let least = if deepest > 3 { deepest - 1 } else { 0 };
        for depth in least..=deepest {
            tails_at(handheld(deepest), depth as usize);
        }
    }
}

fn tails_at(profile: Profile, depth: usize) {
    let chain = [&b"P"[..], &b"(3".repeat(depth)].concat();
    let counts = tails_are_derived(profile, &chain, depth);
    say(&format!(
        "{profile:?}: tails at depth {depth} (all, accepted): {counts:?}"
    ));
    // four bytes open two lists at most: `8(0(` and then `0))`
    let longest = chain.len() + depth + 4 + 3;
    places_are_derived(RULES, profile, &chain, b"08()S", 4, longest);
    if depth < profile.depth as usize {
        let eight = [&chain[..], b"(01234567"].concat();
        let counts = tails_are_derived(profile, &eight, depth + 1);
        say(&format!(
            "{profile:?}: tails after eight at depth {depth}: {counts:?}"
        ));
        let longest = eight.len() + depth + 1 + 4 + 3;
        places_are_derived(RULES, profile, &eight, b"08()S", 4, longest);
    }
}

// ---------------------------------------------------------------- readings and ground

/// The reading's cells, their number and sizes, and equal ground only for equal bytes.
#[test]
fn readings() {
    let mut all = derived(RULES, FIRST, b"", b"NOS018()", 9);
    all.extend(derived(RULES, FIRST, b"Q(01234567", b"08()", 17));
    let deep = [&b"R"[..], &b"(8".repeat(14)].concat();
    let deepest = derived(RULES, FIRST, &deep, b"012345678()", deep.len() + 14 + 11);
    assert_eq!(deepest.len(), 1 + (1 << 9) - 2);
    all.extend(deepest);
    readings_of(FIRST, &all);
    for depth in 0..=3 {
        let profile = handheld(depth);
        let mut all = derived(RULES, profile, b"", b"NOS018()", 9);
        if depth > 0 {
            all.extend(derived(RULES, profile, b"Q(01234567", b"08()", 17));
        }
        readings_of(profile, &all);
        // each is a text of version 1 and of every greater depth too, but for the heading
        for (body, cells) in &all {
            let codes = codes_of(0, 0, cells);
            for other in [FIRST, handheld(depth + 1), handheld(15)] {
                let text = text_in(other, body);
                assert!(accepts(RULES, &text));
                assert_eq!(written(other, 0, 0, &codes), Ok(text));
            }
        }
    }
}

fn readings_of(profile: Profile, all: &[(Vec<u8>, Vec<Name>)]) {
    let mut grounds: HashMap<Ground, Vec<u8>> = HashMap::new();
    for (body, cells) in all {
        let text = text_in(profile, body);
        assert_eq!(whole_cells(&text), *cells);
        let spans: Vec<Span> = cells.iter().map(span_of_name).collect();
        let size = spans.iter().map(|span| span.end - span.start).sum();
        let count = cells.len() as u64;
        let checked = Checked {
            profile,
            n: 0,
            s: 0,
            cells: count,
            size,
        };
        assert_eq!(check(&text), Ok(checked));
        let mut codes = vec![0; cells.len()];
        assert_eq!(list(&text, &mut codes), Ok(count));
        assert_eq!(codes, codes_of(0, 0, cells));
        let ground = ground_of_text(&text);
        assert_eq!(ground_size(&ground), size);
        if let Some(other) = grounds.insert(ground, text.clone()) {
            assert_eq!(text, other, "equal ground, other bytes");
        }
        assert_eq!(written(profile, 0, 0, &codes), Ok(text));
    }
    say(&format!("{profile:?}: readings: {}", all.len()));
}

/// The cells that are left when nine children are replaced by their parent as long as there are
/// nine, and what lies inside another is left out.
fn merged(names: &[Name]) -> Vec<Name> {
    let mut cells: BTreeSet<Name> = names.iter().cloned().collect();
    for length in (2..=16).rev() {
        let mut families: BTreeMap<Name, usize> = BTreeMap::new();
        for name in cells.iter().filter(|name| name.len() == length) {
            *families.entry(name[..length - 1].to_vec()).or_default() += 1;
        }
        cells.extend(families.into_iter().filter(|f| f.1 == 9).map(|f| f.0));
    }
    let inside = |name: &Name| (1..name.len()).any(|end| cells.contains(&name[..end]));
    cells.iter().filter(|name| !inside(name)).cloned().collect()
}

/// Cells of all sizes near each other, in any order, repeated and nested, often whole families.
fn any_cells(random: &mut Random) -> Vec<Name> {
    let mut names = Vec::new();
    for _ in 0..random.below(8) {
        let mut name = random.name(Kind::Border);
        if random.chance(2) {
            name.truncate(1 + random.below(name.len() as u64) as usize);
        }
        let children = |name: &Name| (b'0'..=b'8').map(|d| [&name[..], &[d]].concat()).collect();
        let mut family = vec![name];
        while family[0].len() < 16 && family.len() < 100 && random.chance(2) {
            let nth = random.below(family.len() as u64) as usize;
            let parts: Vec<Name> = children(&family[nth]);
            if parts[0].len() > 16 {
                break;
            }
            family.remove(nth);
            family.extend(parts);
            family.sort_by_key(|name| name.len());
        }
        if random.chance(3) {
            family.pop();
        }
        names.extend(family);
    }
    for nth in (1..names.len()).rev() {
        names.swap(nth, random.below(nth as u64 + 1) as usize);
    }
    names
}

/// "Every list of cells that covers exactly an accepted text's ground has at least as many cells
/// as the reader reports." None of a text's cells has its parent covered, so each of them is met
/// by another cell of any such list. And 15 is given exactly where the text of the fewest cells,
/// the only one of the ground, is not of the asked version and depth.
#[test]
fn the_fewest_cells() {
    let mut random = Random::for_test("the_fewest_cells");
    let (mut merges, mut outside) = (0, 0);
    for _ in 0..30_000 {
        let any = any_cells(&mut random);
        let ground = ground_of(any.iter().map(span_of_name).collect());
        let few: Vec<Name> = fewest(&ground).iter().map(name_of_span).collect();
        assert_eq!(few, merged(&any));
        let distinct: BTreeSet<&Name> = any.iter().collect();
        assert!(few.len() <= distinct.len());
        merges += u64::from(few.iter().any(|name| !distinct.contains(name)));
        for name in few.iter().filter(|name| name.len() > 1) {
            let parent = span_of_name(&name[..name.len() - 1].to_vec());
            assert!(!ground
                .iter()
                .any(|r| r.start <= parent.start && parent.end <= r.end));
        }
        let text = text_of(FIRST, 1, 2, &few);
        assert!(accepts(RULES, &text), "{}", text.escape_ascii());
        assert_eq!(whole_cells(&text), few);
        assert_eq!(ground_of_text(&text), ground);
        for depth in 0..=15 {
            let text = text_of(handheld(depth), 1, 2, &few);
            let wanted = match accepts(RULES, &text) {
                true => Ok(text),
                false => Err(15),
            };
            outside += u64::from(wanted.is_err());
            for list in [&few, &apart(&any)] {
                let codes = codes_of(1, 2, list);
                assert_eq!(written(handheld(depth), 1, 2, &codes), wanted);
            }
        }
    }
    say(&format!(
        "lists with a merge: {merges} of 30000; outside a profile: {outside} of 480000"
    ));
    assert!(merges > 3000 && (100_000..400_000).contains(&outside));
}

/// The cells without those inside another, rising: the same ground.
fn apart(names: &[Name]) -> Vec<Name> {
    let all: BTreeSet<&Name> = names.iter().collect();
    let inside = |name: &Name| (1..name.len()).any(|end| all.contains(&name[..end].to_vec()));
    let apart = all.iter().filter(|name| !inside(name));
    apart.map(|&name| name.clone()).collect()
}

/// Asking, without what settles it.
fn covered(text: &[u8], code: u64) -> TextAnswer<bool> {
    ask(text, code).map(|asked| asked.covered)
}

/// Writing what was listed gives the same bytes, and asking finds exactly what lies inside a
/// whole cell. In another arrangement both are refused with 14.
#[test]
fn written_again_and_asked() {
    let mut random = Random::for_test("written_again_and_asked");
    let (mut yes, mut no) = (0, 0);
    for nth in 0..20_000 {
        let text = match nth % 2000 {
            0 => {
                let profile = random.long_profile();
                random.text_of_length(profile, LONGEST)
            }
            _ => random.text(Kind::Random),
        };
        let profile = profile_of_text(&text);
        let (n, s) = arrangement_of_text(&text);
        let cells = whole_cells(&text);
        let mut codes = vec![0; cells.len()];
        assert_eq!(list(&text, &mut codes), Ok(cells.len() as u64));
        assert!(codes.windows(2).all(|pair| pair[0] < pair[1]));
        let mut lent = vec![0xEE; text.len()];
        let length = text.len() as u64;
        assert_eq!(write(profile, n, s, &codes, &mut lent), Ok(length));
        assert_eq!(lent, text);
        if !codes.is_empty() {
            assert_eq!(written(profile, n, (s + 1) % 4, &codes), Err(14));
            assert_eq!(written(profile, (n + 3) % 4, s, &codes), Err(14));
        }
        for _ in 0..4 {
            let asked = cell_of(random.asked_code(Kind::Random, &text)).unwrap();
            let inside = cells.iter().any(|cell| asked.name.starts_with(cell));
            for (of_n, of_s) in [(n, s), ((n + 1) % 4, s), (n, (s + 3) % 4)] {
                let wanted = match (of_n, of_s) == (n, s) {
                    true => Ok(inside),
                    false => Err(14.into()),
                };
                assert_eq!(covered(&text, code_of(of_n, of_s, &asked.name)), wanted);
            }
            *(if inside { &mut yes } else { &mut no }) += 1;
        }
    }
    say(&format!("asked: covered {yes}, not {no}"));
    assert!(yes > 10_000 && no > 10_000);
}

/// A text of each arrangement asked with codes of each, and lists of codes of two: 14 exactly
/// where they differ.
#[test]
fn two_arrangements() {
    for (n, s) in arrangements() {
        let body = text_of(FIRST, n, s, &[b"P3".to_vec(), b"P41".to_vec()]);
        for (of_n, of_s) in arrangements() {
            let same = (of_n, of_s) == (n, s);
            let [first, second] = [b"P3".to_vec(), b"P41".to_vec()];
            let mixed = [code_of(n, s, &first), code_of(of_n, of_s, &second)];
            let wanted = if same { Ok(body.clone()) } else { Err(14) };
            assert_eq!(written(FIRST, n, s, &mixed), wanted);
            let falling = [mixed[1], mixed[0]];
            let wanted = if same { 11 } else { 14 };
            assert_eq!(written(FIRST, n, s, &falling), Err(wanted));
            let bad = [mixed[1], mixed[0], u64::MAX];
            assert_eq!(written(FIRST, n, s, &bad), Err(4));
            let wanted = if same { Ok(true) } else { Err(14.into()) };
            assert_eq!(covered(&body, code_of(of_n, of_s, b"P418")), wanted);
        }
    }
}

/// W-213: "those naming cells, whole or not, whose codes are not above the asked one's, plus one if
/// a later one exists".
#[test]
fn settled_by_hand() {
    let settled = |body: &[u8], name: &[u8]| {
        let asked = ask(&text(body), code_of(0, 0, name)).unwrap();
        (asked.covered, asked.settled)
    };
    // P, P3, P4 and P41 stand in this order
    let body = b"P(34(1))";
    assert_eq!(settled(body, b"N"), (false, 1));
    assert_eq!(settled(body, b"O8"), (false, 1));
    assert_eq!(settled(body, b"P"), (false, 2));
    assert_eq!(settled(body, b"P2"), (false, 2));
    assert_eq!(settled(body, b"P3"), (true, 3));
    assert_eq!(settled(body, b"P38"), (true, 3));
    assert_eq!(settled(body, b"P4"), (false, 4));
    assert_eq!(settled(body, b"P40"), (false, 4));
    assert_eq!(settled(body, b"P41"), (true, 4));
    assert_eq!(settled(body, b"S888"), (false, 4));
    // none, and none later
    assert_eq!(settled(b"", b"O"), (false, 0));
    assert_eq!(settled(b"O", b"O"), (true, 1));
    assert_eq!(settled(b"O(0)", b"O"), (false, 2));
    let handheld = text_in(handheld(2), b"NP(34(1))");
    let asked = ask(&handheld, code_of(0, 0, b"P4")).unwrap();
    assert_eq!((asked.covered, asked.settled), (false, 5));
}

/// The bytes of a body through so many letters and digits.
fn through(body: &[u8], count: u64) -> &[u8] {
    let marks = (0..body.len()).filter(|&at| ![b'(', b')'].contains(&body[at]));
    let last = marks.take(count as usize).last();
    &body[..last.map_or(0, |at| at + 1)]
}

/// W-213: "another accepted text with the same heading, the same bytes through the last one counted
/// and the same report gives the same answer", over all texts up to a length. With none more for
/// a later one that would not hold: O whole and O with a list are an example.
#[test]
fn settled_is_settled() {
    let mut names: Vec<Name> = LETTERS.iter().map(|&letter| vec![letter]).collect();
    for at in 0..6 + 6 * 3 {
        let child = |&digit: &u8| [&names[at][..], &[digit]].concat();
        names.extend(b"018".iter().map(child).collect::<Vec<Name>>());
    }
    let profiles = [FIRST, handheld(1), handheld(2)];
    for profile in profiles {
        let bodies = derived(RULES, profile, b"", b"NOPS018()", 10);
        let (mut pairs, mut without) = (0, 0);
        for name in &names {
            let code = code_of(0, 0, name);
            let mut answers: HashMap<(u64, &[u8]), bool> = HashMap::new();
            let mut fewer: HashMap<(u64, &[u8]), bool> = HashMap::new();
            for (body, _) in &bodies {
                let text = text_in(profile, body);
                let asked = ask(&text, code).unwrap();
                let key = (asked.settled, through(body, asked.settled));
                match answers.insert(key, asked.covered) {
                    Some(before) => {
                        assert_eq!(before, asked.covered, "{}", body.escape_ascii());
                        pairs += 1;
                    }
                    None => (),
                }
                let not_above = |of: &&u64| **of <= code;
                let count = named_codes(&text).iter().filter(not_above).count() as u64;
                let before = fewer.insert((count, through(body, count)), asked.covered);
                without += u64::from(before.is_some_and(|before| before != asked.covered));
            }
        }
        say(&format!(
            "settled, {profile:?}: {} texts, {} questions, {pairs} that agree with another \
             ({without} would not with none more for a later one)",
            bodies.len(),
            bodies.len() * names.len(),
        ));
        assert!(pairs > 1000 && without > 0);
    }
}

/// Which letters and digits name which cells, from the derivations: in the order they stand the
/// names rise, and the whole cells are those that no other name goes on from.
#[test]
fn named_cells_rise() {
    for profile in [FIRST, handheld(2)] {
        for (body, cells) in derived(RULES, profile, b"", b"NOS018()", 9) {
            let text = text_in(profile, &body);
            let named = named_cells(&text);
            let marks = body.iter().filter(|byte| !b"()".contains(byte));
            let last = |name: &Name| *name.last().unwrap();
            assert!(marks.copied().eq(named.iter().map(last)));
            assert!(named.windows(2).all(|pair| pair[0] < pair[1]));
            let goes_on = |name: &Name| {
                named
                    .iter()
                    .any(|other| other.len() > name.len() && other.starts_with(name))
            };
            let whole: Vec<Name> = named
                .iter()
                .filter(|name| !goes_on(name))
                .cloned()
                .collect();
            assert_eq!(whole, cells);
        }
    }
}

#[test]
fn spans_are_those_of_the_grid() {
    let mut random = Random::for_test("spans_are_those_of_the_grid");
    for _ in 0..100_000 {
        let code = random.code(Kind::Bad);
        let span = span_of(code);
        let name = cell_of(code).map(|cell| cell.name);
        assert_eq!(span.as_ref().map(name_of_span), name);
        if let (Some(span), Some(name)) = (span, name) {
            assert_eq!(span.end - span.start, finest_cells(name.len() as u64 - 1));
            assert_eq!(span.start, code / 256);
            assert_eq!(span_of_name(&name), span);
        }
    }
}

// ---------------------------------------------------------------- printed

fn codes(names: &[&str]) -> Vec<u64> {
    let code = |name: &&str| code_of(0, 0, name.as_bytes());
    names.iter().map(code).collect()
}

fn at(place: u64) -> Refused {
    Refused { refusal: 9, place }
}

/// "Given whole."
#[test]
fn given_whole() {
    let cells = codes(&["O", "P0", "P1", "P2", "P3", "P4", "P5", "P6", "P7", "P8"]);
    let nine = [0x43, 0x56, 0x52, 0x00, 0x01, 0x30, 0x30, 0x4F, 0x50];
    assert_eq!(written(FIRST, 0, 0, &cells), Ok(nine.to_vec()));
    let cells = codes(&["P3", "P41"]);
    let fifteen = text(b"P(34(1))");
    assert_eq!(
        (written(FIRST, 0, 0, &cells), fifteen.len()),
        (Ok(fifteen.clone()), 15)
    );
    let size = 25_418_658_283_290;
    let checked = Checked {
        profile: FIRST,
        n: 0,
        s: 0,
        cells: 2,
        size,
    };
    assert_eq!(check(&fifteen), Ok(checked));
    assert_eq!(written(FIRST, 3, 1, &[]), Ok(b"CVR\0\x0131".to_vec()));
    let faces = codes(&["N", "O", "P", "Q", "R", "S"]);
    assert_eq!(written(FIRST, 0, 0, &faces), Ok(text(&LETTERS)));
}

/// Lines 10 and 11 of the proved table, the errors a builder will be drawn to, and headings.
#[test]
fn places() {
    assert_eq!(check(&text(b"O()")), Err(at(9)));
    assert_eq!(check(&text(b"O(012345678)")), Err(at(18)));
    assert_eq!(check(&text(b"O(012345678")), Err(at(18)));
    assert!(check(&text(b"O(012345678(1))")).is_ok());
    let deep = [&b"O"[..], &b"(0".repeat(14)].concat();
    let nine = text(&[&deep[..], b"(012345678"].concat());
    assert_eq!(check(&nine), Err(at(nine.len() as u64 - 1)));
    let sixteen = text(&[&deep[..], b"(0(0"].concat());
    assert_eq!(check(&sixteen), Err(at(sixteen.len() as u64 - 2)));
    let headings: [(&[u8], Refused); 20] = [
        (b"", at(0)),
        (b"CVR\x01", at(3)),
        (b"CVR\0", at(4)),
        (b"CVR\x01\x01", 10.into()),
        (b"CVX\0\x02", at(2)),
        (b"CVR\0\x0140", at(5)),
        (
            b"CVR\0\x0103",
            Refused {
                refusal: 0,
                place: 0,
            },
        ),
        (b"CVR\0\x01", at(5)),
        // of version 2, and the place is over both
        (b"CVR\0\x02", at(5)),
        (b"CVR\0\x020", at(6)),
        (b"CVR\0\x0204", at(6)),
        (b"CVR\0\x0200", at(7)),
        (b"CVR\0\x0200`", at(7)),
        (b"CVR\0\x0200q", at(7)),
        (b"CVR\0\x0200A", at(7)),
        (b"CVR\0\x0200O", at(7)),
        (b"CVR\0\x0100a", at(7)),
        (b"CVR\0\x03", 10.into()),
        (b"CVR\x02\0", 10.into()),
        (b"CVR\x01\x02", 10.into()),
    ];
    for (heading, refused) in headings {
        match refused.refusal {
            0 => assert!(check(heading).is_ok()),
            _ => assert_eq!(check(heading), Err(refused)),
        }
    }
}

/// W-208: a letter for each depth; whole caps; nothing deeper.
#[test]
fn texts_for_handhelds() {
    for (depth, letter) in (0..).zip(b'a'..=b'p') {
        let profile = handheld(depth);
        let alone = [b"CVR\0\x0200", &[letter][..]].concat();
        assert_eq!(text_in(profile, b""), alone);
        let checked = check(&alone).map(|of| (of.profile, of.cells, of.size));
        assert_eq!(checked, Ok((profile, 0, 0)));
        assert!(check(&text_in(profile, b"NOPQRS")).is_ok());
        assert_eq!(check(&text_in(profile, b"N(0)")), Err(at(9)));
        assert_eq!(check(&text_in(profile, b"NS(8)")), Err(at(10)));
        assert_eq!(check(&text_in(profile, b"N(")), Err(at(9)));
        // as deep as the depth, and one deeper
        let chain = |depth: u64| {
            let depth = depth as usize;
            [b"P", &b"(3".repeat(depth)[..], &b")".repeat(depth)].concat()
        };
        assert!(check(&text_in(profile, &chain(depth))).is_ok());
        let refused = check(&text_in(profile, &chain(depth + 1)));
        assert_eq!(refused, Err(at(9 + 2 * depth)));
    }
    // at the deepest, the last 8 of nine whole nodes can't stand; above it a list may follow
    assert_eq!(check(&text_in(handheld(1), b"O(012345678")), Err(at(18)));
    assert_eq!(check(&text_in(handheld(2), b"O(012345678")), Err(at(19)));
    assert!(check(&text_in(handheld(2), b"O(012345678(1))")).is_ok());
    let checked = Checked {
        profile: handheld(2),
        n: 0,
        s: 0,
        cells: 2,
        size: 25_418_658_283_290,
    };
    assert_eq!(check(&text_in(handheld(2), b"P(34(1))")), Ok(checked));
    // listing and asking read them, and 14 compares n and s alone
    let text = text_in(handheld(2), b"NP(34(1))");
    let mut listed = [0; 3];
    assert_eq!(list(&text, &mut listed), Ok(3));
    assert_eq!(&listed[..], &codes(&["N", "P3", "P41"])[..]);
    assert_eq!(covered(&text, code_of(0, 0, b"N123")), Ok(true));
    assert_eq!(covered(&text, code_of(0, 0, b"P4")), Ok(false));
    assert_eq!(covered(&text, code_of(1, 0, b"P3")), Err(14.into()));
}

/// The names of a cell's nine children.
fn nine(name: &str) -> Vec<String> {
    (0..9).map(|digit| format!("{name}{digit}")).collect()
}

/// Names written at version 2 with a depth: this body, or no text for 15.
fn writes(depth: u64, names: &[String], body: Option<&[u8]>) {
    let names: Vec<&str> = names.iter().map(String::as_str).collect();
    let wanted = body.map(|body| text_in(handheld(depth), body)).ok_or(15);
    let found = written(handheld(depth), 0, 0, &codes(&names));
    assert_eq!(found, wanted, "{depth} {names:?}");
}

/// W-208: "A good list is outside the profile exactly when the fewest cells of its ground break it,
/// so N0 to N8 pass as N."
#[test]
fn outside_the_profile() {
    let names = |names: &[&str]| {
        names
            .iter()
            .map(|name| name.to_string())
            .collect::<Vec<_>>()
    };
    for depth in 0..=15 {
        writes(depth, &names(&["N", "O", "S"]), Some(b"NOS"));
        writes(depth, &[], Some(b""));
        for (cap, body) in [("N", b"N"), ("S", b"S")] {
            writes(depth, &nine(cap), Some(body));
            writes(depth, &nine(cap)[1..], None);
            writes(depth, &nine(cap)[..8], None);
            writes(depth, &[format!("{cap}4")], None);
            writes(depth, &[format!("{cap}000000000000000")], None);
            let all: Vec<String> = nine(cap).iter().flat_map(|name| nine(name)).collect();
            writes(depth, &all, Some(body));
            writes(depth, &all[..80], None);
        }
    }
    writes(0, &nine("P"), Some(b"P"));
    writes(0, &nine("P")[..8], None);
    writes(1, &nine("P")[..8], Some(b"P(01234567)"));
    writes(1, &nine("P4"), Some(b"P(4)"));
    writes(1, &names(&["P3", "P41"]), None);
    writes(2, &names(&["P3", "P41"]), Some(b"P(34(1))"));
    let chain = [b"P", &b"(0".repeat(14)[..], &b")".repeat(14)].concat();
    writes(14, &nine("P00000000000000"), Some(&chain));
    writes(14, &names(&["P000000000000000"]), None);
}

/// W-208: 2, 10 and 15 in the order 5, 2, 4, 10, 14, 11, 15, 13, 8. At version 1 the depth is
/// tested, and makes no other difference.
#[test]
fn what_the_writer_is_asked() {
    let asked = |version: u64, depth: u64| Profile { version, depth };
    let (good, bad) = (codes(&["N4", "P41"]), u64::MAX);
    for depth in 0..=15 {
        assert_eq!(
            written(asked(1, depth), 0, 0, &good),
            Ok(text(b"N(4)P(4(1))"))
        );
        assert_eq!(written(asked(2, depth), 0, 0, &good), Err(15));
    }
    let wide = 1u64 << 32;
    for version in [0, 1, 2, 3, 257, wide + 1, wide + 2, u64::MAX] {
        for depth in [16, 256, wide, wide + 15, u64::MAX] {
            assert_eq!(written(asked(version, depth), 4, 0, &[bad]), Err(5));
            assert_eq!(written(asked(version, depth), 0, 3, &[bad]), Err(2));
            assert_eq!(written(asked(version, depth), 0, 0, &good), Err(2));
        }
        if ![1, 2].contains(&version) {
            assert_eq!(written(asked(version, 15), 0, 0, &[bad]), Err(4));
            assert_eq!(written(asked(version, 15), 1, 0, &good), Err(10));
            assert_eq!(written(asked(version, 15), 0, 0, &good), Err(10));
            assert_eq!(written(asked(version, 15), 0, 0, &[]), Err(10));
        }
    }
    let falling = [good[1], good[0]];
    assert_eq!(written(asked(2, 1), 1, 0, &falling), Err(14));
    assert_eq!(written(asked(2, 1), 0, 0, &falling), Err(11));
    assert_eq!(written(asked(2, 1), 0, 0, &good), Err(15));
    let mut lent = [5; 20];
    assert_eq!(write(asked(2, 1), 0, 0, &good, &mut lent[..3]), Err(15));
    assert_eq!(
        write(asked(2, 1), 0, 0, &codes(&["P4"]), &mut lent[..11]),
        Err(8)
    );
    assert_eq!(lent, [5; 20]);
    assert_eq!(
        write(asked(2, 1), 0, 0, &codes(&["P4"]), &mut lent[..12]),
        Ok(12)
    );
    assert_eq!(&lent[..13], b"CVR\0\x0200bP(4)\x05");
    // a list too long to be written, and outside the profile
    let mut random = Random::for_test("what_the_writer_is_asked");
    let long = random.text_of_length(handheld(9), LONGEST + 1);
    let (n, s) = arrangement_of_text(&long);
    let codes = whole_codes(&long);
    assert_eq!(written(handheld(9), n, s, &codes), Err(13));
    assert_eq!(written(handheld(2), n, s, &codes), Err(15));
    // as long as a text may be at version 1, and by the letter longer at version 2
    let full = random.text_of_length(handheld(9), LONGEST);
    let (n, s) = arrangement_of_text(&full);
    let codes = whole_codes(&full);
    assert_eq!(written(handheld(9), n, s, &codes), Ok(full.clone()));
    assert_eq!(
        written(FIRST, n, s, &codes).map(|text| text.len()),
        Ok(LONGEST - 1)
    );
}

/// The order of the refusals, and lent memory that they leave alone.
#[test]
fn refusals() {
    let long = vec![b'X'; LONGEST + 1];
    assert_eq!(check(&long), Err(13.into()));
    assert_eq!(check(&long[1..]), Err(at(0)));
    let mut cut = Random::for_test("refusals").text_of_length(FIRST, LONGEST - 1);
    cut.push(b'('); // opens a list that does not end, or may not stand there
    assert!(check(&cut).is_err_and(|no| no.refusal == 9 && no.place >= LONGEST as u64 - 1));

    let (mut lent, mut bytes) = ([5; 3], [5; 14]);
    let body = text(b"P(34(1))");
    assert_eq!(list(&body, &mut lent[..1]), Err(8.into()));
    assert_eq!(lent, [5; 3]);
    assert_eq!(list(&body, &mut lent), Ok(2));
    assert_eq!(lent[2], 5);
    let cells = codes(&["P3", "P41"]);
    assert_eq!(write(FIRST, 0, 0, &cells, &mut bytes), Err(8));
    assert_eq!(bytes, [5; 14]);

    let bad = u64::MAX;
    assert_eq!(written(FIRST, 4, 0, &[bad]), Err(5));
    assert_eq!(written(FIRST, 0, 0, &[cells[1], cells[0], bad]), Err(4));
    assert_eq!(written(FIRST, 0, 0, &[cells[1], cells[0]]), Err(11));
    assert_eq!(written(FIRST, 0, 0, &[cells[0], cells[0]]), Err(11));
    assert_eq!(written(FIRST, 0, 0, &codes(&["P", "P3"])), Err(11));
    assert_eq!(
        written(FIRST, 0, 0, &codes(&["P3", "P30000", "P4"])),
        Err(11)
    );
    assert_eq!(written(FIRST, 0, 0, &codes(&["P", "Q", "P3"])), Err(11));

    // the order is 5, 2, 4, 10, 14, 11, 15, 13; the next test tries 2, 10 and 15
    let other = code_of(1, 0, b"P41");
    assert_eq!(written(FIRST, 4, 0, &[other, cells[0]]), Err(5));
    assert_eq!(written(FIRST, 0, 0, &[other, cells[0], bad]), Err(4));
    assert_eq!(written(FIRST, 0, 0, &[other, cells[0]]), Err(14));
    assert_eq!(written(FIRST, 0, 0, &[cells[0], cells[0], other]), Err(14));
    assert_eq!(written(FIRST, 2, 0, &cells), Err(14));
    assert_eq!(written(FIRST, 1, 0, &[other, other]), Err(11));

    assert_eq!(ask(&long, bad), Err(4.into()));
    assert_eq!(ask(&long, other), Err(13.into()));
    assert_eq!(ask(b"CVR\0\x0300", other), Err(10.into()));
    assert_eq!(ask(&text(b")"), other), Err(at(7)));
    assert_eq!(covered(&body, other), Err(14.into()));
    assert_eq!(covered(&body, cells[0]), Ok(true));
    assert_eq!(covered(&body, code_of(0, 0, b"P")), Ok(false));
    assert_eq!(covered(&body, code_of(0, 0, b"P4")), Ok(false));
    assert_eq!(covered(&body, code_of(0, 0, b"P412")), Ok(true));
}

/// Texts of exactly 65,536 bytes are written and read, and one byte more is refused; a list of
/// many more cells than that is written where they merge.
#[test]
fn longest() {
    let mut random = Random::for_test("longest");
    for _ in 0..5 {
        for (length, wanted) in [(LONGEST, None), (LONGEST + 1, Some(13))] {
            let text = random.text_of_length(FIRST, length);
            let (n, s) = arrangement_of_text(&text);
            assert_eq!(check(&text).err(), wanted.map(Refused::from));
            assert_eq!(written(FIRST, n, s, &whole_codes(&text)).err(), wanted);
        }
    }
    let size = finest_cells(5);
    let many: Vec<u64> = (0..9u64.pow(5))
        .map(|nth| (nth * size * 16 + 5) * 16)
        .collect();
    assert_eq!(written(FIRST, 0, 0, &many), Ok(text(b"N")));
    let one_less = written(FIRST, 0, 0, &many[1..]).unwrap();
    assert_eq!(
        one_less,
        text(b"N(0(0(0(0(12345678)12345678)12345678)12345678)12345678)")
    );
}
