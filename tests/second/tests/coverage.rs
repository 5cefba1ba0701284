//! The proved coverage entries against the second program: each on more than a million texts or
//! lists of both versions and every depth, all short texts and what is added to them, damaged
//! headings, and the values that 01 and 02 print.

#[cfg(not(proved))]
#[test]
fn the_proved_library_is_linked() {
    panic!("RATTLE_LIBS is not set, so nothing was compared");
}

/// Each entry on random, border, bad and long inputs.
#[cfg(proved)]
mod entries {
    use jeguarivo::{Ask, Length};
    use second::compare::{say, About, Refusing, Tally};
    use second::coverage::{self, accepts, arrangement_of_text, profile_of_text, whole_cells};
    use second::coverage::{named_cells, written, Profile, FIRST, RULES};
    use second::grid::{code_of, resolution_of, Answer, Name};
    use second::proved::{coverage as proved, Like};
    use second::random::{Kind, Random, KINDS};
    use second::texts::{lent, lent_mut, Given};
    use std::collections::BTreeMap;

    const INPUTS: u64 = 1_050_000;

    /// The least number of times that each refusal, arrangement, resolution and profile has to be
    /// met.
    const LEAST: u64 = 100;

    /// Is this input a long one: past the length limit, or at it?
    fn long(nth: u64) -> Option<bool> {
        match nth % 7000 {
            0 => Some(true),
            3500 => Some(false),
            _ => None,
        }
    }

    /// A text of a kind, or a long one.
    fn text(random: &mut Random, kind: Kind, nth: u64) -> Vec<u8> {
        match long(nth) {
            Some(longer) => random.long_text(longer),
            None => random.text(kind),
        }
    }

    /// Compares whole answers and the whole memory afterwards, guards and text included.
    fn compare<A: Refusing>(
        entry: &str,
        refusals: &[u64],
        make: impl Fn(&mut Random, Kind, u64) -> Given,
        about: impl Fn(&Given) -> About,
        second: impl Fn(&mut Given) -> A,
        proved: impl Fn(&mut Given) -> A,
    ) {
        let mut random = Random::for_test(entry);
        let mut tally = Tally::needing(LEAST);
        for nth in 0..INPUTS {
            let kind = random.pick(&KINDS);
            let given = make(&mut random, kind, nth);
            let (mut wanted_after, mut found_after) = (given.clone(), given.clone());
            let wanted = second(&mut wanted_after);
            let found = proved(&mut found_after);
            assert!(
                wanted == found && wanted_after == found_after,
                "{entry}\n input {nth} {given:?}\n second program {wanted:?}\n {wanted_after:?}\n \
                 proved library {found:?}\n {found_after:?}"
            );
            tally.count(kind, wanted.refusal(), about(&given));
        }
        tally.finish(entry, refusals);
    }

    /// The arrangement, the deepest cell and the profile of a text, if it is accepted.
    fn about_text(given: &Given) -> About {
        let text = lent(&given.bytes);
        let accepted = accepts(RULES, text);
        let cells = if accepted { whole_cells(text) } else { vec![] };
        let deepest = cells.iter().map(|name| name.len() as u64 - 1).max();
        About {
            arrangement: accepted.then(|| arrangement_of_text(text)),
            resolution: deepest.unwrap_or(0),
            profile: accepted.then(|| profile_of_text(text)),
        }
    }

    /// What a text is to be: at version 1 the asked depth makes no difference.
    fn profile_of(asked: Profile) -> Profile {
        match asked.version {
            1 => FIRST,
            _ => asked,
        }
    }

    #[test]
    fn check() {
        compare(
            "jgv_coverage_check",
            &[13, 10, 9],
            |random, kind, nth| {
                let text = text(random, kind, nth);
                Given {
                    bytes: random.guarded(&text),
                    ..Given::default()
                }
            },
            about_text,
            |given| Like::like(coverage::check(lent(&given.bytes))),
            |given| proved::check(lent(&given.bytes)),
        );
    }

    #[test]
    fn list() {
        compare(
            "jgv_coverage_list",
            &[13, 10, 9, 8],
            |random, kind, nth| {
                let text = text(random, kind, nth);
                let count = match accepts(RULES, &text) {
                    true => whole_cells(&text).len(),
                    false => 3,
                };
                let room = random.room(count);
                let codes: Vec<u64> = (0..room).map(|_| random.any()).collect();
                Given {
                    bytes: random.guarded(&text),
                    codes: random.guarded_codes(&codes),
                    ..Given::default()
                }
            },
            about_text,
            |given| {
                Like::like(coverage::list(
                    lent(&given.bytes),
                    lent_mut(&mut given.codes),
                ))
            },
            |given| proved::list(lent(&given.bytes), lent_mut(&mut given.codes)),
        );
    }

    #[test]
    fn write() {
        compare(
            "jgv_coverage_write",
            &[5, 2, 4, 10, 14, 11, 15, 13, 8],
            |random, kind, nth| {
                let (n, s) = random.arrangement(kind);
                let mut asked = random.asked_profile(kind);
                let codes = match long(nth) {
                    Some(longer) => {
                        asked = random.long_profile();
                        random.long_codes(longer, asked, n, s)
                    }
                    None => random.codes(kind, asked, n, s),
                };
                let length = written(asked, n, s, &codes).map_or(20, |text| text.len());
                let room = random.room(length);
                let bytes: Vec<u8> = (0..room).map(|_| random.any() as u8).collect();
                Given {
                    asked,
                    n,
                    s,
                    code: 0,
                    bytes: random.guarded(&bytes),
                    codes: random.guarded_codes(&codes),
                }
            },
            |given| {
                let resolutions = lent(&given.codes).iter().map(|&code| resolution_of(code));
                let deepest = resolutions.max().unwrap_or(0);
                About {
                    profile: Some(profile_of(given.asked)),
                    ..About::arranged(given.n, given.s, deepest)
                }
            },
            |given| {
                let (codes, bytes) = (lent(&given.codes), lent_mut(&mut given.bytes));
                let answer: Answer<u64> =
                    coverage::write(given.asked, given.n, given.s, codes, bytes);
                Length::like(answer)
            },
            |given| {
                let (codes, bytes) = (lent(&given.codes), lent_mut(&mut given.bytes));
                let Profile { version, depth } = given.asked;
                proved::write(version, depth, given.n, given.s, codes, bytes)
            },
        );
    }

    #[test]
    fn ask() {
        compare(
            "jgv_coverage_ask",
            &[4, 13, 10, 9, 14],
            |random, kind, nth| {
                let text = text(random, kind, nth);
                Given {
                    code: random.asked_code(kind, &text),
                    bytes: random.guarded(&text),
                    ..Given::default()
                }
            },
            |given| About {
                profile: about_text(given).profile,
                ..About::code(given.code)
            },
            |given| Like::like(coverage::ask(lent(&given.bytes), given.code)),
            |given| proved::ask(lent(&given.bytes), given.code),
        );
    }

    /// How many of the lent bytes are said to be the text: all of them, or more than are lent, or
    /// more than a text may have.
    fn said_length(random: &mut Random, kind: Kind, length: usize, room: usize) -> u64 {
        if kind != Kind::Bad || !random.chance(6) {
            return length as u64;
        }
        let wide = 1u64 << random.pick(&[16, 17, 32, 63]);
        let past = room as u64 + random.below(100);
        random.pick(&[
            room as u64,
            room as u64 + 1,
            past,
            65_536,
            65_537,
            wide + length as u64,
            u64::MAX,
        ])
    }

    /// `n` is the length that the text is said to have; what is lent has a room for the answer.
    #[test]
    fn add() {
        compare(
            "jgv_coverage_add",
            &[4, 13, 8, 10, 9, 14, 15],
            |random, kind, nth| {
                let text = text(random, kind, nth);
                let (mut bytes, code) = random.to_add(kind, text);
                let length = bytes.len();
                bytes.resize(length + 60, 0);
                let longer = coverage::add(&mut bytes.clone(), length as u64, code);
                let room = match longer {
                    Ok(longer) => random.room(longer as usize).max(length),
                    Err(_) => length + random.below(40) as usize,
                };
                bytes.truncate(length);
                bytes.resize_with(room, || random.any() as u8);
                Given {
                    n: said_length(random, kind, length, room),
                    code,
                    bytes: random.guarded(&bytes),
                    ..Given::default()
                }
            },
            |given| {
                let text = lent(&given.bytes).get(..given.n as usize).unwrap_or(&[]);
                About {
                    profile: accepts(RULES, text).then(|| profile_of_text(text)),
                    ..About::code(given.code)
                }
            },
            |given| {
                Like::like(coverage::add(
                    lent_mut(&mut given.bytes),
                    given.n,
                    given.code,
                ))
            },
            |given| proved::add(lent_mut(&mut given.bytes), given.n, given.code),
        );
    }

    /// A cell to ask for beside one that a letter or digit names, whole or not: the same, one that
    /// holds it, its first child, which comes next in code order, another child, or the sibling
    /// before or behind it.
    fn beside(random: &mut Random, name: &Name) -> Name {
        let mut name = name.clone();
        let last = name.len() - 1;
        let few = name.len() < 16;
        match random.below(6) {
            0 => name.truncate(1 + random.below(name.len() as u64) as usize),
            1 if few => name.push(b'0'),
            2 if few => name.push(random.pick(b"12345678")),
            3 if last > 0 && name[last] > b'0' => name[last] -= 1,
            4 if last > 0 && name[last] < b'8' => name[last] += 1,
            _ => (),
        }
        name
    }

    /// W-213: more than a million questions beside the letters and digits of accepted texts, with
    /// how often nothing, one, some or all of them were counted, and how often the asked cell is
    /// one that is divided.
    #[test]
    fn settled() {
        let mut random = Random::for_test("settled");
        let mut profiles: BTreeMap<Profile, u64> = BTreeMap::new();
        let [mut questions, mut none, mut first, mut some, mut all, mut divided] = [0u64; 6];
        while questions < INPUTS {
            let kind = random.pick(&[Kind::Random, Kind::Border]);
            let text = match questions % 50_000 {
                0..20 => {
                    let profile = random.long_profile();
                    random.text_of_length(profile, coverage::LONGEST)
                }
                _ => random.text(kind),
            };
            if !accepts(RULES, &text) {
                continue;
            }
            let (n, s) = arrangement_of_text(&text);
            let names = named_cells(&text);
            let whole = whole_cells(&text);
            for _ in 0..20 {
                let name = match names.is_empty() {
                    true => random.name(Kind::Random),
                    false => {
                        let nth = random.below(names.len() as u64) as usize;
                        beside(&mut random, &names[nth])
                    }
                };
                let code = code_of(n, s, &name);
                let wanted = Ask::like(coverage::ask(&text, code));
                assert_eq!(proved::ask(&text, code), wanted, "{code} {text:?}");
                questions += 1;
                *profiles.entry(profile_of_text(&text)).or_default() += 1;
                match wanted.settled {
                    0 => none += 1,
                    1 => first += 1,
                    count if count == names.len() as u64 => all += 1,
                    _ => some += 1,
                }
                divided += u64::from(names.contains(&name) && !whole.contains(&name));
            }
        }
        say(&format!(
            "settled: {questions} questions, counted none {none}, one {first}, some {some}, \
             all {all}; of a divided cell {divided}; profiles {}",
            profiles.len()
        ));
        assert!([none, first, some, all, divided]
            .iter()
            .all(|&met| met > 1000));
        assert!(profiles.len() == 17 && profiles.values().all(|&met| met > 1000));
    }
}

/// Texts up to fifty bytes from the longest, with cells that just fit and cells that don't.
#[cfg(proved)]
#[test]
fn additions_near_the_longest() {
    use jeguarivo::Add;
    use second::compare::say;
    use second::coverage::{self, LONGEST};
    use second::proved::{coverage as proved, Like};
    use second::random::{Kind, Random};
    let mut random = Random::for_test("additions near the longest");
    let (mut taken, mut longest, mut too_long) = (0, 0, 0);
    for _ in 0..60 {
        let profile = random.long_profile();
        let short = random.pick(&[0, 1, 1, 1, 1, 4, 4, 7, 40]);
        let text = random.text_of_length(profile, LONGEST - short);
        for _ in 0..15 {
            let (mut lent, code) = random.to_add(Kind::Random, text.clone());
            let length = lent.len() as u64;
            lent.resize(LONGEST + 46, b'0');
            let mut wanted = lent.clone();
            let answer = proved::add(&mut lent, length, code);
            let by_second = Add::like(coverage::add(&mut wanted, length, code));
            assert!(
                answer == by_second && lent == wanted,
                "{answer:?} {by_second:?} {code}"
            );
            taken += u64::from(answer.refusal == 0);
            longest += u64::from(answer.length == LONGEST as u64);
            too_long += u64::from(answer.refusal == 13);
        }
    }
    say(&format!(
        "additions near the longest: {taken} taken, {longest} to 65,536 bytes, {too_long} too long"
    ));
    assert!(taken > 300 && longest > 2 && too_long > 30);
}

/// Every string of some bytes up to a length, after some beginnings, checked and listed.
#[cfg(proved)]
mod all_short_texts {
    use jeguarivo::{Check, List};
    use second::compare::say;
    use second::coverage::{self, handheld, heading, Profile, FIRST};
    use second::proved::{coverage as proved, Like};

    /// Compares each text, and each with so many closing brackets behind it.
    fn same_after(
        profile: Profile,
        beginning: &[u8],
        alphabet: &[u8],
        length: usize,
        closing: usize,
    ) -> [u64; 2] {
        let mut counts = [0, 0];
        let mut level = vec![[&heading(profile, 0, 0)[..], beginning].concat()];
        for longer in 0..=length {
            for text in &level {
                same(text, &mut counts);
                if closing > 0 {
                    same(&[text, &vec![b')'; closing][..]].concat(), &mut counts);
                }
            }
            if longer < length {
                let with = |text: &[u8], byte: u8| [text, &[byte]].concat();
                let next = level
                    .iter()
                    .flat_map(|text| alphabet.iter().map(|&b| with(text, b)));
                level = next.collect();
            }
        }
        counts
    }

    fn same(text: &[u8], counts: &mut [u64; 2]) {
        let wanted = Check::like(coverage::check(text));
        assert_eq!(proved::check(text), wanted, "{}", text.escape_ascii());
        let (mut codes, mut wanted) = ([7; 9], [7; 9]);
        let listed = proved::list(text, &mut codes);
        let by_second = List::like(coverage::list(text, &mut wanted));
        assert_eq!((listed, codes), (by_second, wanted));
        counts[0] += 1;
        counts[1] += u64::from([0, 8].contains(&listed.refusal));
    }

    #[test]
    fn after_a_heading() {
        let counts = same_after(FIRST, b"", b"NOS018()", 6, 0);
        say(&format!("all short bodies (all, accepted): {counts:?}"));
    }

    /// W-208: every short body at depths 0 to 3, and at 15.
    #[test]
    fn after_a_heading_for_handhelds() {
        for depth in [0, 1, 2, 3, 15] {
            let counts = same_after(handheld(depth), b"", b"NOS018()", 6, 0);
            let more = same_after(handheld(depth), b"", b"O08()", 8, 0);
            say(&format!(
                "all short bodies at depth {depth}: {counts:?}, of five bytes {more:?}"
            ));
        }
    }

    #[test]
    fn after_a_heading_up_to_eight_bytes() {
        let counts = same_after(FIRST, b"", b"O08()", 8, 0);
        say(&format!(
            "all bodies of five bytes (all, accepted): {counts:?}"
        ));
    }

    #[test]
    fn after_eight_whole_nodes_and_near_the_deepest() {
        let mut counts = [0, 0];
        for depth in [0, 1, 13, 14, 15] {
            same_tails(FIRST, depth, &mut counts);
        }
        for deepest in 0..=15 {
            let least = if deepest > 3 { deepest - 1 } else { 0 };
            for depth in least..=deepest {
                same_tails(handheld(deepest), depth as usize, &mut counts);
            }
        }
        say(&format!("all short tails (all, accepted): {counts:?}"));
    }

    fn same_tails(profile: Profile, depth: usize, counts: &mut [u64; 2]) {
        let chain = [&b"P"[..], &b"(3".repeat(depth)].concat();
        let mut all = vec![same_after(profile, &chain, b"048()S", 4, depth)];
        if depth < profile.depth as usize {
            let eight = [&chain[..], b"(01234567"].concat();
            all.push(same_after(profile, &eight, b"08()S", 5, depth + 1));
        }
        for more in all {
            counts[0] += more[0];
            counts[1] += more[1];
        }
    }

    /// Each byte of a heading and of a short text as any byte, and each length of it.
    #[test]
    fn one_byte_of_a_text_as_any_byte() {
        let texts: [&[u8]; 4] = [
            b"CVR\0\x0123N(1(08)4)PR(8)",
            b"CVR\0\x0223cNP(1(08)4)R(8)S",
            b"CVR\0\x0200a",
            b"CVR\0\x0231pO(012345678(0))S",
        ];
        for text in texts {
            for (length, at) in (1..=text.len()).flat_map(|end| (0..end).map(move |at| (end, at))) {
                for byte in 0..=255 {
                    let mut text = text[..length].to_vec();
                    text[at] = byte;
                    let wanted = Check::like(coverage::check(&text));
                    assert_eq!(proved::check(&text), wanted, "{}", text.escape_ascii());
                }
            }
        }
    }

    /// Two bytes of a heading as any two: the version with each other, with n, with the letter, and
    /// s with the letter.
    #[test]
    fn two_bytes_of_a_heading_as_any_two() {
        let texts: [&[u8]; 4] = [
            b"CVR\0\x0100OP",
            b"CVR\0\x0200bO(3)",
            b"CVR\0\x0200",
            b"CVR\0\x01",
        ];
        let pairs = [(3, 4), (4, 5), (4, 7), (6, 7), (2, 4)];
        let mut counts = [0, 0];
        for (text, (one, other)) in texts.into_iter().flat_map(|t| pairs.map(|p| (t, p))) {
            let mut text = text.to_vec();
            for bytes in 0..=u16::MAX {
                for (at, byte) in [one, other].into_iter().zip(bytes.to_be_bytes()) {
                    if let Some(place) = text.get_mut(at) {
                        *place = byte;
                    }
                }
                same(&text, &mut counts);
            }
        }
        say(&format!(
            "two bytes of a heading (all, accepted): {counts:?}"
        ));
    }
}

/// Every cell of a small family added to every text over few bytes.
#[cfg(proved)]
mod all_small_additions {
    use jeguarivo::Add;
    use second::compare::say;
    use second::coverage::{self, accepts, handheld, heading, text_of, Profile, FIRST, RULES};
    use second::grid::{code_of, Name};
    use second::proved::{coverage as proved, Like};

    /// What was met: all, refused with 15, unchanged, shorter, longer.
    #[derive(Default, Debug)]
    struct Met {
        all: u64,
        outside: u64,
        same: u64,
        shorter: u64,
        longer: u64,
    }

    impl Met {
        /// Both programs add a cell to a text that is accepted.
        fn add(&mut self, text: &[u8], name: &[u8]) {
            let length = text.len() as u64;
            let code = code_of(0, 0, name);
            let mut lent = text.to_vec();
            lent.resize(text.len() + 46, b'8');
            let mut wanted = lent.clone();
            let answer = proved::add(&mut lent, length, code);
            let by_second = Add::like(coverage::add(&mut wanted, length, code));
            let shown = (text.escape_ascii(), name.escape_ascii());
            assert_eq!(answer, by_second, "{} {}", shown.0, shown.1);
            assert!(lent == wanted, "{} {}", shown.0, shown.1);
            self.all += 1;
            match answer.refusal {
                15 => self.outside += 1,
                _ => assert_eq!(answer.refusal, 0),
            }
            if answer.refusal == 0 {
                let by_length = [&mut self.shorter, &mut self.same, &mut self.longer];
                *by_length
                    [1 + (answer.length > length) as usize - (answer.length < length) as usize] +=
                    1;
            }
        }
    }

    /// The accepted texts of a profile with bodies of these bytes up to a length.
    fn texts(profile: Profile, alphabet: &[u8], length: usize) -> Vec<Vec<u8>> {
        let mut level = vec![heading(profile, 0, 0)];
        let mut all = Vec::new();
        for _ in 0..=length {
            all.extend(level.iter().filter(|text| accepts(RULES, text)).cloned());
            let with = |text: &[u8], byte: u8| [text, &[byte]].concat();
            level = level
                .iter()
                .flat_map(|text| alphabet.iter().map(|&byte| with(text, byte)))
                .collect();
        }
        all
    }

    /// The cells of some faces with these digits, up to a resolution.
    fn names(faces: &[u8], digits: &[u8], resolution: usize) -> Vec<Name> {
        let mut level: Vec<Name> = faces.iter().map(|&face| vec![face]).collect();
        let mut all = level.clone();
        for _ in 0..resolution {
            let with = |name: &[u8], digit: u8| [name, &[digit]].concat();
            level = level
                .iter()
                .flat_map(|name| digits.iter().map(|&digit| with(name, digit)))
                .collect();
            all.extend(level.clone());
        }
        all
    }

    #[test]
    fn to_every_short_text() {
        let names = names(b"NOPS", b"018", 3);
        for profile in [FIRST, handheld(0), handheld(1), handheld(2), handheld(15)] {
            let mut met = Met::default();
            for text in texts(profile, b"NOS018()", 7) {
                for name in &names {
                    met.add(&text, name);
                }
            }
            say(&format!(
                "additions to all short texts of {profile:?}: {met:?}"
            ));
            let divided = profile.version == 1 || profile.depth > 0;
            assert!(met.same > 0 && met.longer > 0 && met.shorter > 0 || !divided);
            assert!((met.outside > 0) == (profile.version == 2));
        }
    }

    /// Every choice of a cell's children, and below one of them every choice of its children where
    /// six or more of the others are there: every cell of the family is added.
    #[test]
    fn to_every_family() {
        let below = names(b"P", b"012345678", 2);
        let deeper: Vec<Name> = vec![b"P400".to_vec(), b"P448".to_vec()];
        for profile in [FIRST, handheld(1), handheld(2)] {
            let mut met = Met::default();
            for choice in 0..1u32 << 9 {
                let outer = |digit: u8| choice >> (digit - b'0') & 1 == 1;
                let family: Vec<Name> = (b'0'..=b'8')
                    .filter(|&digit| outer(digit))
                    .map(|digit| vec![b'P', digit])
                    .collect();
                if choice < 511 {
                    let text = text_of(profile, 0, 0, &family);
                    for name in &below {
                        met.add(&text, name);
                    }
                }
                let others = (choice & !16).count_ones();
                if outer(b'4') || others < 6 || profile.depth == 1 {
                    continue;
                }
                for inner in 1..511u32 {
                    let mut names = family.clone();
                    let inside = (b'0'..=b'8').filter(|digit| inner >> (digit - b'0') & 1 == 1);
                    names.extend(inside.map(|digit| vec![b'P', b'4', digit]));
                    names.sort();
                    let text = text_of(profile, 0, 0, &names);
                    let near = below
                        .iter()
                        .filter(|name| name.len() < 3 || name[1] == b'4');
                    for name in near.chain(&deeper) {
                        met.add(&text, name);
                    }
                }
            }
            say(&format!(
                "additions to all families of {profile:?}: {met:?}"
            ));
            assert!(met.same > 0 && met.longer > 0 && met.shorter > 0);
        }
    }
}

/// The values that 01, 02 and the readings print, from both programs.
#[cfg(proved)]
mod printed {
    use jeguarivo::{Ask, Check, Length, List};
    use second::coverage::{self, handheld, heading, Profile, FIRST, HEADING, LONGEST};
    use second::grid::{arrangements, code_of, finest_cells};
    use second::proved::{coverage as proved, Like};

    /// Both programs check a text of the arrangement (0, 0) to this refusal, place, number of cells
    /// and sum of sizes; it is of version 1.
    fn is(text: &[u8], refusal: u64, place: u64, cells: u64, size: u64) {
        is_in(FIRST, text, refusal, place, cells, size);
    }

    /// The same with a profile.
    fn is_in(profile: Profile, text: &[u8], refusal: u64, place: u64, cells: u64, size: u64) {
        let (version, depth) = match refusal {
            0 => (profile.version, profile.depth),
            _ => (0, 0),
        };
        let wanted = Check {
            refusal,
            place,
            version,
            depth,
            n: 0,
            s: 0,
            cells,
            size,
        };
        assert_eq!(Check::like(coverage::check(text)), wanted);
        assert_eq!(proved::check(text), wanted, "{}", text.escape_ascii());
    }

    fn body(body: &[u8]) -> Vec<u8> {
        [HEADING, body].concat()
    }

    /// The codes of names at n = s = 0.
    fn codes(names: &[&str]) -> Vec<u64> {
        let code = |name: &&str| code_of(0, 0, name.as_bytes());
        names.iter().map(code).collect()
    }

    /// Both programs write these cells as this body.
    fn writes(names: &[&str], wanted: &[u8]) {
        writes_in(FIRST, names, Ok(wanted));
    }

    /// The same in a profile; or both refuse.
    fn writes_in(asked: Profile, names: &[&str], wanted: Result<&[u8], u64>) {
        let codes = codes(names);
        let wanted = wanted.map(|body| [&heading(asked, 0, 0)[..], body].concat());
        assert_eq!(
            coverage::written(asked, 0, 0, &codes),
            wanted,
            "{asked:?} {names:?}"
        );
        let text = wanted.clone().unwrap_or_default();
        let mut lent = vec![0xEE; text.len() + 1];
        let answer = proved::write(asked.version, asked.depth, 0, 0, &codes, &mut lent);
        let length = wanted.map(|text| text.len() as u64);
        assert_eq!(answer, Length::like(length), "{asked:?} {names:?}");
        assert_eq!(lent, [&text[..], &[0xEE]].concat());
    }

    /// Both programs list these whole cells of a body, rising.
    fn lists(of: &[u8], names: &[&str]) {
        let codes = codes(names);
        let (mut by_second, mut by_proved) = (vec![7; codes.len()], vec![7; codes.len()]);
        let count = codes.len() as u64;
        assert_eq!(coverage::list(&body(of), &mut by_second), Ok(count));
        let wanted = List {
            refusal: 0,
            place: 0,
            count,
        };
        assert_eq!(proved::list(&body(of), &mut by_proved), wanted);
        assert_eq!((&by_second, &by_proved), (&codes, &codes));
    }

    #[test]
    fn given_whole() {
        writes(
            &["O", "P0", "P1", "P2", "P3", "P4", "P5", "P6", "P7", "P8"],
            b"OP",
        );
        writes(&["P3", "P41"], b"P(34(1))");
        lists(b"P(34(1))", &["P3", "P41"]);
        assert_eq!(body(b"P(34(1))").len(), 15);
        is(&body(b"P(34(1))"), 0, 0, 2, 25_418_658_283_290);
        writes(&[], b"");
        lists(b"", &[]);
        writes(&["N", "O", "P", "Q", "R", "S"], b"NOPQRS");
        lists(b"NOPQRS", &["N", "O", "P", "Q", "R", "S"]);
        is(&body(b"NOPQRS"), 0, 0, 6, 6 * 9u64.pow(15));
    }

    /// 01, proved table, lines 10 and 11, and the errors a builder will be drawn to.
    #[test]
    fn lines_10_and_11() {
        is(&body(b"O()"), 9, 9, 0, 0);
        is(&body(b"O(012345678)"), 9, 18, 0, 0);
        is(&body(b"O(012345678"), 9, 18, 0, 0);
        is(
            &body(b"O(012345678(0))"),
            0,
            0,
            9,
            8 * 9u64.pow(14) + 9u64.pow(13),
        );
        lists(
            b"O(012345678(0))",
            &["O0", "O1", "O2", "O3", "O4", "O5", "O6", "O7", "O80"],
        );
        // "At depth 15 the last 8 can't stand", but a list may follow it at 14
        let less_deep = [&b"O"[..], &b"(0".repeat(13), b"(012345678"].concat();
        is(&body(&less_deep), 9, 7 + 27 + 10, 0, 0);
        let deep = [&b"O"[..], &b"(0".repeat(14)].concat();
        is(
            &body(&[&deep[..], b"(012345678"].concat()),
            9,
            7 + 29 + 9,
            0,
            0,
        );
        is(&body(&[&deep[..], b"(0("].concat()), 9, 7 + 29 + 2, 0, 0);
    }

    #[test]
    fn headings() {
        is(b"", 9, 0, 0, 0);
        is(b"CVR\x01", 9, 3, 0, 0);
        is(b"CVR\0", 9, 4, 0, 0);
        is(b"CVR\x01\x01", 10, 0, 0, 0);
        is(b"CVX\0\x02", 9, 2, 0, 0);
        is(b"CVR\0\x0140", 9, 5, 0, 0);
        is(b"CVR\0\x0100", 0, 0, 0, 0);
    }

    /// W-208: the place is over both versions, and 10 is neither.
    #[test]
    fn headings_of_version_2() {
        is(b"CVR\0\x02", 9, 5, 0, 0);
        is(b"CVR\0\x020", 9, 6, 0, 0);
        is(b"CVR\0\x0240", 9, 5, 0, 0);
        is(b"CVR\0\x0200", 9, 7, 0, 0);
        for letter in 0..=255 {
            let text = [&b"CVR\0\x0200"[..], &[letter], b"N"].concat();
            let depth = u64::from(letter).wrapping_sub(u64::from(b'a'));
            match depth {
                0..=15 => is_in(handheld(depth), &text, 0, 0, 1, 9u64.pow(15)),
                _ => is(&text, 9, 7, 0, 0),
            }
        }
        is(b"CVR\0\x0100aN", 9, 7, 0, 0);
        is(b"CVR\0\x03", 10, 0, 0, 0);
        is(b"CVR\0\0", 10, 0, 0, 0);
        is(b"CVR\x01\x02", 10, 0, 0, 0);
        is(b"CVR\x02\0", 10, 0, 0, 0);
    }

    /// W-208: caps whole, nothing deeper, at every depth.
    #[test]
    fn texts_for_handhelds() {
        for depth in 0..=15 {
            let text = |body: &[u8]| [&heading(handheld(depth), 0, 0)[..], body].concat();
            let is = |body: &[u8], refusal: u64, place: u64, cells: u64, size: u64| {
                is_in(handheld(depth), &text(body), refusal, place, cells, size)
            };
            is(b"", 0, 0, 0, 0);
            is(b"NOPQRS", 0, 0, 6, 6 * 9u64.pow(15));
            is(b"N(0)", 9, 9, 0, 0);
            is(b"NS(8)", 9, 10, 0, 0);
            let chain =
                |depth: usize| [b"P", &b"(3".repeat(depth)[..], &b")".repeat(depth)].concat();
            is(&chain(depth as usize), 0, 0, 1, 9u64.pow(15 - depth as u32));
            is(&chain(depth as usize + 1), 9, 9 + 2 * depth, 0, 0);
        }
        let text = |depth: u64, body: &[u8]| [&heading(handheld(depth), 0, 0)[..], body].concat();
        is(&text(1, b"O(012345678"), 9, 18, 0, 0);
        is(&text(2, b"O(012345678"), 9, 19, 0, 0);
        is_in(
            handheld(2),
            &text(2, b"P(34(1))"),
            0,
            0,
            2,
            25_418_658_283_290,
        );
    }

    /// W-208: "so N0 to N8 pass as N"; a divided cap; one digit too deep; and at version 1 no depth
    /// makes a difference.
    #[test]
    fn outside_the_profile() {
        let nine = |name: &str| (0..9).map(|d| format!("{name}{d}")).collect::<Vec<_>>();
        let writes = |depth: u64, names: &[String], wanted: Result<&[u8], u64>| {
            let names: Vec<&str> = names.iter().map(String::as_str).collect();
            writes_in(handheld(depth), &names, wanted);
        };
        for depth in 0..=15 {
            for (cap, body) in [("N", &b"N"[..]), ("S", b"S")] {
                writes(depth, &nine(cap), Ok(body));
                writes(depth, &nine(cap)[1..], Err(15));
                writes(depth, &nine(cap)[..8], Err(15));
                let all: Vec<String> = nine(cap).iter().flat_map(|name| nine(name)).collect();
                writes(depth, &all, Ok(body));
                writes(depth, &all[1..], Err(15));
            }
            writes(depth, &[], Ok(b""));
            let deep = |depth: usize| format!("P{}", "0".repeat(depth));
            let chain = [
                b"P",
                &b"(0".repeat(depth as usize)[..],
                &b")".repeat(depth as usize),
            ]
            .concat();
            writes(depth, &[deep(depth as usize)], Ok(&chain));
            if depth < 15 {
                writes(depth, &[deep(depth as usize + 1)], Err(15));
                writes(depth, &nine(&deep(depth as usize)), Ok(&chain));
                writes(depth, &nine(&deep(depth as usize))[..8], Err(15));
            }
            let first = Profile { version: 1, depth };
            writes_in(first, &["N4", "P41"], Ok(b"N(4)P(4(1))"));
        }
    }

    /// W-208: 5, 2, 4, 10, 14, 11, 15, 13, 8, with two or more of them in each call.
    #[test]
    fn what_the_writer_is_asked() {
        let (good, other) = (codes(&["N4", "P41"]), code_of(1, 0, b"N4"));
        let wide = 1u64 << 32;
        for version in [0, 1, 2, 3, 256, 257, 258, wide + 1, wide + 2, u64::MAX] {
            for depth in [0, 1, 2, 15, 16, 17, 256, 257, wide, wide + 2, u64::MAX] {
                let lists = [
                    vec![],
                    good.clone(),
                    vec![good[1], good[0]],
                    vec![other, good[0]],
                    vec![good[1], good[0], u64::MAX],
                    vec![good[1]],
                ];
                for (list, room) in lists
                    .iter()
                    .flat_map(|list| [0, 7, 8, 40].map(|room| (list, room)))
                {
                    for (n, s) in [(0, 0), (1, 0), (0, 4)] {
                        let (mut lent, mut wanted) = ([9; 40], [9; 40]);
                        let asked = Profile { version, depth };
                        let answer = proved::write(version, depth, n, s, list, &mut lent[..room]);
                        let by_second = coverage::write(asked, n, s, list, &mut wanted[..room]);
                        assert_eq!(
                            (answer, lent),
                            (Length::like(by_second), wanted),
                            "{asked:?} {list:?}"
                        );
                    }
                }
            }
        }
    }

    /// N and N0; N0 and N; N0 twice; N0 and N1; 256 is no cell's code, and 4 comes before 14 and
    /// 11; N0 at n = 0 and s = 1, and 14 comes before 11.
    #[test]
    fn lists_of_codes() {
        let lists: [(&[u64], u64); 9] = [
            (&[0, 16], 11),
            (&[16, 0], 11),
            (&[16, 16], 11),
            (&[16, 16 * 366_028_679_279_377], 0),
            (&[16, 0, 256], 4),
            (&[17, 0, 256], 4),
            (&[17], 14),
            (&[16, 17], 14),
            (&[16, 16, 17, 0], 14),
        ];
        for (codes, refusal) in lists {
            let by_second = coverage::written(FIRST, 0, 0, codes);
            assert_eq!(by_second.as_ref().err().copied().unwrap_or(0), refusal);
            let mut lent = [0xEE; 12];
            let answer = proved::write(1, 15, 0, 0, codes, &mut lent);
            assert_eq!(
                answer,
                Length::like(by_second.clone().map(|text| text.len() as u64))
            );
            let text = by_second.unwrap_or_default();
            let after = [&text[..], &vec![0xEE; lent.len() - text.len()]].concat();
            assert_eq!(&lent[..], &after);
        }
    }

    /// A text names its own arrangement; a refused one does not.
    #[test]
    fn a_text_names_its_own_arrangement() {
        for (n, s) in arrangements() {
            let mut text = [&heading(FIRST, n, s)[..], b"N(8)S"].concat();
            let wanted = Check {
                version: 1,
                depth: 15,
                n,
                s,
                cells: 2,
                size: 9u64.pow(15) + 9u64.pow(14),
                ..Check::default()
            };
            assert_eq!(Check::like(coverage::check(&text)), wanted);
            assert_eq!(proved::check(&text), wanted);
            text.push(b'S');
            is(&text, 9, 12, 0, 0);
            let text = [&heading(handheld(1), n, s)[..], b"NP(8)"].concat();
            let wanted = Check {
                version: 2,
                depth: 1,
                ..wanted
            };
            assert_eq!(Check::like(coverage::check(&text)), wanted);
            assert_eq!(proved::check(&text), wanted);
        }
    }

    /// A text of each arrangement: listed in its own, asked with codes of each, and written of
    /// codes of two. 14 exactly where they differ.
    #[test]
    fn two_arrangements() {
        for (n, s) in arrangements() {
            let text = [&heading(FIRST, n, s)[..], b"N(8)S"].concat();
            let own = [code_of(n, s, b"N8"), code_of(n, s, b"S")];
            let mut listed = [7; 2];
            assert_eq!(proved::list(&text, &mut listed).refusal, 0);
            assert_eq!(listed, own);
            for (of_n, of_s) in arrangements() {
                let other = code_of(of_n, of_s, b"N8");
                let refusal = if (of_n, of_s) == (n, s) { 0 } else { 14 };
                let asked = proved::ask(&text, other);
                assert_eq!(
                    (asked.refusal, asked.covered),
                    (refusal, u64::from(refusal == 0))
                );
                assert_eq!(asked, Ask::like(coverage::ask(&text, other)));
                let mixed = [[other, own[1]], [own[0], code_of(of_n, of_s, b"S")]];
                for (codes, asked_n, asked_s) in [
                    (mixed[0], n, s),
                    (mixed[1], n, s),
                    (mixed[0], of_n, of_s),
                    (mixed[1], of_n, of_s),
                ] {
                    let (mut lent, mut wanted) = ([9; 12], [9; 12]);
                    let answer = proved::write(1, 15, asked_n, asked_s, &codes, &mut lent);
                    assert_eq!(answer.refusal, refusal);
                    let by_second = coverage::write(FIRST, asked_n, asked_s, &codes, &mut wanted);
                    assert_eq!((answer, lent), (Length::like(by_second), wanted));
                }
            }
        }
    }

    /// Past the length limit nothing else is looked at, and at it all is.
    #[test]
    fn longest() {
        is(&vec![b'X'; LONGEST + 1], 13, 0, 0, 0);
        is(&vec![b'X'; LONGEST], 9, 0, 0, 0);
    }

    /// "13 is judged on the merged text": all 354,294 cells of resolution 5, and all but one.
    #[test]
    fn many_codes_that_merge() {
        let size = finest_cells(5);
        let many: Vec<u64> = (0..6 * 9u64.pow(5))
            .map(|i| (i * size * 16 + 5) * 16)
            .collect();
        for codes in [&many[..], &many[1..]] {
            let (mut lent, mut wanted) = ([9; 80], [9; 80]);
            let answer = proved::write(1, 15, 0, 0, codes, &mut lent);
            let by_second = Length::like(coverage::write(FIRST, 0, 0, codes, &mut wanted));
            assert_eq!((answer, lent), (by_second, wanted));
            assert_eq!(answer.refusal, 0);
            // and at version 2: the six faces; all but one finer part of N
            let answer = proved::write(2, 0, 0, 0, codes, &mut lent);
            let by_second = Length::like(coverage::write(handheld(0), 0, 0, codes, &mut wanted));
            assert_eq!((answer, lent), (by_second, wanted));
            assert_eq!(
                answer.refusal,
                if codes.len() == many.len() { 0 } else { 15 }
            );
        }
    }
}
