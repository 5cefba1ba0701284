//! The proved marks and frames against the second program, bit by bit, and against 02's bound, in
//! whole numbers of any length.

#[cfg(not(proved))]
#[test]
fn the_proved_library_is_linked() {
    panic!("RATTLE_LIBS is not set, so nothing was compared");
}

#[cfg(proved)]
mod entries {
    use second::compare::{compare, say, About, INPUTS};
    use second::plotter;
    use second::proved::{self, Metres};
    use second::random::{Random, KINDS};
    use std::collections::BTreeMap;

    /// The side and the code, and what a box's edges are where there is one.
    fn side_and_code(random: &mut Random, kind: second::random::Kind) -> (f64, u64) {
        (random.side(kind), random.code(kind))
    }

    #[test]
    fn mark_code() {
        compare(
            "jgv_mark_code",
            &[4, 19],
            side_and_code,
            |&(_, code)| About::code(code),
            |&(side, code)| Metres::from(plotter::mark_code(side, code)),
            |&(side, code)| proved::mark_code(side, code).into(),
        );
    }

    #[test]
    fn frame_first() {
        compare(
            "jgv_frame_first",
            &[4, 19],
            side_and_code,
            |&(_, code)| About::code(code),
            |&(side, code)| Metres::from(plotter::frame_first(side, code)),
            |&(side, code)| proved::frame_first(side, code).into(),
        );
    }

    #[test]
    fn frame_grow() {
        compare(
            "jgv_frame_grow",
            &[4, 19],
            |random, kind| {
                let (side, code) = side_and_code(random, kind);
                let near = plotter::frame_first(side, code).unwrap_or([0.0; 4]);
                (side, random.frame(kind, near), code)
            },
            |&(_, _, code)| About::code(code),
            |&(side, frame, code)| Metres::from(plotter::frame_grow(side, frame, code)),
            |&(side, frame, code)| proved::frame_grow(side, frame, code).into(),
        );
    }

    #[test]
    fn mark_point() {
        let mut random = Random::for_test("jgv_mark_point");
        let (mut refusals, mut arrangements) = (BTreeMap::new(), BTreeMap::new());
        for _ in 0..INPUTS {
            let kind = random.pick(&KINDS);
            let side = random.side(kind);
            let (n, s) = random.arrangement(kind);
            let (x, y) = random.point(kind, n, s);
            let wanted = Metres::from(plotter::mark_point(side, n, s, x, y));
            let found = Metres::from(proved::mark_point(side, n, s, x, y));
            assert!(
                wanted == found,
                "jgv_mark_point\n input {side:?} {n} {s} {x} {y}\n second program {wanted:?}\n proved library {found:?}"
            );
            *refusals.entry(wanted.refusal).or_insert(0) += 1;
            if wanted.refusal == 0 {
                *arrangements.entry((n, s)).or_insert(0) += 1;
            }
        }
        say(&format!(
            "jgv_mark_point: {INPUTS} inputs by refusal: {refusals:?}"
        ));
        let met: Vec<u64> = refusals.keys().copied().collect();
        assert_eq!(met, [0, 5, 7, 19]);
        assert!(refusals.values().all(|&count| count >= 10_000));
        assert!(arrangements.len() == 16 && arrangements.values().all(|&count| count >= 1000));
    }
}

/// "Show that the answer is within one part in 2^51 of the exact one, stated in whole numbers, and
/// is zero for zero."
#[cfg(proved)]
mod bound {
    use second::big::Whole;
    use second::compare::say;
    use second::grid::M;
    use second::plotter::{distance, edges_of, is_near};
    use second::proved;
    use second::random::{Kind, Random};

    /// Thousandths of a part in 2^51, in which the worst distance is told.
    const PARTS: u128 = 1000;

    struct Worst {
        parts: u128,
        numbers: u64,
        zeros: u64,
    }

    impl Worst {
        /// Checks one number of an answer.
        fn check(&mut self, units: i64, side: f64, answer: f64) {
            assert!(is_near(units, side, answer), "{units} {side:?} {answer:?}");
            self.numbers += 1;
            if units == 0 {
                self.zeros += 1;
                return;
            }
            let (far, exact) = distance(units, side, answer);
            let far = far.times(&Whole::new(PARTS << 51));
            if far > exact.times(&Whole::new(self.parts)) {
                self.parts = far.divided_by(&exact).0.value().expect("a few parts") + 1;
            }
        }

        fn say(&self, entry: &str) {
            let Worst {
                parts,
                numbers,
                zeros,
            } = self;
            say(&format!(
                "{entry}: {numbers} numbers within one part in 2^51, {zeros} of them zero for zero; worst: under 0.{parts:03} parts"
            ));
            assert!(*numbers >= 1_000_000 && *zeros >= 1000);
            assert!((PARTS / 3..=PARTS).contains(parts), "what was tried?");
        }
    }

    const NONE: Worst = Worst {
        parts: 0,
        numbers: 0,
        zeros: 0,
    };

    #[test]
    fn of_boxes() {
        let (mut random, mut worst) = (Random::for_test("of_boxes"), NONE);
        while worst.numbers < 1_050_000 {
            let kind = random.pick(&[Kind::Random, Kind::Border]);
            let (side, code) = (random.side(kind), random.code(kind));
            let answer = proved::mark_code(side, code);
            assert_eq!((answer.refusal, answer.kind), (0, 2));
            let edges = edges_of(code).expect("a code");
            for (units, metres) in edges.into_iter().zip(answer.numbers) {
                worst.check(units, side, metres);
            }
        }
        worst.say("jgv_mark_code");
    }

    /// Points in all of the belt, many of them near its left edge and the equator.
    #[test]
    fn of_points() {
        let (mut random, mut worst) = (Random::for_test("of_points"), NONE);
        while worst.numbers < 1_050_000 {
            let kind = random.pick(&[Kind::Random, Kind::Border]);
            let side = random.side(kind);
            let x = random.between(0, 4 * M - 1) >> random.below(28);
            let y = random.between(-M / 2, M / 2) >> random.below(26);
            let answer = proved::mark_point(side, 0, 0, x, y);
            assert_eq!((answer.refusal, answer.kind), (0, 1));
            assert_eq!(
                answer.numbers[2..].iter().map(|a| a.to_bits()).max(),
                Some(0)
            );
            worst.check(x, side, answer.numbers[0]);
            worst.check(y, side, answer.numbers[1]);
        }
        worst.say("jgv_mark_point");
    }
}

/// "A frame grows to hold the box of each further cell."
#[cfg(proved)]
mod frames {
    use jeguarivo::{Frame, FrameAnswer};
    use second::plotter;
    use second::proved;
    use second::random::{Kind, Random};

    fn edges(of: FrameAnswer) -> [f64; 4] {
        assert_eq!(of.refusal, 0);
        [of.left, of.bottom, of.right, of.top]
    }

    /// From a first frame on, each call given what the last handed back: in the end each edge is the
    /// outermost of those of the boxes.
    #[test]
    fn over_many_cells() {
        let mut random = Random::for_test("over_many_cells");
        for _ in 0..5_000 {
            let kind = random.pick(&[Kind::Random, Kind::Border]);
            let side = random.side(kind);
            let codes: Vec<u64> = (0..1 + random.below(60))
                .map(|_| random.code(kind))
                .collect();
            let mut frame = edges(proved::frame_first(side, codes[0]));
            for &code in &codes[1..] {
                let [left, bottom, right, top] = frame;
                let handed = Frame {
                    left,
                    bottom,
                    right,
                    top,
                };
                frame = edges(jeguarivo::jgv_frame_grow(side, handed, code));
            }
            let boxes = codes.iter().map(|&code| plotter::edges_of(code).unwrap());
            let boxes: Vec<[i64; 4]> = boxes.collect();
            for (at, edge) in frame.into_iter().enumerate() {
                let along = boxes.iter().map(|units| units[at]);
                // in units, which metres never put in another order
                let outermost = if at < 2 { along.min() } else { along.max() };
                let metres = plotter::metres(outermost.unwrap(), side);
                assert_eq!(edge.to_bits(), metres.to_bits(), "{side:?} {codes:?}");
            }
        }
    }
}
