//! The proved program `coverage frame` against the second program, on random texts and sides, good
//! and bad ones. RATTLE_BIN names the folder of the programs; without it this test fails.

use second::compare::say;
use second::coverage::check;
use second::plotter::{frame_line, is_side, side_in};
use second::random::{Random, KINDS};
use std::collections::BTreeMap;
use std::ffi::OsStr;
use std::os::unix::ffi::OsStrExt;
use std::path::PathBuf;
use std::process::Command;

/// Both programs' lines, and how often each refusal and each kind of answer was met.
#[test]
fn coverage_frame() {
    let folder = std::env::var("RATTLE_BIN").expect("RATTLE_BIN, so nothing was compared");
    let program = PathBuf::from(folder).join("coverage");
    let file = PathBuf::from(env!("CARGO_TARGET_TMPDIR")).join("coverage_frame");
    let mut random = Random::for_test("coverage_frame");
    let mut met: BTreeMap<&str, u64> = BTreeMap::new();
    for _ in 0..3000 {
        let kind = random.pick(&KINDS);
        let (text, word) = (random.text(kind), random.written_side());
        std::fs::write(&file, &text).expect("a scratch file");
        let found = Command::new(&program)
            .arg("frame")
            .arg(&file)
            .arg(OsStr::from_bytes(&word))
            .output()
            .expect("a program of RATTLE_BIN");
        let wanted = frame_line(&text, &word);
        let found = String::from_utf8_lossy(&found.stdout).into_owned();
        let input = String::from_utf8_lossy(&word);
        assert!(found == wanted, "{input:?}: {found} {wanted} {text:?}");
        let kind = match (is_side(side_in(&word)), check(&text)) {
            (false, _) => "no side",
            (_, Err(_)) => "no text",
            (_, Ok(checked)) if checked.cells == 0 => "no cell",
            _ => "a frame",
        };
        *met.entry(kind).or_default() += 1;
    }
    say(&format!("coverage frame: {met:?}"));
    assert!(met.len() == 4 && met["a frame"] > 500 && met["no side"] > 300);
    assert!(met["no text"] > 300 && met["no cell"] > 5);
}
