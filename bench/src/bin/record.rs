//! The program `record` in plain Rust: `record n s resolution` reads lines `longitude z` and writes the coverage text of the cells flown. It holds
//! the text and adds each cell in place. A line that is no fix and a fix that is refused are said on standard error and skipped.

#[path = "../plain/mod.rs"]
#[allow(dead_code)]
mod plain;

use plain::adding::add_to;
use plain::coverage::LONGEST;
use plain::lines::{code, setting};
use plain::writing::{write, FULL};
use std::io::{BufRead, Write};

fn main() {
    let [n, s, resolution] = setting("record");
    let mut text = write(FULL, n, s, &[]);
    let (mut length, mut last) = (text.len(), None);
    text.resize(LONGEST, 0);
    let mut input = std::io::stdin().lock();
    let (mut line, mut number) = (Vec::new(), 0);
    while input.read_until(b'\n', &mut line).expect("standard input") > 0 {
        number += 1;
        match code(n, s, resolution, line.strip_suffix(b"\n").unwrap_or(&line)) {
            Ok(code) if last == Some(code) => {}
            Ok(code) => match add_to(&mut text, length, code) {
                Ok(longer) => (length, last) = (longer, Some(code)),
                Err(refusal) => eprintln!("record: line {number}: refusal {refusal}"),
            },
            Err(refusal) => eprintln!("record: line {number}: refusal {refusal}"),
        }
        line.clear();
    }
    std::io::stdout()
        .write_all(&text[..length])
        .expect("standard output");
}
