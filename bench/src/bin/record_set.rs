//! The same program as a recorder with memory enough would be: it holds the set of all cells, and makes the text at the end. It needs as much memory as
//! the flight has cells, and refuses a flight as a whole where its text is too long.

#[path = "../plain/mod.rs"]
#[allow(dead_code)]
mod plain;

use plain::coverage::LONGEST;
use plain::lines::{code, setting};
use plain::writing::{write, FULL};
use std::collections::BTreeSet;
use std::io::{Read, Write};

fn main() {
    let [n, s, resolution] = setting("record_set");
    let mut flight = Vec::new();
    std::io::stdin()
        .read_to_end(&mut flight)
        .expect("standard input");
    let lines = flight.strip_suffix(b"\n").unwrap_or(&flight);
    let mut cells = BTreeSet::new();
    for (i, line) in lines.split(|&byte| byte == b'\n').enumerate() {
        match code(n, s, resolution, line) {
            Ok(code) => {
                cells.insert(code);
            }
            Err(refusal) => eprintln!("record: line {}: refusal {refusal}", i + 1),
        }
    }
    let cells: Vec<u64> = cells.into_iter().collect();
    let text = write(FULL, n, s, &cells);
    if text.len() > LONGEST {
        eprintln!("refusal 13");
        std::process::exit(1);
    }
    std::io::stdout().write_all(&text).expect("standard output");
}
