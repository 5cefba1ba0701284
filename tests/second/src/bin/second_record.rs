//! `second_record n s resolution < flight > text`: the coverage text of a flight by the second
//! program. It wrote examples/flight/flight.cvr.

use second::flights::{counts, recorded};
use std::io::{Read, Write};

fn main() {
    let numbers: Vec<u64> = std::env::args()
        .skip(1)
        .map(|word| word.parse().expect("a whole number"))
        .collect();
    let [n, s, resolution] = numbers[..] else {
        panic!("usage: second_record n s resolution < flight > text");
    };
    let mut input = Vec::new();
    std::io::stdin()
        .read_to_end(&mut input)
        .expect("standard input");
    let flown = recorded(n, s, resolution, &input);
    for (line, refusal) in &flown.left_out {
        eprintln!("line {line}: refusal {refusal}");
    }
    eprintln!(
        "{}",
        counts(flown.taken, flown.refused(6), flown.refused(13))
    );
    std::io::stdout()
        .write_all(&flown.text)
        .expect("standard output");
}
