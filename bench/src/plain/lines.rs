//! What a recorder is told: n, s and the resolution, and a line for each fix.

use super::fixes::fix_code;

/// The three numbers that a program's words are; it ends where they are not.
pub fn setting(program: &str) -> [u64; 3] {
    let numbers: Vec<u64> = std::env::args()
        .skip(1)
        .map_while(|word| word.parse().ok())
        .collect();
    match numbers[..] {
        [n @ 0..=3, s @ 0..=3, resolution @ 0..=15] => [n, s, resolution],
        _ => {
            eprintln!("usage: {program} n s resolution");
            std::process::exit(2);
        }
    }
}

/// The code of the cell of a line's fix, or the refusal.
pub fn code(n: u64, s: u64, resolution: u64, line: &[u8]) -> Result<u64, u64> {
    let (longitude, z) = fix(line).ok_or(6_u64)?;
    match fix_code(n, s, resolution, longitude, z) {
        jeguarivo::Code { refusal: 0, code } => Ok(code),
        refused => Err(refused.refusal),
    }
}

/// Two whole numbers in decimal with one space between.
fn fix(line: &[u8]) -> Option<(i64, i64)> {
    let (longitude, z) = std::str::from_utf8(line).ok()?.split_once(' ')?;
    Some((longitude.parse().ok()?, z.parse().ok()?))
}
