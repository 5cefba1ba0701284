//! Document 02's W-211, a partner's neighbour sheets: "for a coverage, one record of five 64-bit
//! numbers, low byte first, per whole cell: its code and four neighbour codes in our direction
//! order".
//!
//! A no is told by going through the records that our rules put there; a yes by the four conditions
//! of the paper as well (`meets`), which the tests set against each other.

use crate::coverage::{arrangement_of_text, checked_text, whole_cells, whole_codes, TextAnswer};
use crate::grid::{code_of, neighbour, neighbour_of};
use std::collections::BTreeSet;

/// The bytes of a record.
pub const RECORD: usize = 40;

/// A code, and the codes up, right, down and left of it.
pub type Record = [u64; 5];

/// The records that our rules put there.
pub fn records(text: &[u8]) -> Vec<Record> {
    let (n, s) = arrangement_of_text(text);
    let record = |name: &Vec<u8>| {
        let beside = |direction| code_of(n, s, &neighbour_of(n, s, name, direction));
        [
            code_of(n, s, name),
            beside(0),
            beside(1),
            beside(2),
            beside(3),
        ]
    };
    whole_cells(text).iter().map(record).collect()
}

/// The bytes of records: the lowest byte of a number is what is left of it by 256.
pub fn sheet_of(records: &[Record]) -> Vec<u8> {
    let mut sheet = Vec::with_capacity(RECORD * records.len());
    for number in records.iter().flatten() {
        let mut rest = *number;
        for _ in 0..8 {
            sheet.push((rest % 256) as u8);
            rest /= 256;
        }
    }
    sheet
}

/// The record of 40 bytes; one that is broken off is none.
pub fn record_in(bytes: &[u8]) -> Option<Record> {
    let number = |at: usize| {
        let low_first = bytes[8 * at..8 * at + 8].iter();
        low_first
            .rev()
            .fold(0, |value, &byte| 256 * value + u64::from(byte))
    };
    (bytes.len() == RECORD).then(|| [0, 1, 2, 3, 4].map(number))
}

/// Nothing on yes; on no "the first record that is not the one our rules put there; a missing one
/// at the end is named by the number of records, and a record broken off at the end counts as a
/// wrong one".
pub fn wrong_record(text: &[u8], sheet: &[u8]) -> Option<u64> {
    let ours = records(text);
    let mut sent = sheet.chunks(RECORD);
    for (nth, record) in ours.iter().enumerate() {
        if sent.next().and_then(record_in) != Some(*record) {
            return Some(nth as u64);
        }
    }
    sent.next().map(|_| ours.len() as u64) // one too many
}

/// "the records stand in rising order, each whole cell has one, no other has any, and all
/// neighbours are right".
pub fn meets(text: &[u8], sheet: &[u8]) -> bool {
    let Some(sent) = sheet.chunks(RECORD).map(record_in).collect() else {
        return false;
    };
    let sent: Vec<Record> = sent;
    let rising = sent.windows(2).all(|pair| pair[0][0] < pair[1][0]);
    let codes: BTreeSet<u64> = sent.iter().map(|record| record[0]).collect();
    let whole: BTreeSet<u64> = whole_codes(text).into_iter().collect();
    let right = |record: &Record| {
        (0..4)
            .all(|direction| neighbour(record[0], direction) == Ok(record[direction as usize + 1]))
    };
    rising && codes == whole && sent.iter().all(right)
}

/// "Check the sheet." Refuses what the text is refused with.
pub fn check(text: &[u8], sheet: &[u8]) -> TextAnswer<Option<u64>> {
    checked_text(text)?;
    Ok(wrong_record(text, sheet))
}

/// The sheet of our rules, to the front of the lent bytes: its length.
pub fn write(text: &[u8], lent: &mut [u8]) -> TextAnswer<u64> {
    checked_text(text)?;
    let sheet = sheet_of(&records(text));
    if lent.len() < sheet.len() {
        return Err(8.into());
    }
    lent[..sheet.len()].copy_from_slice(&sheet);
    Ok(sheet.len() as u64)
}

/// What `coverage sheet FILE SHEET` prints.
pub fn printed(text: &[u8], sheet: &[u8]) -> String {
    match check(text, sheet) {
        Ok(None) => "yes\n".to_string(),
        Ok(Some(record)) => format!("no {record}\n"),
        Err(refused) => format!("{}\n", refused.refusal),
    }
}
