//! Document 02's W-205, what you flew and I did not: "ground only in the first, only in the second,
//! and in both, each as the fewest cells in rising order", of two coverage texts.
//!
//! The grounds are ranges of finest cells. What is in one and not in the other is what is left of
//! its ranges when those of the other are cut out, and what is in both is what is left of the one
//! when that is cut out again.

use crate::coverage::{arrangement_of_text, checked_text, fewest, ground_of_text, ground_size};
use crate::coverage::{name_of_span, Ground, Refused, Span, TextAnswer};
use crate::grid::{code_of, Name};

/// How many cells each listing has, and the sum of their sizes: first only, second only, both.
#[derive(Clone, Copy, Debug, PartialEq, Eq)]
pub struct Compared {
    pub cells: [u64; 3],
    pub sizes: [u64; 3],
}

/// The finest cells of one ground that are not in the other. Ranges rise in both, so a range of the
/// other that ends before one of the first is past for all that follow.
pub fn without(ground: &Ground, other: &Ground) -> Ground {
    let mut left = Ground::new();
    let mut cuts = other.iter().peekable();
    for range in ground {
        let mut from = range.start;
        while let Some(cut) = cuts.next_if(|cut| cut.end <= range.end) {
            if from < cut.start {
                left.push(from..cut.start);
            }
            from = from.max(cut.end);
        }
        // one that ends later may begin here
        let to = cuts
            .peek()
            .map_or(range.end, |cut| cut.start.min(range.end));
        if from < to {
            left.push(from..to);
        }
    }
    left
}

/// The three grounds of two accepted texts.
pub fn grounds(first: &[u8], second: &[u8]) -> [Ground; 3] {
    let (first, second) = (ground_of_text(first), ground_of_text(second));
    let first_only = without(&first, &second);
    let both = without(&first, &first_only);
    [first_only, without(&second, &first), both]
}

/// The names of the fewest cells of a ground.
pub fn names(ground: &Ground) -> Vec<Name> {
    fewest(ground)
        .iter()
        .map(|span: &Span| name_of_span(span))
        .collect()
}

/// The codes of the three listings, to the front of each lent memory; refuses the first text's 13,
/// 10, 9, the second's, "14 for differing n or s, after both texts are read in order; 8 last, if
/// any room is short".
pub fn compare(first: &[u8], second: &[u8], lent: [&mut [u64]; 3]) -> TextAnswer<Compared> {
    checked_text(first)?;
    checked_text(second)?;
    let (n, s) = arrangement_of_text(first);
    if (n, s) != arrangement_of_text(second) {
        return Err(14.into());
    }
    let grounds = grounds(first, second);
    let codes = |ground: &Ground| -> Vec<u64> {
        names(ground)
            .iter()
            .map(|name| code_of(n, s, name))
            .collect()
    };
    let listings = grounds.each_ref().map(codes);
    if listings
        .iter()
        .zip(&lent)
        .any(|(codes, room)| room.len() < codes.len())
    {
        return Err(8.into());
    }
    for (codes, room) in listings.iter().zip(lent) {
        room[..codes.len()].copy_from_slice(codes);
    }
    Ok(Compared {
        cells: listings.each_ref().map(|codes| codes.len() as u64),
        sizes: grounds.each_ref().map(ground_size),
    })
}

/// The rooms that the program lends.
pub const PROGRAM_ROOM: usize = 65_536;

/// What the program prints: "names, one a line, an empty line after each listing, or the refusal
/// number alone on its line".
pub fn printed(first: &[u8], second: &[u8]) -> Vec<u8> {
    let mut rooms = [(); 3].map(|_| vec![0; PROGRAM_ROOM]);
    let [one, two, three] = &mut rooms;
    if let Err(Refused { refusal, .. }) = compare(first, second, [one, two, three]) {
        return format!("{refusal}\n").into_bytes();
    }
    let mut lines = Vec::new();
    for ground in grounds(first, second) {
        for name in names(&ground) {
            lines.extend(name);
            lines.push(b'\n');
        }
        lines.push(b'\n');
    }
    lines
}
