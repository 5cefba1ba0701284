//! What two texts cover: both are gone over at once, cell by cell, and a cell is looked into where one of them has a list for it. First the
//! listings are counted, then they are written.

use super::coverage::checked;
use super::NINE;
use jeguarivo::Compare;

/// How much of a cell a text covers.
#[derive(Clone, Copy, PartialEq)]
enum Portion {
    Nothing,
    Whole,
    List,
}

/// A text, and the place of the next byte.
struct Cursor<'a> {
    text: &'a [u8],
    at: usize,
}

impl Cursor<'_> {
    fn next_is(&self, byte: u8) -> bool {
        self.text.get(self.at) == Some(&byte)
    }

    /// How much is covered of the child with this letter or digit, where this portion of the parent is.
    fn child(&mut self, parent: Portion, byte: u8) -> Portion {
        if parent != Portion::List {
            return parent;
        }
        if !self.next_is(byte) {
            return Portion::Nothing;
        }
        self.at += 1;
        if !self.next_is(b'(') {
            return Portion::Whole;
        }
        self.at += 1;
        Portion::List
    }
}

/// The codes found of one ground, as far as there is room, their number and the sum of their sizes.
struct Listing<'a> {
    codes: &'a mut [u64],
    count: usize,
    size: u64,
}

impl<'a> Listing<'a> {
    fn new(codes: &'a mut [u64]) -> Listing<'a> {
        Listing {
            codes,
            count: 0,
            size: 0,
        }
    }
}

struct Comparison<'a> {
    first: Cursor<'a>,
    second: Cursor<'a>,
    /// Only the first, only the second, and both.
    listings: [Listing<'a>; 3],
    /// 4n + s.
    arrangement: u64,
}

impl Comparison<'_> {
    fn children(
        &mut self,
        x: Portion,
        y: Portion,
        bytes: std::ops::Range<u8>,
        resolution: u64,
        number: u64,
    ) {
        for (i, byte) in bytes.enumerate() {
            let (one, two) = (self.first.child(x, byte), self.second.child(y, byte));
            if one == Portion::List || two == Portion::List {
                self.inside(one, two, resolution, number + i as u64);
            } else {
                self.cell(one, two, resolution, number + i as u64);
            }
        }
    }

    fn inside(&mut self, x: Portion, y: Portion, resolution: u64, number: u64) {
        self.children(x, y, b'0'..b'9', resolution + 1, number * 9);
        for (portion, cursor) in [(x, &mut self.first), (y, &mut self.second)] {
            if portion == Portion::List {
                cursor.at += 1;
            }
        }
    }

    fn cell(&mut self, x: Portion, y: Portion, resolution: u64, number: u64) {
        let listing = match (x, y) {
            (Portion::Nothing, Portion::Nothing) => return,
            (_, Portion::Nothing) => &mut self.listings[0],
            (Portion::Nothing, _) => &mut self.listings[1],
            _ => &mut self.listings[2],
        };
        let size = NINE[15 - resolution as usize];
        if let Some(code) = listing.codes.get_mut(listing.count) {
            *code = (number * size) << 8 | resolution << 4 | self.arrangement;
        }
        listing.count += 1;
        listing.size += size;
    }
}

/// The numbers of cells and the sizes of the three listings, and their codes as far as there is room.
fn pass(
    texts: [&[u8]; 2],
    bodies: [usize; 2],
    arrangement: u64,
    rooms: [&mut [u64]; 3],
) -> [(usize, u64); 3] {
    let mut comparison = Comparison {
        first: Cursor {
            text: texts[0],
            at: bodies[0],
        },
        second: Cursor {
            text: texts[1],
            at: bodies[1],
        },
        listings: rooms.map(Listing::new),
        arrangement,
    };
    comparison.children(Portion::List, Portion::List, b'N'..b'T', 0, 0);
    comparison
        .listings
        .map(|listing| (listing.count, listing.size))
}

#[inline(never)]
#[allow(clippy::too_many_arguments)]
pub extern "C" fn coverage_compare(
    first: *const u8,
    first_length: usize,
    second: *const u8,
    second_length: usize,
    firsts: *mut u64,
    first_room: usize,
    seconds: *mut u64,
    second_room: usize,
    boths: *mut u64,
    both_room: usize,
) -> Compare {
    let texts = unsafe {
        [
            std::slice::from_raw_parts(first, first_length),
            std::slice::from_raw_parts(second, second_length),
        ]
    };
    let checks = texts.map(checked);
    if let Some(bad) = checks.iter().find(|check| check.refusal != 0) {
        return Compare {
            place: bad.place,
            ..Compare::refused(bad.refusal)
        };
    }
    if texts[0][5..7] != texts[1][5..7] {
        return Compare::refused(14);
    }
    let bodies = checks.map(|check| if check.version == 1 { 7 } else { 8 });
    let arrangement = checks[0].n << 2 | checks[0].s;
    let found = pass(texts, bodies, arrangement, [&mut [], &mut [], &mut []]);
    let rooms = [first_room, second_room, both_room];
    if found
        .iter()
        .zip(rooms)
        .any(|(listing, room)| room < listing.0)
    {
        return Compare::refused(8);
    }
    let lent = unsafe {
        [
            std::slice::from_raw_parts_mut(firsts, first_room),
            std::slice::from_raw_parts_mut(seconds, second_room),
            std::slice::from_raw_parts_mut(boths, both_room),
        ]
    };
    pass(texts, bodies, arrangement, lent);
    let [(first_cells, first_size), (second_cells, second_size), (both_cells, both_size)] =
        found.map(|(count, size)| (count as u64, size));
    Compare {
        refusal: 0,
        place: 0,
        first_cells,
        second_cells,
        both_cells,
        first_size,
        second_size,
        both_size,
    }
}
