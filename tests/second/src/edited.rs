//! Hand-edited texts for the comparisons: proper ones that a person exchanged, doubled, split and emptied parts of,
//! loose ones made from nothing, and cells covered by their parts. How they are found is no part of 02; a bad guess
//! here only makes a dull input.

use crate::coverage::{heading, FIRST, HEADING, LONGEST};
use crate::grid::LETTERS;
use crate::random::{Kind, Random};

const DIGITS: &[u8] = b"012345678";

/// A letter or digit, and its list if it has one.
#[derive(Clone)]
struct Node {
    mark: u8,
    list: Option<Vec<Node>>,
}

fn whole(mark: u8) -> Node {
    Node { mark, list: None }
}

fn listed(mark: u8, list: Vec<Node>) -> Node {
    let list = Some(list);
    Node { mark, list }
}

/// The nodes at the front of some bytes of the looser form, up to the end of their list.
fn read(bytes: &mut std::slice::Iter<u8>) -> Vec<Node> {
    let mut nodes: Vec<Node> = Vec::new();
    while let Some(&byte) = bytes.next() {
        match byte {
            b')' => break,
            b'(' => nodes.last_mut().expect("a mark before its list").list = Some(read(bytes)),
            mark => nodes.push(whole(mark)),
        }
    }
    nodes
}

/// The other way round; what lies too deep is left out.
fn put(nodes: &[Node], digits: usize, text: &mut Vec<u8>) {
    for node in nodes {
        text.push(node.mark);
        if let Some(list) = node.list.as_ref().filter(|_| digits < 15) {
            text.push(b'(');
            put(list, digits + 1, text);
            text.push(b')');
        }
    }
}

/// Does something to every list, the inmost first.
fn everywhere(nodes: &mut [Node], change: &mut impl FnMut(&mut [Node])) {
    for node in nodes.iter_mut() {
        if let Some(list) = &mut node.list {
            everywhere(list, change);
        }
    }
    change(nodes);
}

/// Cuts a text of the looser form to so many bytes at most, and closes what is open then.
fn cut(text: &mut Vec<u8>, length: usize) {
    if text.len() <= length {
        return;
    }
    let (mut end, mut open) = (HEADING.len(), 0);
    for (at, &byte) in text.iter().enumerate().skip(HEADING.len()) {
        match byte {
            b'(' => open += 1,
            b')' => open -= 1,
            _ => (),
        }
        if at + 1 + open > length {
            break;
        }
        end = at + 1;
    }
    text.truncate(end);
    let count = |bracket: u8| text.iter().filter(|&&byte| byte == bracket).count();
    let closing = vec![b')'; count(b'(') - count(b')')];
    text.extend(closing);
}

impl Random {
    fn shuffle<T>(&mut self, all: &mut [T]) {
        for nth in (1..all.len()).rev() {
            all.swap(nth, self.below(nth as u64 + 1) as usize);
        }
    }

    /// The body or some list, and how many digits stand around its nodes.
    fn some_list<'a>(
        &mut self,
        nodes: &'a mut Vec<Node>,
        digits: usize,
    ) -> (&'a mut Vec<Node>, usize) {
        let with: Vec<usize> = (0..nodes.len())
            .filter(|&nth| nodes[nth].list.is_some())
            .collect();
        if with.is_empty() || self.chance(4) {
            return (nodes, digits);
        }
        let nth = self.pick(&with);
        self.some_list(nodes[nth].list.as_mut().expect("a list"), digits + 1)
    }

    fn mark(&mut self, digits: usize) -> u8 {
        match digits {
            0 => self.pick(&LETTERS),
            _ => self.pick(DIGITS),
        }
    }

    /// One thing that a person does to a list.
    fn edit(&mut self, body: &mut Vec<Node>) {
        let (list, digits) = self.some_list(body, 0);
        if list.is_empty() {
            let mark = self.mark(digits);
            return list.push(whole(mark));
        }
        let nth = self.below(list.len() as u64) as usize;
        let other = self.below(list.len() as u64 + 1) as usize;
        match self.below(14) {
            0 => list.reverse(),
            1 => self.shuffle(list),
            2 => list.swap(nth, other.saturating_sub(1)),
            3 => list.insert(other, list[nth].clone()),
            4 => list.insert(other, whole(list[nth].mark)), // beside its own list, or twice
            5 => list[nth].list = None,
            6 => list[nth].list = Some(vec![]),
            7 => list[nth].list = Some(self.parts_of_whole(2)),
            8 => list.insert(other, listed(self.mark(digits), vec![])),
            9 => list[nth].mark = self.mark(digits),
            10 => drop(list.remove(nth)),
            11 => list.clear(),
            12 => {
                // its list in two
                let mut back = list[nth].clone();
                let Some(front) = &mut list[nth].list else {
                    return;
                };
                back.list = Some(front.split_off(self.below(front.len() as u64 + 1) as usize));
                list.insert(other, back);
            }
            _ => list.insert(other, whole(self.mark(digits))),
        }
    }

    /// Nodes that cover all of a cell, or all but a little, by parts of parts: in any order, some twice.
    fn parts_of_whole(&mut self, deeper: u64) -> Vec<Node> {
        let mut nodes: Vec<Node> = DIGITS.iter().map(|&digit| whole(digit)).collect();
        for node in &mut nodes {
            if deeper > 0 && self.chance(6) {
                node.list = Some(self.parts_of_whole(deeper - 1));
            }
        }
        if self.chance(3) {
            self.shuffle(&mut nodes);
        }
        if self.chance(8) {
            nodes.push(nodes[self.below(9) as usize].clone());
        }
        if self.chance(8) {
            nodes.remove(self.below(nodes.len() as u64) as usize);
        }
        if self.chance(12) {
            let nth = self.below(nodes.len() as u64) as usize;
            nodes[nth].list = Some(vec![]);
        }
        nodes
    }

    /// A chain of lists, at whose end a cell is covered by its parts; its siblings and theirs often are there too.
    fn covered_body(&mut self) -> Vec<Node> {
        let digits = self.pick(&[0, 0, 0, 1, 1, 2, 3, 5, 9, 12, 13, 14]);
        let mut body = vec![self.covered_face(digits)];
        for _ in 0..self.below(3) {
            let letter = self.pick(&LETTERS);
            let other = match self.below(3) {
                0 => whole(letter),
                1 => listed(letter, self.parts_of_whole(0)),
                _ => body[0].clone(),
            };
            body.insert(self.below(body.len() as u64 + 1) as usize, other);
        }
        body
    }

    /// One such chain in a face.
    fn covered_face(&mut self, digits: u64) -> Node {
        let deeper = (14 - digits).min(self.below(3));
        let mut nodes = self.parts_of_whole(deeper);
        for _ in 0..digits {
            let mut around: Vec<Node> = match self.chance(3) {
                true => DIGITS.iter().map(|&digit| whole(digit)).collect(),
                false => vec![whole(self.pick(DIGITS))],
            };
            let nth = self.below(around.len() as u64) as usize;
            around[nth].list = Some(nodes);
            nodes = around;
        }
        listed(self.pick(&LETTERS), nodes)
    }

    /// A body of the looser form of at most so many bytes, byte by byte, of few letters and digits.
    pub fn loose_body(&mut self, most: usize) -> Vec<u8> {
        let letters = [self.pick(&LETTERS), self.pick(&LETTERS)];
        let digits: Vec<u8> = match self.below(3) {
            0 => DIGITS.to_vec(),
            _ => vec![self.pick(DIGITS), self.pick(DIGITS)],
        };
        let (opens, closes) = (self.pick(&[2, 2, 3, 6]), self.pick(&[2, 4, 12]));
        let (mut body, mut open) = (Vec::new(), 0);
        while body.len() + open + 2 < most {
            let after_mark = body.last().is_some_and(|last| !b"()".contains(last));
            // no face is whole in a long body, which it would cover
            if after_mark && open < 15 && (open == 0 && most > 1000 || self.chance(opens)) {
                body.push(b'(');
                open += 1;
            } else if open > 0 && self.chance(closes) {
                body.push(b')');
                open -= 1;
            } else if open > 0 {
                body.push(self.pick(&digits));
            } else {
                body.push(self.pick(&letters));
            }
        }
        body.extend(vec![b')'; open]);
        body
    }

    /// A proper text, and then so many edits.
    fn edited_body(&mut self, length: usize, edits: u64) -> Vec<u8> {
        let proper = self.text_of_length(FIRST, length);
        let mut body = read(&mut proper[HEADING.len()..].iter());
        match self.below(8) {
            0 => everywhere(&mut body, &mut |list| list.reverse()),
            1 => everywhere(&mut body, &mut |list| self.shuffle(list)),
            _ => (),
        }
        for _ in 0..edits {
            self.edit(&mut body);
        }
        let mut text = Vec::new();
        put(&body, 0, &mut text);
        text
    }

    /// A text that a person may have edited. A bad one is spoilt by bytes, or is of another version.
    pub fn edited(&mut self, kind: Kind) -> Vec<u8> {
        let heading = heading(FIRST, self.below(4), self.below(4));
        let body = match kind {
            Kind::Random => {
                let most = self.pick(&[4, 10, 30, 60, 60, 120, 300]);
                let edits = self.pick(&[0, 1, 1, 1, 2, 3, 6]);
                let length = HEADING.len() + self.below(most) as usize;
                self.edited_body(length, edits)
            }
            Kind::Border if self.chance(2) => {
                let mut body = self.covered_body();
                for _ in 0..self.pick(&[0, 0, 1, 2]) {
                    self.edit(&mut body);
                }
                let mut text = Vec::new();
                put(&body, 0, &mut text);
                text
            }
            Kind::Border => {
                let most = self.pick(&[6, 12, 40, 100]);
                self.loose_body(most)
            }
            Kind::Bad if self.chance(5) => {
                let from = self.pick(&[Kind::Random, Kind::Border, Kind::Bad]);
                return self.text(from);
            }
            Kind::Bad => {
                let from = self.pick(&[Kind::Random, Kind::Border]);
                let mut text = self.edited(from);
                for _ in 0..self.pick(&[1, 1, 1, 2, 3]) {
                    self.damage(&mut text);
                }
                return text;
            }
        };
        [heading, body].concat()
    }

    /// A body of about so many bytes.
    fn long_body(&mut self, length: usize) -> Vec<u8> {
        let edits = self.pick(&[0, 1, 3, 100]);
        match self.below(4) {
            0 => self.loose_body(length - HEADING.len()),
            1 => {
                let mut body = Vec::new();
                while body.len() < length {
                    let digits = self.pick(&[2, 3, 4, 4, 5, 9, 14]);
                    put(&[self.covered_face(digits)], 0, &mut body);
                }
                body
            }
            _ => {
                let proper = length - self.pick(&[0, 10, 500]);
                self.edited_body(proper, edits)
            }
        }
    }

    /// A text about as long as a text may be, or longer, or half as long; one in eight is damaged.
    pub fn long_edited(&mut self) -> Vec<u8> {
        let length = match self.below(4) {
            0 => LONGEST / 2,
            1 => LONGEST - self.below(2000) as usize,
            _ => LONGEST,
        };
        let mut text = heading(FIRST, self.below(4), self.below(4));
        text.extend(self.long_body(length));
        cut(&mut text, length);
        let left = length - text.len();
        if left > 3 {
            text.extend([self.pick(&LETTERS), b'(']);
            text.resize(length - 1, b'4');
            text.push(b')');
        }
        if self.chance(8) {
            let at = self.below(text.len() as u64) as usize;
            text[at] = self.pick(b"()08NS9x");
        }
        if self.chance(8) {
            let more = self.pick(&[1, 2, 5000]);
            text.resize(LONGEST + more, b'O');
        }
        text
    }
}
