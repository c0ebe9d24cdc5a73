//! Expressions of word classes: all readings of every part of the bytes, found by trying every split of it.

use std::rc::Rc;

/// A reading of an expression, its brackets included.
#[derive(Clone, Debug, PartialEq, Eq)]
pub enum Tree {
    /// The bit of this number of a class byte: 0, the lowest, for `a`, up to 7 for `h`.
    Bit(u8),
    Not(Rc<Tree>),
    And(Rc<Tree>, Rc<Tree>),
    Or(Rc<Tree>, Rc<Tree>),
    Brackets(Rc<Tree>),
}

impl Tree {
    /// Whether a class byte meets the expression.
    pub fn meets(&self, class: u8) -> bool {
        match self {
            Tree::Bit(number) => class / 2u8.pow(u32::from(*number)) % 2 == 1,
            Tree::Not(part) => !part.meets(class),
            Tree::And(left, right) => left.meets(class) && right.meets(class),
            Tree::Or(left, right) => left.meets(class) || right.meets(class),
            Tree::Brackets(part) => part.meets(class),
        }
    }

    /// How deep the brackets are nested: 0 where there are none.
    pub fn depth(&self) -> usize {
        match self {
            Tree::Bit(_) => 0,
            Tree::Not(part) => part.depth(),
            Tree::And(left, right) | Tree::Or(left, right) => left.depth().max(right.depth()),
            Tree::Brackets(part) => part.depth() + 1,
        }
    }
}

/// All readings of some bytes as one thing.
type Readings = Vec<Rc<Tree>>;

/// All readings of one part of an expression. A factor is a conjunction, too, and a conjunction an alternative.
struct Part {
    factors: Readings,
    conjunctions: Readings,
    alternatives: Readings,
}

/// An expression with the readings of its parts; a part that has none is left out.
struct Parts<'a> {
    bytes: &'a [u8],
    read: Vec<Option<Box<Part>>>,
    /// For each end, where the parts begin that end there and have readings.
    begun: Vec<Vec<usize>>,
}

/// All readings of the bytes as an expression: none where they are none.
pub fn readings(bytes: &[u8]) -> Vec<Rc<Tree>> {
    let ends = bytes.len() + 1;
    let read = (0..ends * ends).map(|_| None).collect();
    let mut parts = Parts { bytes, read, begun: vec![Vec::new(); ends] };
    for length in 1..=bytes.len() {
        for from in 0..=bytes.len() - length {
            parts.read_part(from, from + length);
        }
    }
    parts.of(0, bytes.len(), |part| &part.alternatives).to_vec()
}

impl Parts<'_> {
    /// The readings of one kind of the bytes from `from` up to `to`.
    fn of(&self, from: usize, to: usize, kind: fn(&Part) -> &Readings) -> &[Rc<Tree>] {
        self.read[from * self.begun.len() + to].as_deref().map_or(&[], |part| kind(part))
    }

    /// Where the parts begin that end at `to`, have readings, and stand right of this sign. Those found so far are shorter
    /// than the part that is split, so that there is a byte before each.
    fn splits(&self, to: usize, sign: u8) -> impl Iterator<Item = usize> + '_ {
        self.begun[to].iter().copied().filter(move |&begun| self.bytes[begun - 1] == sign)
    }

    /// Finds the readings of the bytes from `from` up to `to`, once those of all shorter parts are found.
    fn read_part(&mut self, from: usize, to: usize) {
        let factors = self.factors(from, to);
        let mut conjunctions = factors.clone();
        for begun in self.splits(to, b'&') {
            let left = self.of(from, begun - 1, |part| &part.conjunctions);
            conjunctions.extend(pairs(left, self.of(begun, to, |part| &part.factors), Tree::And));
        }
        let mut alternatives = conjunctions.clone();
        for begun in self.splits(to, b'|') {
            let left = self.of(from, begun - 1, |part| &part.alternatives);
            alternatives.extend(pairs(left, self.of(begun, to, |part| &part.conjunctions), Tree::Or));
        }
        if !alternatives.is_empty() {
            self.begun[to].push(from);
            let part = Part { factors, conjunctions, alternatives };
            self.read[from * self.begun.len() + to] = Some(Box::new(part));
        }
    }

    /// The readings of the bytes from `from` up to `to` as a letter, as a `!` with a factor, and as brackets.
    fn factors(&self, from: usize, to: usize) -> Readings {
        match self.bytes[from..to] {
            [letter @ b'a'..=b'h'] => vec![Rc::new(Tree::Bit(letter - b'a'))],
            [b'!', ..] => within(self.of(from + 1, to, |part| &part.factors), Tree::Not),
            [b'(', .., b')'] => within(self.of(from + 1, to - 1, |part| &part.alternatives), Tree::Brackets),
            _ => Vec::new(),
        }
    }
}

/// Each of the readings put into another.
fn within(parts: &[Rc<Tree>], make: fn(Rc<Tree>) -> Tree) -> Readings {
    parts.iter().map(|part| Rc::new(make(part.clone()))).collect()
}

/// Every reading on the left with every one on the right.
fn pairs<'a>(
    left: &'a [Rc<Tree>],
    right: &'a [Rc<Tree>],
    make: fn(Rc<Tree>, Rc<Tree>) -> Tree,
) -> impl Iterator<Item = Rc<Tree>> + 'a {
    left.iter().flat_map(move |one| right.iter().map(move |other| Rc::new(make(one.clone(), other.clone()))))
}
