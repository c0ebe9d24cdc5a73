//! Expressions as trees: all small ones and some at random, put in brackets, and the bytes that they are.

use std::rc::Rc;

use crate::brute::Tree::{self, And, Bit, Brackets, Not, Or};
use crate::rng::Rng;

/// How tightly the top of a tree binds: `|` least, `&` more, and a letter, a `!` or brackets most.
fn binding(tree: &Tree) -> u8 {
    match tree {
        Or(..) => 1,
        And(..) => 2,
        Bit(_) | Not(_) | Brackets(_) => 3,
    }
}

/// The parts of a tree, each with how tightly it must bind at least, so that it needs no brackets there. A row of `&` or
/// of `|` groups from the left, so the part on the right must bind more tightly.
fn parts(tree: &Tree) -> Vec<(&Rc<Tree>, u8)> {
    match tree {
        Bit(_) => Vec::new(),
        Not(part) => vec![(part, 3)],
        And(left, right) => vec![(left, 2), (right, 3)],
        Or(left, right) => vec![(left, 1), (right, 2)],
        Brackets(part) => vec![(part, 1)],
    }
}

/// Whether no part of the tree lacks brackets.
pub fn needs_no_brackets(tree: &Tree) -> bool {
    parts(tree).iter().all(|(part, least)| binding(part) >= *least && needs_no_brackets(part))
}

/// The bytes of a tree.
pub fn printed(tree: &Tree) -> Vec<u8> {
    match tree {
        Bit(number) => vec![b'a' + number],
        Not(part) => [b"!", &printed(part)[..]].concat(),
        And(left, right) => [printed(left), printed(right)].join(&b'&'),
        Or(left, right) => [printed(left), printed(right)].join(&b'|'),
        Brackets(part) => [b"(", &printed(part)[..], b")"].concat(),
    }
}

/// All trees of up to so many bytes over the first letters, those that lack brackets among them.
pub fn all_trees(letters: u8, bytes: usize) -> Vec<Rc<Tree>> {
    let mut of_length: Vec<Vec<Rc<Tree>>> = vec![Vec::new()];
    for length in 1..=bytes {
        let mut trees: Vec<Tree> = (0..letters).filter(|_| length == 1).map(Bit).collect();
        trees.extend(of_length[length - 1].iter().map(|part| Not(part.clone())));
        trees.extend(of_length[length.saturating_sub(2)].iter().map(|part| Brackets(part.clone())));
        for at in 1..length {
            for left in &of_length[at] {
                let rights = of_length[length - 1 - at].iter();
                trees.extend(rights.clone().map(|right| And(left.clone(), right.clone())));
                trees.extend(rights.map(|right| Or(left.clone(), right.clone())));
            }
        }
        of_length.push(trees.into_iter().map(Rc::new).collect());
    }
    of_length.concat()
}

/// What trees at random are like: how many letters they have, how often one is a `!`, and how often a part is put in
/// brackets that it does not need, each once in so many times.
#[derive(Clone, Copy)]
pub struct Shape {
    pub letters: (usize, usize),
    pub nots: usize,
    pub needless: usize,
}

/// A tree that needs no brackets but those it has.
pub fn any_tree(rng: &mut Rng, shape: &Shape) -> Rc<Tree> {
    let letters = rng.within(shape.letters.0, shape.letters.1);
    let tree = any_meaning(rng, letters, shape.nots);
    in_brackets(rng, &tree, 1, shape.needless)
}

/// A tree of so many letters without brackets.
fn any_meaning(rng: &mut Rng, letters: usize, nots: usize) -> Rc<Tree> {
    if rng.once_in(nots) {
        return Rc::new(Not(any_meaning(rng, letters, nots)));
    }
    if letters == 1 {
        return Rc::new(Bit(rng.within(0, 7) as u8));
    }
    let left = rng.within(1, letters - 1);
    let make = rng.pick(&[And, Or]);
    Rc::new(make(any_meaning(rng, left, nots), any_meaning(rng, letters - left, nots)))
}

/// The tree with brackets around each part that needs them, around it itself if it does not bind so tightly, and once in
/// so many times around a part that does not need them.
fn in_brackets(rng: &mut Rng, tree: &Tree, least: u8, needless: usize) -> Rc<Tree> {
    let parts: Vec<Rc<Tree>> =
        parts(tree).into_iter().map(|(part, least)| in_brackets(rng, part, least, needless)).collect();
    let mut whole = match (tree, &parts[..]) {
        (Not(_), [part]) => Not(part.clone()),
        (And(..), [left, right]) => And(left.clone(), right.clone()),
        (Or(..), [left, right]) => Or(left.clone(), right.clone()),
        (Brackets(_), [part]) => Brackets(part.clone()),
        _ => tree.clone(),
    };
    while binding(&whole) < least || rng.once_in(needless) {
        whole = Brackets(Rc::new(whole));
    }
    Rc::new(whole)
}
