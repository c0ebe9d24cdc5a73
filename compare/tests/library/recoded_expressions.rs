//! Expressions that texts are recoded by: at random, damaged, deep, and long.

use compare::brute::Tree;
use compare::cases::expressions::{long, nested};
use compare::cases::files::damages_at;
use compare::cases::trees::{any_tree, printed, Shape};
use compare::rng::Rng;

use crate::recoded::{every_class, expect};
use crate::run::Run;

/// What the trees at random are like: short, with many `!`, with many brackets, of medium length, and long.
const SHAPES: [Shape; 6] = [
    Shape { letters: (1, 8), nots: 5, needless: 8 },
    Shape { letters: (1, 10), nots: 2, needless: 20 },
    Shape { letters: (1, 8), nots: 6, needless: 2 },
    Shape { letters: (2, 6), nots: 4, needless: 2 },
    Shape { letters: (10, 25), nots: 5, needless: 9 },
    Shape { letters: (30, 60), nots: 9, needless: 30 },
];

/// Bytes that are put in and put for others: all that expressions have, and some next to them.
const BYTES: &[u8] = b"abgh!&|()iA` \0\n\xE1";

/// The fewest expressions at random that must be accepted, refused with 20, and refused with 21.
const FEWEST: [usize; 3] = [5_000, 5_000, 500];

/// Expressions that are damaged in every way.
const DAMAGED: [&str; 6] = ["a", "(a|b)&!c", "!!a&b|!(c&!d)|e", "((a)|(b&(c)))&!h", "a|b|c&d&e|f", "!(!(!(g)))"];

/// Compares expressions of every kind.
pub fn run(run: &mut Run) {
    at_random(run);
    damaged(run);
    deep(run);
    long_ones(run);
}

/// The number that a right expression of this tree is refused with, or the class bytes that meet it.
fn stated(tree: &Tree, bytes: usize) -> Result<[bool; 256], u32> {
    match (bytes, tree.depth()) {
        (201.., _) => Err(20),
        (_, 9..) => Err(21),
        _ => Ok(std::array::from_fn(|class| tree.meets(class as u8))),
    }
}

/// Compares trees at random, and their bytes damaged.
fn at_random(run: &mut Run) {
    let mut rng = Rng::new(171);
    let mut seen = [0; 3];
    for round in 0..9_000 {
        let tree = any_tree(&mut rng, &SHAPES[round % SHAPES.len()]);
        let mut expression = printed(&tree);
        let expected = stated(&tree, expression.len());
        expect(run, &expression, expected);
        let damages = rng.within(1, 3);
        for _ in 0..damages {
            expression = damaged_once(&mut rng, &expression);
        }
        for outcome in [expected, every_class(run, &expression)] {
            seen[outcome.map_or_else(|number| number as usize - 19, |_| 0)] += 1;
        }
    }
    assert!(seen.iter().zip(FEWEST).all(|(&seen, fewest)| seen >= fewest), "{seen:?} accepted, 20, 21");
}

/// The expression with two neighbours exchanged, or one damage of another kind, seldom a cut.
fn damaged_once(rng: &mut Rng, expression: &[u8]) -> Vec<u8> {
    if expression.is_empty() {
        return vec![rng.pick(BYTES)];
    }
    let at = rng.within(0, expression.len() - 1);
    if rng.once_in(4) {
        return exchanged(expression, at, rng.within(0, expression.len() - 1));
    }
    let mut damages = damages_at(expression, at, &[rng.pick(BYTES)]);
    let first = if rng.once_in(8) { 0 } else { 1 };
    let chosen = rng.within(first, damages.len() - 1);
    damages.swap_remove(chosen)
}

/// The expression with two bytes exchanged.
fn exchanged(expression: &[u8], one: usize, other: usize) -> Vec<u8> {
    let mut bytes = expression.to_vec();
    bytes.swap(one, other);
    bytes
}

/// Compares expressions that are damaged in every way, with any byte put in or put for another, and with any two
/// exchanged; and one of 200 bytes, with few bytes.
fn damaged(run: &mut Run) {
    let every_byte: Vec<u8> = (0..=255).collect();
    for expression in DAMAGED {
        everywhere(run, expression.as_bytes(), &every_byte);
        for (one, other) in (0..expression.len()).flat_map(|one| (0..one).map(move |other| (one, other))) {
            let _ = every_class(run, &exchanged(expression.as_bytes(), one, other));
        }
    }
    let (right, deep) = long(200);
    for expression in [&right[4], &deep] {
        everywhere(run, expression.as_bytes(), b")");
    }
}

/// Compares an expression damaged at every byte.
fn everywhere(run: &mut Run, expression: &[u8], bytes: &[u8]) {
    for at in 0..expression.len() {
        for damaged in damages_at(expression, at, bytes) {
            let _ = every_class(run, &damaged);
        }
    }
}

/// Compares brackets of every depth, right ones, ones with a byte left off, doubled or changed, and with one bracket more.
fn deep(run: &mut Run) {
    for depth in (1..=12).chain([16, 20, 32, 33, 49, 50, 64, 65, 66, 67, 99, 100]) {
        for expression in nested(depth) {
            let number = if expression.len() > 200 { 20 } else { 21 };
            let outcome = every_class(run, expression.as_bytes());
            let refused = if depth > 8 || number == 20 { Some(number) } else { None };
            run.agree(&outcome.err(), &refused, || format!("{expression}, {depth} deep"));
            for wrong in [format!("({expression}"), format!("{expression})"), format!("{expression}|")] {
                expect(run, wrong.as_bytes(), Err(20));
            }
            if (7..=10).contains(&depth) {
                everywhere(run, expression.as_bytes(), b"a!(");
            }
        }
    }
}

/// Compares right expressions of lengths around 200 and far from it, deep ones, and wrong ones of the same lengths.
fn long_ones(run: &mut Run) {
    let lengths = (190..=210).chain([100, 150, 254, 255, 256, 257, 300, 400, 455, 456, 457, 1_000]);
    for bytes in lengths.chain([65_535, 65_536, 65_537, 65_736, 65_737]) {
        let (right, deep) = long(bytes);
        let number = |number: u32| if bytes > 200 { 20 } else { number };
        for expression in &right {
            let outcome = every_class(run, expression.as_bytes());
            let refused = if bytes > 200 { Some(20) } else { None };
            run.agree(&outcome.err(), &refused, || format!("{bytes} bytes: {expression}"));
            let wrong = [&expression[..bytes - 1], &expression[1..]].map(str::as_bytes);
            let wrong = [[wrong[0], b"&"].concat(), [b"|", wrong[1]].concat(), [wrong[0], b"i"].concat()];
            wrong.iter().for_each(|wrong| expect(run, wrong, Err(20)));
        }
        expect(run, deep.as_bytes(), Err(number(21)));
        for byte in *b"a!&|() \0" {
            expect(run, &vec![byte; bytes], Err(20));
        }
    }
}
