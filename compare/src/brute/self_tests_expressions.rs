//! Expressions in the brute force: worked by hand, and read in three ways.

use std::collections::BTreeMap;
use std::rc::Rc;

use super::crossed_out::{crossed_out, open};
use super::expressions::readings;
use super::Tree::{And, Bit, Brackets, Not, Or};
use super::*;
use crate::cases::expressions::{bits, MEANT, WRONG};
use crate::cases::files::damages_at;
use crate::cases::small::texts;
use crate::cases::trees::{all_trees, any_tree, needs_no_brackets, printed, Shape};
use crate::rng::Rng;

/// The number that an expression is refused with, 0 if it is not.
fn refused(expression: &[u8]) -> u32 {
    Recoder::new(expression).number()
}

/// The expressions by hand: which class bytes meet them, in brackets as well, and negated.
#[test]
fn meant_by_hand() {
    for (expression, meant) in MEANT {
        let met = |expression: &str| *Recoder::new(expression.as_bytes()).met().expect(expression);
        let expected: [bool; 256] = std::array::from_fn(|class| meant(bits(class as u8)));
        assert_eq!(met(expression), expected, "{expression}");
        assert!((0..=255).all(|class| crossed_out(expression.as_bytes(), class) == Some(meant(bits(class)))));
        if open(expression.as_bytes()) < 8 {
            assert_eq!(met(&format!("({expression})")), expected);
            assert_eq!(met(&format!("!({expression})")), expected.map(|met| !met));
        }
    }
}

/// The truth for each of the class bytes 0 to 7, in whose bits the letters `a` to `c` run through all they can be.
#[test]
fn truth_by_hand() {
    let truth = [
        ("a", "01010101"),
        ("b", "00110011"),
        ("c", "00001111"),
        ("!a", "10101010"),
        ("a&b", "00010001"),
        ("a|b", "01110111"),
        ("a|b&c", "01010111"),
        ("a&b|c", "00011111"),
        ("(a|b)&c", "00000111"),
        ("a&(b|c)", "00010101"),
        ("!a&b", "00100010"),
        ("!(a&b)", "11101110"),
        ("!a|b", "10111011"),
        ("!(a|b)", "10001000"),
        ("!!a&!b|!!!c", "11110100"),
        ("!(a|b)&c|b", "00111011"),
        ("h|g&f", "00000000"),
    ];
    for (expression, truth) in truth {
        let met = *Recoder::new(expression.as_bytes()).met().expect(expression);
        let said: String = met[..8].iter().map(|&met| if met { '1' } else { '0' }).collect();
        assert_eq!(said, truth, "{expression}");
    }
}

/// The readings of some expressions, written out.
#[test]
fn readings_by_hand() {
    let [a, b, c] = [0, 1, 2].map(|number| Rc::new(Bit(number)));
    let and = |left: &Rc<Tree>, right: &Rc<Tree>| Rc::new(And(left.clone(), right.clone()));
    let or = |left: &Rc<Tree>, right: &Rc<Tree>| Rc::new(Or(left.clone(), right.clone()));
    let not = |part: &Rc<Tree>| Rc::new(Not(part.clone()));
    let brackets = |part: Rc<Tree>| Rc::new(Brackets(part));
    let read = [
        ("a|b|c", or(&or(&a, &b), &c)),
        ("a&b&c", and(&and(&a, &b), &c)),
        ("a|b&c", or(&a, &and(&b, &c))),
        ("a&b|c", or(&and(&a, &b), &c)),
        ("a&(b&c)", and(&a, &brackets(and(&b, &c)))),
        ("!a&b", and(&not(&a), &b)),
        ("!!(a|b)", not(&not(&brackets(or(&a, &b))))),
        ("((c))", brackets(brackets(c.clone()))),
    ];
    for (expression, tree) in read {
        assert_eq!(readings(expression.as_bytes()), [tree]);
    }
}

/// What is no expression by hand, alone and within others; and every byte alone.
#[test]
fn wrong_by_hand() {
    for wrong in WRONG {
        assert_eq!(refused(wrong.as_bytes()), 20, "{wrong}");
        assert_eq!(crossed_out(wrong.as_bytes(), 0), None);
        for around in [format!("a|{wrong}|b"), format!("({wrong})"), format!("!{wrong}&a")] {
            assert_eq!(refused(around.as_bytes()), 20, "{around}");
        }
    }
    for byte in 0..=255 {
        let number = if (b'a'..=b'h').contains(&byte) { 0 } else { 20 };
        assert_eq!(refused(&[byte]), number);
    }
}

/// All strings over these bytes up to a length: the right ones are just those that the trees which lack no brackets are
/// printed as, no two as the same; each has that tree for its one reading, and crossing out says the same.
fn every_small(symbols: &[u8], letters: u8, longest: usize) -> usize {
    let trees = all_trees(letters, longest);
    let whole = || trees.iter().filter(|tree| needs_no_brackets(tree));
    let by_bytes: BTreeMap<Vec<u8>, &Rc<Tree>> = whole().map(|tree| (printed(tree), tree)).collect();
    assert_eq!(by_bytes.len(), whole().count());
    let symbols: Vec<u16> = symbols.iter().copied().map(u16::from).collect();
    for expression in texts(&symbols, longest) {
        let expression: Vec<u8> = expression.into_iter().map(|byte| byte as u8).collect();
        let read = readings(&expression);
        let expected: Vec<Rc<Tree>> = by_bytes.get(&expression).into_iter().map(|tree| (*tree).clone()).collect();
        assert_eq!(read, expected, "{}", expression.escape_ascii());
        let Some(tree) = read.first() else {
            assert_eq!(crossed_out(&expression, 0), None);
            continue;
        };
        assert!((0..1 << letters).all(|class| crossed_out(&expression, class) == Some(tree.meets(class))));
    }
    by_bytes.len()
}

/// All small strings, over two letters, three, and one.
#[test]
fn every_small_expression() {
    assert_eq!(every_small(b"ab!&|()", 2, 6), 344);
    assert_eq!(every_small(b"abc!&|()", 3, 5), 306);
    assert_eq!(every_small(b"a!&|()", 1, 7), 207);
}

/// What the trees at random are like: short, with many `!`, with many brackets, and long.
const SHAPES: [Shape; 4] = [
    Shape { letters: (1, 8), nots: 5, needless: 8 },
    Shape { letters: (1, 20), nots: 2, needless: 20 },
    Shape { letters: (1, 12), nots: 6, needless: 2 },
    Shape { letters: (25, 45), nots: 9, needless: 30 },
];

/// Trees at random are the one reading of what they are printed as; its depth is counted, and crossing out says the same.
#[test]
fn trees_at_random() {
    let mut rng = Rng::new(8);
    let mut numbers = BTreeMap::new();
    for round in 0..400 {
        let tree = any_tree(&mut rng, &SHAPES[round % SHAPES.len()]);
        let expression = printed(&tree);
        if expression.len() > 200 {
            continue;
        }
        assert!(needs_no_brackets(&tree));
        assert_eq!(readings(&expression), std::slice::from_ref(&tree));
        assert_eq!(open(&expression), tree.depth());
        for class in (0..4).map(|_| rng.within(0, 255) as u8) {
            assert_eq!(crossed_out(&expression, class), Some(tree.meets(class)));
        }
        *numbers.entry(refused(&expression)).or_insert(0) += 1;
        let at = rng.within(0, expression.len() - 1);
        for damaged in damages_at(&expression, at, b"ah!&|()i") {
            let right = crossed_out(&damaged, 0).is_some();
            let deep = right && open(&damaged) > 8;
            let expected = if damaged.len() > 200 || !right { 20 } else { u32::from(deep) * 21 };
            assert_eq!(refused(&damaged), expected, "{}", damaged.escape_ascii());
        }
    }
    assert!(numbers[&0] > 200 && numbers[&21] > 20, "{numbers:?}");
}
