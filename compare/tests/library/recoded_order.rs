//! Several failures of recoding at once, so that the order of the tests is seen: 6, 22, 3, 20, 21, 8.

use compare::brute::Recoder;
use compare::cases::expressions::{long, nested};
use compare::layout::Answer;

use crate::recoded::Given;
use crate::run::Run;

/// The failures by their bits, in the order in which they are tested.
const TEXT: usize = 1;
const CLASSES: usize = 2;
const CODE: usize = 4;
const EXPRESSION: usize = 8;
const DEPTH: usize = 16;
const LIST: usize = 32;

/// The number of each failure.
const NUMBERS: [(usize, u32); 6] = [(TEXT, 6), (CLASSES, 22), (CODE, 3), (EXPRESSION, 20), (DEPTH, 21), (LIST, 8)];

/// Expressions with no failure, wrong or too long ones, deep ones, and deep ones that are wrong or too long.
struct Expressions([Vec<Vec<u8>>; 4]);

impl Expressions {
    /// Some of each, of one byte and of 200 among them.
    fn new() -> Expressions {
        let bytes =
            |expressions: &[&str]| expressions.iter().map(|expression| expression.as_bytes().to_vec()).collect();
        let ((right, deep), (longer, longer_deep)) = (long(200), long(201));
        let [eight, nine] = [nested(8), nested(9)].map(|mut expressions| expressions.swap_remove(4));
        let unclosed = &nine[..nine.len() - 1];
        Expressions([
            bytes(&["a", &right[6], &eight]),
            bytes(&["a&", "", &longer[6], "i"]),
            bytes(&[&nine, &deep]),
            bytes(&[unclosed, &longer_deep, &nine.replace('d', "D")]),
        ])
    }

    /// Those with these failures.
    fn with(&self, failures: usize) -> &[Vec<u8>] {
        &self.0[failures / EXPRESSION % 4]
    }
}

/// Compares every set of failures, each failure in several forms.
pub fn run(run: &mut Run) {
    let expressions = Expressions::new();
    for failures in 0..64 {
        let text = vec![7; if failures & TEXT == 0 { 20 } else { 20_001 }];
        let class_counts = if failures & CLASSES == 0 { vec![0] } else { vec![-1, 1, 20, -20] };
        let codes = if failures & CODE == 0 { &[1, 7, 65_535][..] } else { &[0] };
        for more in class_counts {
            let classes = vec![3; text.len().saturating_add_signed(more)];
            for expression in expressions.with(failures) {
                for &code in codes {
                    run.input();
                    let given = Given { text: &text, classes: &classes, expression, code };
                    every_list(run, &given, failures);
                }
            }
        }
    }
}

/// Compares an input that has these failures with lists that are too short or not, as they say.
fn every_list(run: &mut Run, given: &Given, failures: usize) {
    let recoder = Recoder::new(given.expression);
    let words = given.text.len();
    let rooms = if failures & LIST == 0 { [words, words + 1, words + 30] } else { [0, 1, words - 1] };
    for room in rooms {
        let (answer, _) = given.compare(run, &recoder, room);
        let number = NUMBERS.into_iter().find(|(failure, _)| failures & failure != 0).map_or(0, |(_, number)| number);
        let value = if number == 0 { words as u64 } else { 0 };
        let case = || format!("failures {failures:06b}, by \"{}\"", given.expression.escape_ascii());
        run.agree(&answer, &Answer { number, place: 0, value }, case);
    }
}
