//! A text recoded by word class.

use super::expressions::readings;
use super::limits::test_text;
use super::refusal::{answer, refuse, Refusal};
use crate::layout::Answer;

/// The most bytes of an expression.
const MOST_BYTES: usize = 200;

/// How deep brackets may be nested.
const DEEPEST: usize = 8;

/// An expression: which of the 256 class bytes meet it, or why it is refused.
pub struct Recoder {
    met: Result<[bool; 256], Refusal>,
}

impl Recoder {
    /// Reads the expression.
    pub fn new(expression: &[u8]) -> Recoder {
        Recoder { met: met(expression) }
    }

    /// Which class bytes meet the expression; none where it is refused.
    pub fn met(&self) -> Option<&[bool; 256]> {
        self.met.as_ref().ok()
    }

    /// The number that the expression is refused with, 0 if it is not.
    pub fn number(&self) -> u32 {
        self.met.map_or_else(|refusal| refusal.number, |_| 0)
    }

    /// Writes the text with the code for the words that are not 0 and whose class meets the expression, and answers how
    /// many words there are.
    pub fn recode(&self, text: &[u16], classes: &[u8], code: u16, out: &mut [u16]) -> Answer {
        answer(self.recoded(text, classes, code).and_then(|words| match out.get_mut(..words.len()) {
            None => refuse(8, 0),
            Some(start) => {
                start.copy_from_slice(&words);
                Ok(words.len() as u64)
            }
        }))
    }

    /// The text with the code for some of its words, or why there is none.
    fn recoded(&self, text: &[u16], classes: &[u8], code: u16) -> Result<Vec<u16>, Refusal> {
        test_text(text.len())?;
        if text.len() != classes.len() {
            return refuse(22, 0);
        }
        if code == 0 {
            return refuse(3, 0);
        }
        let met = self.met?;
        let mut words = text.to_vec();
        for (word, class) in words.iter_mut().zip(classes).filter(|(word, _)| **word != 0) {
            if met[usize::from(*class)] {
                *word = code;
            }
        }
        Ok(words)
    }
}

/// Which class bytes meet the expression, or why it is refused.
fn met(expression: &[u8]) -> Result<[bool; 256], Refusal> {
    if expression.len() > MOST_BYTES {
        return refuse(20, 0);
    }
    let trees = readings(expression);
    assert!(trees.len() <= 1, "{} has {} readings", expression.escape_ascii(), trees.len());
    match trees.first() {
        None => refuse(20, 0),
        Some(tree) if tree.depth() > DEEPEST => refuse(21, 0),
        Some(tree) => Ok(std::array::from_fn(|class| tree.meets(class as u8))),
    }
}
