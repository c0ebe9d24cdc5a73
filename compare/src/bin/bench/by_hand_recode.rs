//! The library's recoding of a text by word class, written by hand in ordinary safe Rust.

/// The most bytes of an expression, and how deep brackets may be nested.
const MOST_BYTES: usize = 200;
const DEEPEST: usize = 8;

/// A set of class bytes, with a bit for each.
type Classes = [u64; 4];

/// The class bytes that have bit 0, 1 and so on up to 7.
const LETTERS: [Classes; 8] = [
    [0xAAAA_AAAA_AAAA_AAAA; 4],
    [0xCCCC_CCCC_CCCC_CCCC; 4],
    [0xF0F0_F0F0_F0F0_F0F0; 4],
    [0xFF00_FF00_FF00_FF00; 4],
    [0xFFFF_0000_FFFF_0000; 4],
    [0xFFFF_FFFF_0000_0000; 4],
    [0, u64::MAX, 0, u64::MAX],
    [0, 0, u64::MAX, u64::MAX],
];

/// The bytes of an expression that are not read yet, and how deep the brackets read so far were nested.
struct Reader<'a> {
    rest: &'a [u8],
    deepest: usize,
}

impl Reader<'_> {
    /// Passes the next byte, if it is this one.
    fn passes(&mut self, byte: u8) -> bool {
        match self.rest {
            [first, rest @ ..] if *first == byte => {
                self.rest = rest;
                true
            }
            _ => false,
        }
    }

    /// Conjunctions with `|` between them, within so many brackets: the class bytes that meet one.
    fn alternative(&mut self, depth: usize) -> Option<Classes> {
        let mut met = self.conjunction(depth)?;
        while self.passes(b'|') {
            let other = self.conjunction(depth)?;
            met.iter_mut().zip(other).for_each(|(met, other)| *met |= other);
        }
        Some(met)
    }

    /// Factors with `&` between them: the class bytes that meet all.
    fn conjunction(&mut self, depth: usize) -> Option<Classes> {
        let mut met = self.factor(depth)?;
        while self.passes(b'&') {
            let other = self.factor(depth)?;
            met.iter_mut().zip(other).for_each(|(met, other)| *met &= other);
        }
        Some(met)
    }

    /// A letter or an alternative in brackets, with any number of `!` before it: the class bytes that meet it.
    fn factor(&mut self, depth: usize) -> Option<Classes> {
        let mut negated = false;
        while self.passes(b'!') {
            negated = !negated;
        }
        let (&first, rest) = self.rest.split_first()?;
        self.rest = rest;
        let met = match first {
            b'a'..=b'h' => LETTERS[usize::from(first - b'a')],
            b'(' => {
                self.deepest = self.deepest.max(depth + 1);
                let met = self.alternative(depth + 1)?;
                if !self.passes(b')') {
                    return None;
                }
                met
            }
            _ => return None,
        };
        Some(if negated { met.map(|block| !block) } else { met })
    }
}

/// The class bytes that meet the expression, if it is one, is not too long, and has no brackets too deep.
fn classes(expression: &[u8]) -> Option<Classes> {
    if expression.len() > MOST_BYTES {
        return None;
    }
    let mut reader = Reader { rest: expression, deepest: 0 };
    let met = reader.alternative(0)?;
    (reader.rest.is_empty() && reader.deepest <= DEEPEST).then_some(met)
}

/// Writes the text with the code for the words that are not 0 and whose class meets the expression: how many words, if nothing
/// is refused.
pub fn recode(text: &[u16], classes_of: &[u8], expression: &[u8], code: u16, out: &mut [u16]) -> Option<usize> {
    if text.len() > 20_000 || text.len() != classes_of.len() || code == 0 {
        return None;
    }
    let met = classes(expression)?;
    let out = out.get_mut(..text.len())?;
    for ((entry, &word), &class) in out.iter_mut().zip(text).zip(classes_of) {
        let meets = met[usize::from(class / 64)] >> (class % 64) & 1 == 1;
        *entry = if word != 0 && meets { code } else { word };
    }
    Some(text.len())
}
