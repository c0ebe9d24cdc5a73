//! Texts recoded by word class: expressions put down by hand, and all small ones.

use compare::brute::Recoder;
use compare::cases::expressions::{bits, MEANT, WRONG};
use compare::ffi;
use compare::layout::Answer;

use crate::call::Call;
use crate::lent::{Fenced, Lent};
use crate::run::Run;
use crate::{recoded_expressions, recoded_order, recoded_own, recoded_texts};

/// A code that is no word of the text in which each class byte comes up.
const CODE: u16 = 1_000;

/// What is handed to a call, but for the list that it writes to.
#[derive(Clone, Copy)]
pub struct Given<'a> {
    pub text: &'a [u16],
    pub classes: &'a [u8],
    pub expression: &'a [u8],
    pub code: u16,
}

/// Compares recoded texts.
pub fn run(run: &mut Run) {
    by_hand(run);
    for (symbols, longest) in [(&b"ab!&|()"[..], 7), (b"abcdefgh!&|()", 4)] {
        every_small(run, symbols, longest);
    }
    recoded_expressions::run(run);
    recoded_texts::run(run);
    recoded_order::run(run);
    recoded_own::run(run);
}

impl Given<'_> {
    /// The call written out.
    fn case(&self, room: usize) -> String {
        let Given { text, classes, expression, code } = self;
        let expression = expression.escape_ascii();
        let call = format!("{} by \"{expression}\" to {code} with {room} words lent", Call::Recode);
        format!("{call}\ntext: {text:?}\nclasses: {classes:?}")
    }

    /// Compares the call with so many words lent, and gives what the library answers and the list after it.
    pub fn compare(&self, run: &mut Run, recoder: &Recoder, room: usize) -> (Answer, Lent<u16>) {
        let Given { text, classes, expression, code } = *self;
        let (mut lent, mut expected) = (Lent::places(room), Lent::places(room));
        let library = ffi::recode(text, classes, Fenced::expression(expression).part(), code, lent.part());
        let brute = recoder.recode(text, classes, code, expected.part());
        run.agree(&library, &brute, || self.case(room));
        run.agree(&lent, &expected, || self.case(room));
        run.call(Call::Recode, library.number);
        (library, lent)
    }

    /// Begins an input, and compares the call with lists of every interesting length lent: none, one word too few, just
    /// enough, one more, and many more.
    pub fn compare_all(&self, run: &mut Run, recoder: &Recoder) {
        run.input();
        let words = self.text.len();
        let mut rooms = vec![0, words.saturating_sub(1), words, words + 1, words + 37];
        rooms.dedup();
        for room in rooms {
            self.compare(run, recoder, room);
        }
    }
}

/// Compares an expression on a text in which each class byte comes up once: the number that it is refused with, or the
/// class bytes that meet it as the library says.
pub fn every_class(run: &mut Run, expression: &[u8]) -> Result<[bool; 256], u32> {
    run.input();
    let text: [u16; 256] = std::array::from_fn(|class| class as u16 + 1);
    let classes: [u8; 256] = std::array::from_fn(|class| class as u8);
    let given = Given { text: &text, classes: &classes, expression, code: CODE };
    let (answer, mut lent) = given.compare(run, &Recoder::new(expression), 256);
    match answer.number {
        0 => Ok(std::array::from_fn(|class| lent.part()[class] == CODE)),
        number => Err(number),
    }
}

/// Compares an expression as above, and holds the library to this outcome.
pub fn expect(run: &mut Run, expression: &[u8], expected: Result<[bool; 256], u32>) {
    let library = every_class(run, expression);
    let case = || format!("{} by \"{}\", as stated", Call::Recode, expression.escape_ascii());
    run.agree(&library, &expected, case);
}

/// Compares the expressions put down by hand, right and wrong, and every byte alone.
fn by_hand(run: &mut Run) {
    for (expression, meant) in MEANT {
        expect(run, expression.as_bytes(), Ok(std::array::from_fn(|class| meant(bits(class as u8)))));
    }
    for wrong in WRONG {
        expect(run, wrong.as_bytes(), Err(20));
    }
    for byte in 0..=255 {
        let bit = byte - b'a'.min(byte);
        match byte {
            b'a'..=b'h' => expect(run, &[byte], Ok(std::array::from_fn(|class| class >> bit & 1 == 1))),
            _ => expect(run, &[byte], Err(20)),
        }
    }
}

/// Compares everything over these symbols up to a length.
fn every_small(run: &mut Run, symbols: &[u8], longest: u32) {
    for length in 0..=longest {
        for number in 0..symbols.len().pow(length) {
            let symbol = |at: u32| symbols[number / symbols.len().pow(at) % symbols.len()];
            let expression: Vec<u8> = (0..length).map(symbol).collect();
            let _ = every_class(run, &expression);
        }
    }
}
