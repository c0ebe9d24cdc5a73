//! The library's recoded texts held to each other, and what it counts in them.

use compare::brute::{Brute, Recoder};
use compare::cases::expressions::any_classes;
use compare::cases::random::{any_pattern, any_text, Kind};
use compare::cases::trees::{any_tree, printed, Shape};
use compare::cases::Words::{But, Only};
use compare::cases::{pattern, Words, Written};
use compare::ffi;
use compare::layout::{Answer, Pattern, Slot};
use compare::rng::Rng;

use crate::alone::{listed, number, LISTS, NUMBERS};
use crate::both::Both;
use crate::call::Call;
use crate::recoded::Given;
use crate::run::Run;

/// What the expressions are like.
const SHAPE: Shape = Shape { letters: (1, 6), nots: 4, needless: 9 };

/// What the patterns are like: short, of medium reach, and with more slots.
const KINDS: [Kind; 3] = [
    Kind { slots: (1, 3), highest_word: 4, most_words: 3, widest_gap: 4 },
    Kind { slots: (2, 4), highest_word: 8, most_words: 5, widest_gap: 3 },
    Kind { slots: (5, 9), highest_word: 2, most_words: 2, widest_gap: 1 },
];

/// The most occurrences that are listed.
const LISTED: u128 = 500;

/// The most rows of a list that are asked about one by one.
const ROWS: usize = 20;

/// The fewest rows with the code at some place that must be occurrences, by class bytes of places and of words.
const FEWEST: usize = 10_000;

/// Compares recoded texts with each other, and what is counted in them.
pub fn run(run: &mut Run) {
    two_expressions(run);
    let mut rng = Rng::new(175);
    let mut rows = [0; 2];
    for round in 0..6_000 {
        let kind = &KINDS[round % KINDS.len()];
        rows[0] += classes_of_places(run, &mut rng, kind);
        rows[1] += classes_of_words(run, &mut rng, kind);
    }
    assert!(rows.iter().all(|&rows| rows >= FEWEST), "{rows:?} rows have the code");
}

/// An accepted expression, so little nested and so short that two of them make one, in brackets.
fn any_expression(rng: &mut Rng) -> Vec<u8> {
    loop {
        let tree = any_tree(rng, &SHAPE);
        let expression = printed(&tree);
        if tree.depth() < 8 && expression.len() <= 90 {
            return expression;
        }
    }
}

/// What the library recodes an accepted input to, with just as many words lent as it needs.
fn recoded(given: &Given) -> Vec<u16> {
    let Given { text, classes, expression, code } = *given;
    let mut words = vec![30_000; text.len()];
    let answer = ffi::recode(text, classes, expression, code, &mut words);
    let written = Answer { number: 0, place: 0, value: text.len() as u64 };
    assert_eq!(answer, written, "recoded by {}", expression.escape_ascii());
    words
}

/// Holds the library to recoding, with the negated expression, just the other words that are not 0; with two expressions
/// joined, the words of both or of either; a recoded text to itself; and two texts one after the other to both in turn.
fn two_expressions(run: &mut Run) {
    let mut rng = Rng::new(174);
    for _ in 0..5_000 {
        run.input();
        let (words, highest) = (rng.within(0, 60), rng.pick(&[1, 4, 300, 65_534]));
        let (text, classes) = (any_text(&mut rng, words, highest), any_classes(&mut rng, words));
        let [one, other] = [(); 2].map(|()| any_expression(&mut rng));
        let given = Given { text: &text, classes: &classes, expression: &one, code: highest + 1 };
        let by = |expression: &[u8]| recoded(&Given { expression, ..given });
        let [first, second] = [&one, &other].map(|expression| by(expression));
        let made = |holds: &dyn Fn(bool, bool) -> bool| -> Vec<u16> {
            let met = |at: usize| holds(first[at] > highest, second[at] > highest);
            (0..words).map(|at| if text[at] != 0 && met(at) { highest + 1 } else { text[at] }).collect()
        };
        let joined = |parts: &[&[u8]]| by(&parts.concat());
        let (start, rest) = (&text[..words / 2], &text[words / 2..]);
        let halves = [(start, &classes[..words / 2]), (rest, &classes[words / 2..])];
        let agreeing = [
            (joined(&[b"!(", &one, b")"]), made(&|one, _| !one)),
            (joined(&[b"(", &one, b")&(", &other, b")"]), made(&|one, other| one && other)),
            (joined(&[b"(", &one, b")|(", &other, b")"]), made(&|one, other| one || other)),
            (joined(&[b"!(", &one, b")&!(", &other, b")"]), made(&|one, other| !one && !other)),
            (recoded(&Given { text: &first, ..given }), first.clone()),
            (halves.map(|(text, classes)| recoded(&Given { text, classes, ..given })).concat(), first.clone()),
        ];
        for (at, (library, expected)) in agreeing.iter().enumerate() {
            let (one, other) = (one.escape_ascii(), other.escape_ascii());
            let case = || format!("recode {at}: by {one} and {other}\ntext: {text:?}\nclasses: {classes:?}");
            run.agree(library, expected, case);
            run.call(Call::Recode, 0);
        }
    }
}

/// A text, class bytes and an expression at random, with the text as library and brute force recode it.
struct Recoded {
    text: Vec<u16>,
    words: Vec<u16>,
    code: u16,
    expression: Vec<u8>,
}

impl Recoded {
    /// Begins an input, and compares how the text is recoded; its class bytes are those of its places, or for each word
    /// the same.
    fn any(run: &mut Run, rng: &mut Rng, highest: u16, by_word: bool) -> Recoded {
        let length = rng.within(0, 30);
        let text = any_text(rng, length, highest);
        let mut classes = any_classes(rng, length.max(highest as usize + 1));
        if by_word {
            classes = text.iter().map(|&word| classes[word as usize]).collect();
        }
        let (expression, code) = (any_expression(rng), highest + 1);
        let given = Given { text: &text, classes: &classes[..length], expression: &expression, code };
        run.input();
        let (_, mut lent) = given.compare(run, &Recoder::new(&expression), length);
        let words = lent.part().to_vec();
        Recoded { text, words, code, expression }
    }

    /// The text written out, and how it is recoded.
    fn case(&self, call: Call, pattern: &Pattern) -> String {
        let Recoded { text, words, code, expression } = self;
        let recoded = format!("recoded by {} to {code}: {words:?}", expression.escape_ascii());
        format!("{call} in a recoded text\npattern: {pattern:?}\ntext: {text:?}\n{recoded}")
    }

    /// Compares the calls on a pattern and the recoded text.
    fn calls(&self, run: &mut Run, pattern: &Pattern) {
        let mut both = Both::new(run, Brute::enumerated(pattern, &self.words));
        both.numbers();
        both.lists();
        both.all();
        let rows = both.brute.front().expect("the pattern is accepted").to_vec();
        rows.iter().take(ROWS).for_each(|row| both.row(row));
    }
}

/// All occurrences as the library lists them, if they are not too many.
fn all(pattern: &Pattern, text: &[u16]) -> Option<Vec<Vec<u16>>> {
    let tally = Some(number(ffi::tally(pattern, text))).filter(|&tally| tally <= LISTED)?;
    let entries = listed(ffi::all, pattern, text, tally as usize * pattern.count);
    Some(entries.chunks(pattern.count).map(<[u16]>::to_vec).collect())
}

/// The pattern with other words at its slots, by their indices from 0.
fn with_words<'a>(stated: &Pattern, words: impl Fn(usize) -> Words<'a>) -> Pattern {
    let slots = stated.slots[..stated.count].iter().enumerate();
    let written: Vec<Written> = slots.map(|(at, slot)| (slot.low, slot.high, words(at))).collect();
    pattern((stated.least, stated.most), &written)
}

/// Compares a pattern of which some slots take the code alone, the others words, in a recoded text: the library itself must
/// list just those of the rows with any word at these slots that have the code there, and nowhere else. How many.
fn classes_of_places(run: &mut Run, rng: &mut Rng, kind: &Kind) -> usize {
    let recoded = Recoded::any(run, rng, kind.highest_word, false);
    let mut stated = any_pattern(rng, kind);
    let coded = rng.within(0, stated.count - 1);
    stated.slots[coded].excluding = true;
    let slots = &stated.slots[..stated.count];
    let plain = |at: usize| Only(&slots[at].words[..slots[at].count]);
    let code = [recoded.code];
    let strict = with_words(&stated, |at| if slots[at].excluding { Only(&code) } else { plain(at) });
    let loose = with_words(&stated, |at| if slots[at].excluding { But(&[]) } else { plain(at) });
    recoded.calls(run, &strict);
    let Some(mut rows) = all(&loose, &recoded.text) else { return 0 };
    let is_code = |place: u16| recoded.words[place as usize - 1] == recoded.code;
    let fits = |row: &[u16]| row.iter().zip(slots).all(|(&place, slot)| is_code(place) == slot.excluding);
    for row in rows.iter().take(ROWS) {
        let answer = ffi::is_occurrence(&strict, &recoded.words, row);
        let expected = Answer { number: 0, place: 0, value: u64::from(fits(row)) };
        run.agree(&answer, &expected, || format!("{row:?}: {}", recoded.case(Call::IsOccurrence, &strict)));
        run.call(Call::IsOccurrence, 0);
    }
    rows.retain(|row| fits(row));
    run.agree(&all(&strict, &recoded.words), &Some(rows.clone()), || recoded.case(Call::All, &strict));
    run.call(Call::All, 0);
    rows.len()
}

/// Compares any pattern, its slots with the code or without, in a text recoded by the classes of its words, with the
/// pattern whose slots list the words that are recoded to what these take: the library itself must count and list the same
/// for it in the text before. How many rows.
fn classes_of_words(run: &mut Run, rng: &mut Rng, kind: &Kind) -> usize {
    let recoded = Recoded::any(run, rng, kind.highest_word.min(8), true);
    let coded = any_pattern(rng, &Kind { highest_word: recoded.code, ..*kind });
    let takes = |slot: &Slot, word: u16| slot.words[..slot.count].contains(&word) != slot.excluding;
    let word_after = |word: u16| recoded.text.iter().position(|&other| other == word).map(|at| recoded.words[at]);
    let taken = |slot: &Slot| -> Vec<u16> {
        (1..=8).filter(|&word| word_after(word).is_some_and(|after| takes(slot, after))).collect()
    };
    let lists: Vec<Vec<u16>> = coded.slots[..coded.count].iter().map(taken).collect();
    // A slot that takes no word of the text lists another.
    let before = with_words(&coded, |at| if lists[at].is_empty() { Only(&[300]) } else { Only(&lists[at]) });
    recoded.calls(run, &coded);
    for (call, number) in NUMBERS {
        let (after, before) = (number(&coded, &recoded.words), number(&before, &recoded.text));
        run.agree(&after, &before, || recoded.case(call, &coded));
        run.call(call, after.number);
    }
    let Some(rows) = all(&coded, &recoded.words) else { return 0 };
    for (call, list) in LISTS {
        let room = coded.count * (rows.len() + recoded.text.len());
        let (after, before) = (listed(list, &coded, &recoded.words, room), listed(list, &before, &recoded.text, room));
        run.agree(&after, &before, || recoded.case(call, &coded));
        run.call(call, 0);
    }
    let has_code = |row: &&Vec<u16>| row.iter().any(|&place| recoded.words[place as usize - 1] == recoded.code);
    rows.iter().filter(has_code).count()
}
