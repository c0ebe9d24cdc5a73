//! Columns and tallies on both sides of 2^64 and far past it, and the order of the column's refusals.

use compare::brute::Brute;
use compare::cases::columns::gapped_sevens;
use compare::cases::dense::{any_dense_pattern, any_dense_text};
use compare::cases::inputs::sevens;
use compare::cases::orders::with_words;
use compare::cases::sentences::{cut_every, joined};
use compare::cases::tallies::{
    equal_sentences, one_and_sevens, one_below_power, one_below_power_at_one_place, one_below_power_at_some_places,
    power, power_at_one_place, sixteen_words, thresholds, with_more,
};
use compare::cases::{pattern, ANY_SPAN};
use compare::ffi;
use compare::halves::{halves, sum, POWER};
use compare::layout::{Answer, Pattern, Total};
use compare::rng::Rng;

use crate::alone::column;
use crate::both::Both;
use crate::call::Call;
use crate::column::{own, stated, two_texts, WORDS};
use crate::column_lengths::lent;
use crate::lent::Lent;
use crate::run::Run;

/// The fewest numbers past 64 bits in the columns at random, and the fewest pairs of texts whose low halves carry.
const FEWEST_GREAT: usize = 2_000;
const FEWEST_CARRIES: usize = 20;

/// Compares columns with great totals.
pub fn run(run: &mut Run) {
    many_places(run);
    one_place(run);
    some_places(run);
    one_and_others(run);
    great_numbers(run);
    any_dense_texts(run);
    order(run);
}

/// Compares a column and a tally that passes 64 bits or not, with lists of every interesting length lent, and with the
/// library's own tally.
fn total(run: &mut Run, pattern: &Pattern, text: &[u16], passes: bool) {
    let mut both = Both::new(run, Brute::windowed(pattern, text));
    assert_eq!(both.brute.tallied().map(|tally| tally >= POWER), Ok(passes));
    both.column();
    both.tally();
    own(run, pattern, text);
}

/// Compares a column and a tally that are stated.
fn both_stated(run: &mut Run, pattern: &Pattern, text: &[u16], column: &[u128], tally: u128) {
    stated(run, pattern, text, column);
    own(run, pattern, text);
    let [high, low] = halves(tally);
    let (library, expected) = (ffi::tally(pattern, text), Total { number: 0, place: 0, high, low });
    run.agree(&library, &expected, || format!("{}\npattern: {pattern:?}\ntext: {text:?}", Call::Tally));
    run.call(Call::Tally, library.number);
}

/// Compares totals of many numbers, none of which passes 64 bits alone, just below 2^64, at it and above it.
fn many_places(run: &mut Run) {
    let sixteen = sixteen_words();
    for zeros in [1, 64] {
        for parts in [1, 2, 8, 15, 16] {
            total(run, &sixteen, &one_below_power(parts, zeros), false);
            total(run, &sixteen, &power(parts, zeros), parts == 16);
            total(run, &sixteen, &with_more(&power(parts, zeros), 1), parts == 16);
            two_texts(run, &sixteen, &one_below_power(parts, zeros), &one_below_power(1, 1));
        }
    }
    for (rest, passes) in [(vec![], false), (one_below_power(15, 1), false), (power(15, 1), true)] {
        total(run, &sixteen, &[equal_sentences(15), rest].concat(), passes);
    }
    let sentence = [vec![1 << 60], vec![0; 241]].concat();
    for sentences in [1, 2, 3, 7, 8, 14, 15, 16, 17, 31, 32, 33, 48, 82] {
        let (text, column) = (equal_sentences(sentences), sentence.repeat(sentences));
        both_stated(run, &sixteen, &text, &column, (sentences as u128) << 60);
        two_texts(run, &sixteen, &text[..text.len().min(9_999)], &equal_sentences(15));
    }
    for (pattern, words, others) in thresholds() {
        for (words, passes) in [(words - 1, false), (words, true)] {
            let full = vec![7; words];
            total(run, &pattern, &full, passes);
            two_texts(run, &pattern, &full, &vec![7; others - 1]);
            two_texts(run, &pattern, &vec![7; others], &full);
        }
    }
}

/// Compares totals of a single number, at several places of the text, and of such a number and others.
fn one_place(run: &mut Run) {
    let (narrower, full) = one_below_power_at_one_place();
    let (sixteen, over) = (sixteen_words(), power_at_one_place());
    for (pattern, sentence, entry) in [(&narrower, &full, POWER - 1), (&sixteen, &over, POWER)] {
        for before in [0, 1, 63, 64, 1_000, WORDS - sentence.len()] {
            let text = [vec![0; before], sentence.clone()].concat();
            let mut column = vec![0; text.len()];
            column[before] = entry;
            both_stated(run, pattern, &text, &column, entry);
        }
        for more in [1, 2, 3] {
            let column = [vec![entry], vec![0; sentence.len() - 1], [vec![0, 1], vec![0; 15]].concat().repeat(more)];
            both_stated(run, pattern, &with_more(sentence, more), &column.concat(), entry + more as u128);
        }
    }
    for zeros in [1, 64] {
        // One occurrence more, before it and after it.
        let (once, zeros) = ((1..=16).collect::<Vec<u16>>(), vec![0; zeros]);
        total(run, &narrower, &[&full[..], &zeros, &once].concat(), true);
        total(run, &narrower, &[&once[..], &zeros, &full].concat(), true);
        total(run, &narrower, &[&full[..], &zeros, &once[..15]].concat(), false);
    }
    for text in [joined(&over, &over), joined(&[1; 9], &over), joined(&over, &equal_sentences(1))] {
        total(run, &sixteen, &text, true);
    }
}

/// Compares totals of some numbers that are one below 2^64 each, so that every one but the first carries.
fn some_places(run: &mut Run) {
    for sentences in [1, 2, 3, 17, 56] {
        let (narrower, text, column) = one_below_power_at_some_places(sentences);
        both_stated(run, &narrower, &text, &column, sentences as u128 * (POWER - 1));
        let half = &text[..text.len().min(9_999)];
        assert!(two_texts(run, &narrower, half, half), "no carry of {sentences} sentences");
    }
}

/// Compares sevens after one other word, at which all occurrences start: the last length whose number keeps to 64 bits,
/// and longer ones.
fn one_and_others(run: &mut Run) {
    for slots in 12..=16 {
        let pattern = one_and_sevens(slots);
        let text = |sevens: usize| [vec![1], vec![7; sevens]].concat();
        let passes =
            |sevens: &usize| Brute::windowed(&pattern, &text(*sevens)).tallied().is_ok_and(|tally| tally >= POWER);
        let first = (slots..WORDS).find(passes).expect("some number of sevens is too many");
        for (sevens, passes) in [(first - 1, false), (first, true), (first + 1, true), (1_200, true)] {
            total(run, &pattern, &text(sevens), passes);
        }
        two_texts(run, &pattern, &text(first - 1), &text(first - 1));
    }
}

/// Compares sevens whose numbers pass 64 bits, by a formula: the scope's example for row 9, and the greatest tally of all.
fn great_numbers(run: &mut Run) {
    for words in [116, 117, 118, 150, 200, 500, 959, 960, 961, 962, 1_000] {
        let (pattern, column) = gapped_sevens(16, 63, words);
        both_stated(run, &pattern, &vec![7; words], &column, sum(&column));
    }
    for (slots, high, words) in [(11, 63, 2_000), (12, 62, 1_000), (13, 40, 300), (14, 5, 3_000), (15, 31, 700)] {
        let (pattern, column) = gapped_sevens(slots, high, words);
        both_stated(run, &pattern, &vec![7; words], &column, sum(&column));
    }
    let example = ffi::tally(&pattern(ANY_SPAN, &sevens(16, 0, 63)), &[7; 1_000]);
    assert_eq!(example, Total { number: 0, place: 0, high: 34_393_292_800, low: 0 });
    let (pattern, expected) = gapped_sevens(16, 63, WORDS);
    let greatest = Total { number: 0, place: 0, high: 1_309_461_708_800, low: 0 };
    run.input();
    run.agree(&ffi::tally(&pattern, &[7; WORDS]), &greatest, || String::from("the greatest tally"));
    run.call(Call::Tally, 0);
    run.agree(&column(&pattern, &[7; WORDS]), &expected, || String::from("the column of the greatest tally"));
    run.call(Call::Starts, 0);
}

/// Compares dense patterns and texts at random, and two texts with a 0 between them.
fn any_dense_texts(run: &mut Run) {
    let mut rng = Rng::new(171);
    let (mut great, mut carries) = (0, 0);
    for _ in 0..100 {
        let (pattern, lengths) = (any_dense_pattern(&mut rng), [rng.within(100, 400), rng.within(100, 400)]);
        let [text, other] = lengths.map(|words| any_dense_text(&mut rng, words));
        let mut both = Both::new(run, Brute::windowed(&pattern, &text));
        both.column();
        both.tally();
        both.all();
        own(run, &pattern, &text);
        great += column(&pattern, &text).iter().filter(|&&entry| entry >= POWER).count();
        carries += usize::from(two_texts(run, &pattern, &text, &other));
    }
    assert!(great >= FEWEST_GREAT && carries >= FEWEST_CARRIES, "{great} numbers pass 64 bits, {carries} sums carry");
}

/// Compares the order of the refusals in the longest text and in one that is too long: the pattern's, 6, 8.
fn order(run: &mut Run) {
    let wide = pattern(ANY_SPAN, &sevens(10, 0, 63));
    let mut unsorted = wide;
    unsorted.slots[9] = with_words(&wide.slots[9], &[7, 7]);
    let spanless = Pattern { least: 0, ..unsorted };
    let (long, longest) = (vec![7; WORDS + 1], vec![7; WORDS]);
    for (pattern, refusal) in [(wide, (6, 0)), (unsorted, (16, 10)), (spanless, (5, 0))] {
        let rooms = [0, WORDS, WORDS + 1, 2 * WORDS, 2 * WORDS + 1, 2 * WORDS + 2, 2 * WORDS + 9];
        refused(run, &pattern, &long, &rooms, refusal);
    }
    refused(run, &wide, &longest, &[0, WORDS - 1, WORDS, WORDS + 1, 2 * WORDS - 1], (8, 0));
    stated(run, &wide, &longest, &gapped_sevens(10, 63, WORDS).1);
    let narrow = pattern(ANY_SPAN, &sevens(1, 0, 0));
    for text in [longest, cut_every(2, vec![7; WORDS])] {
        let column: Vec<u128> = text.iter().map(|&word| u128::from(word == 7)).collect();
        stated(run, &narrow, &text, &column);
    }
    refused(run, &narrow, &long, &[0, WORDS, 2 * WORDS, 2 * WORDS + 1, 2 * WORDS + 2], (6, 0));
    refused(run, &narrow, &[7], &[0, 1], (8, 0));
    stated(run, &narrow, &[], &[]);
}

/// Compares a column that is refused so with lists of these lengths, and nothing is written.
fn refused(run: &mut Run, pattern: &Pattern, text: &[u16], rooms: &[usize], (number, place): (u32, usize)) {
    let mut both = Both::new(run, Brute::windowed(pattern, text));
    for &room in rooms {
        both.column_in(room);
        let answer = Answer { number, place, value: 0 };
        lent(both.run, pattern, text, (answer, Lent::numbers(room)), room);
    }
}
