//! Merging that is refused and merging that just is not: words, gaps and span limits put down by hand, at every slot,
//! and several refusals at once.

use compare::cases::inputs::mixed_sevens;
use compare::cases::merged::{GAP_PAIRS, SPAN_PAIRS, WORD_PAIRS};
use compare::cases::Words::{But, Only};
use compare::cases::{alike, pattern, Words, Written, ANY_SPAN};
use compare::ffi;
use compare::layout::{Made, Pattern};

use crate::merged::compare;
use crate::run::Run;

/// Two slots that list nine words together.
const NINE: [Words; 2] = [But(&[1, 2, 3, 4, 5, 6, 7, 8]), But(&[9])];

/// Two slots that share no word: plain ones, and a plain one whose words are all excluded.
const WORDS_APART: [[Words; 2]; 2] = [[Only(&[1, 2]), Only(&[3])], [Only(&[1, 2]), But(&[1, 2])]];

/// Two gaps that share no number.
const GAPS_APART: [(u16, u16); 2] = [(0, 4), (5, 9)];

/// Span limits that share no number.
const SPANS_APART: [(u16, u16); 2] = [(1, 99), (100, 20_000)];

/// Compares merging that is refused, or just is not.
pub fn run(run: &mut Run) {
    by_hand(run);
    two_refusals(run);
    numbers_of_slots(run);
    both_broken(run);
}

/// Compares two patterns merged, in either order, and holds the library to this outcome.
fn expect(run: &mut Run, [first, second]: [Pattern; 2], expected: Result<Pattern, u32>) {
    let made = compare(run, &first, &second);
    let expected = match expected {
        Ok(pattern) => Made { number: 0, place: 0, pattern },
        Err(number) => Made { number, place: 0, pattern: ffi::pattern_of(1, 20_000) },
    };
    run.agree(&made, &expected, || format!("merge, by hand\nfirst: {first:?}\nsecond: {second:?}"));
}

/// A pattern of so many slots, excluding and plain in turn, changed so.
fn changed(slots: usize, change: impl Fn(&mut [Written])) -> Pattern {
    let mut written = mixed_sevens(slots, 1, 9);
    change(&mut written);
    pattern(ANY_SPAN, &written)
}

/// Compares the words, gaps and span limits put down by hand, at each of sixteen slots, and in fewer.
fn by_hand(run: &mut Run) {
    for (slots, at) in [1, 2, 16].into_iter().flat_map(|slots| (0..slots).map(move |at| (slots, at))) {
        for (one, other, both) in WORD_PAIRS {
            let with = |words| changed(slots, |written| written[at].2 = words);
            expect(run, [with(one), with(other)], both.map(with));
        }
        for (one, other, both) in GAP_PAIRS.into_iter().filter(|_| at > 0) {
            let with = |(low, high)| changed(slots, |written| (written[at].0, written[at].1) = (low, high));
            expect(run, [with(one), with(other)], both.map(with).ok_or(18));
        }
    }
    for slots in 1..=16 {
        for (one, other, both) in SPAN_PAIRS {
            let with = |(least, most)| Pattern { least, most, ..changed(slots, |_| ()) };
            expect(run, [with(one), with(other)], both.map(with).ok_or(18));
        }
    }
}

/// Compares sixteen slots that list too much together at one, and share nothing at another or in spans: 18 is first.
fn two_refusals(run: &mut Run) {
    for (long, apart) in (0..16).flat_map(|long| (0..16).map(move |apart| (long, apart))) {
        let pair = |change: &dyn Fn(&mut Written, usize)| {
            [0, 1].map(|side| {
                changed(16, |written| {
                    written[long].2 = NINE[side];
                    change(&mut written[apart], side);
                })
            })
        };
        expect(run, pair(&|_, _| ()), Err(19));
        for words in WORDS_APART {
            expect(run, pair(&|slot, side| slot.2 = words[side]), Err(18));
        }
        if apart > 0 {
            expect(run, pair(&|slot, side| (slot.0, slot.1) = GAPS_APART[side]), Err(18));
        }
        let [mut short, mut wide] = pair(&|_, _| ());
        [(short.least, short.most), (wide.least, wide.most)] = SPANS_APART;
        expect(run, [short, wide], Err(18));
    }
}

/// Compares patterns of every two numbers of slots: that share everything, that share nothing, and that list too much.
fn numbers_of_slots(run: &mut Run) {
    for (one, other) in (1..=16).flat_map(|one| (1..=16).map(move |other| (one, other))) {
        let unlike = |expected: Result<Pattern, u32>| if one == other { expected } else { Err(17) };
        let (whole, stated) = (changed(16, |_| ()), changed(one, |_| ()));
        expect(run, [one, other].map(|count| Pattern { count, ..whole }), unlike(Ok(stated)));
        let apart = [(one, 0), (other, 1)].map(|(slots, side)| {
            let (low, high) = GAPS_APART[side];
            pattern(SPANS_APART[side], &alike(WORDS_APART[0][side], slots, low, high))
        });
        expect(run, apart, unlike(Err(18)));
        let long = [(one, 0), (other, 1)].map(|(slots, side)| pattern(ANY_SPAN, &alike(NINE[side], slots, 0, 9)));
        expect(run, long, unlike(Err(19)));
    }
}

/// What breaks patterns with two words at each of sixteen slots; the first does not.
const BREAKS: [fn(&mut Pattern); 18] = [
    |_| (),
    |pattern| pattern.count = 0,
    |pattern| pattern.count = 17,
    |pattern| pattern.count = usize::MAX,
    |pattern| pattern.slots[0].count = 9,
    |pattern| pattern.slots[7].count = 0,
    |pattern| pattern.slots[15].count = usize::MAX,
    |pattern| pattern.slots[0].words[0] = 0,
    |pattern| pattern.slots[15].words[1] = 0,
    |pattern| pattern.slots[0].high = 1,
    |pattern| (pattern.slots[7].low, pattern.slots[7].high) = (3, 2),
    |pattern| pattern.slots[15].high = 64,
    |pattern| pattern.least = 0,
    |pattern| (pattern.least, pattern.most) = (6, 5),
    |pattern| pattern.most = 20_001,
    |pattern| pattern.slots[0].words[0] = 9,
    |pattern| pattern.slots[7].words[1] = 7,
    |pattern| (pattern.least, pattern.slots[15].words[1]) = (0, 7),
];

/// Compares patterns broken in every two ways, whatever else is wrong with them: the first one's refusal comes first,
/// then the second one's, each with the place that its own test gives it, then that of merging.
fn both_broken(run: &mut Run) {
    let whole = pattern((5, 900), &alike(Only(&[7, 8]), 16, 1, 9));
    let apart = pattern((901, 999), &alike(But(&[7, 8]), 16, 10, 20));
    let fewer = [whole, apart].map(|pattern| Pattern { count: 8, ..pattern });
    for (other, number) in [(whole, 0), (apart, 18), (fewer[0], 17), (fewer[1], 17)] {
        for (one, two) in BREAKS.iter().flat_map(|one| BREAKS.iter().map(move |two| (one, two))) {
            let (mut first, mut second) = (whole, other);
            one(&mut first);
            two(&mut second);
            let made = compare(run, &first, &second);
            let tested = [first, second].map(|pattern| ffi::check_pattern(&pattern));
            let refused = tested.iter().find(|tested| tested.number != 0).map(|tested| (tested.number, tested.place));
            let case = || format!("merge, both broken\nfirst: {first:?}\nsecond: {second:?}");
            run.agree(&(made.number, made.place), &refused.unwrap_or((number, 0)), case);
        }
    }
}
