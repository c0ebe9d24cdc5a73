//! Words in rising order in the brute force: slots put in order, refusal 16, and patterns written as files, by hand.

use super::*;
use crate::cases::clients::numbered;
use crate::cases::orders::{canonical, in_order, rearranged, spread, weak_orders};
use crate::cases::random::{any_pattern, Kind};
use crate::cases::written::{longest, LONGEST_FILE, MOST_BYTES, WRITTEN_FILES};
use crate::cases::Words::{But, Only};
use crate::cases::{alike, files::usual_pattern_file, pattern, Written, ANY_SPAN};
use crate::layout::{Answer, Excerpted, Pattern, Slot, Total};
use crate::rng::Rng;

/// The pattern that adding these slots one by one makes.
fn made((least, most): (u16, u16), slots: &[Written]) -> Pattern {
    slots.iter().fold(pattern_of(least, most), |begun, &(low, high, words)| {
        let (excluding, words) = words.parts();
        let made = with_slot(&begun, low, high, excluding, words);
        assert_eq!((made.number, made.place), (0, 0));
        made.pattern
    })
}

/// The slot that adding these words makes, or the refusal's number and place.
fn added(excluding: bool, words: &[u16]) -> Result<Slot, (u32, usize)> {
    let before = pattern(ANY_SPAN, &[(0, 0, Only(&[5]))]);
    let made = with_slot(&before, 0, 1, excluding, words);
    if made.number != 0 {
        assert_eq!(made.pattern, before);
        return Err((made.number, made.place));
    }
    Ok(made.pattern.slots[1])
}

/// What a file with this field of words at its second slot is read as, or the refusal's number and place.
fn read(field: &str) -> Result<Slot, (u32, usize)> {
    let made = made_from_file(format!("least most\n1 20000\nlow high words\n0 0 5\n0 1 {field}\n").as_bytes());
    if made.number != 0 {
        assert_eq!(made.pattern, pattern_of(1, 20_000));
        return Err((made.number, made.place));
    }
    Ok(made.pattern.slots[1])
}

/// A list of words in a file and added, and what is made of it: words, or a refusal of the second slot.
type List = (&'static str, &'static [u16], Result<&'static [u16], u32>);

/// Lists of words.
const LISTS: [List; 15] = [
    ("7", &[7], Ok(&[7])),
    ("7,8", &[7, 8], Ok(&[7, 8])),
    ("8,7", &[8, 7], Ok(&[7, 8])),
    ("7,7", &[7, 7], Ok(&[7])),
    ("8,7,8,7", &[8, 7, 8, 7], Ok(&[7, 8])),
    ("3,1,2", &[3, 1, 2], Ok(&[1, 2, 3])),
    ("10,9,65535,1", &[10, 9, 65_535, 1], Ok(&[1, 9, 10, 65_535])),
    ("8,7,6,5,4,3,2,1", &[8, 7, 6, 5, 4, 3, 2, 1], Ok(&[1, 2, 3, 4, 5, 6, 7, 8])),
    ("7,7,7,7,7,7,7,7", &[7; 8], Ok(&[7])),
    ("4,4,2,2,4,2,4,3", &[4, 4, 2, 2, 4, 2, 4, 3], Ok(&[2, 3, 4])),
    ("7,7,7,7,7,7,7,7,7", &[7; 9], Err(2)),
    ("1,2,3,4,5,6,7,8,8", &[1, 2, 3, 4, 5, 6, 7, 8, 8], Err(2)),
    ("0,0,0,0,0,0,0,0,0", &[0; 9], Err(2)),
    ("8,7,0", &[8, 7, 0], Err(3)),
    ("0,7,7", &[0, 7, 7], Err(3)),
];

/// Adding and reading put words in order; the limit of eight is tested before repeats are dropped.
#[test]
fn lists_put_in_order() {
    for (field, words, expected) in LISTS {
        for excluding in [false, true] {
            let expected = expected.map_err(|number| (number, 2)).map(|words| {
                let mut listed = [0; 8];
                listed[..words.len()].copy_from_slice(words);
                Slot { words: listed, count: words.len(), low: 0, high: 1, excluding }
            });
            assert_eq!(added(excluding, words), expected);
            assert_eq!(read(&format!("{}{field}", if excluding { "!" } else { "" })), expected);
        }
    }
}

/// Every order of up to five words, also with repeats: adding puts in order, as sorting does and as trying all numbers.
#[test]
fn every_order() {
    assert_eq!([0, 1, 2, 3, 4, 5].map(|length| weak_orders(length).len()), [1, 1, 3, 13, 75, 541]);
    assert_eq!(weak_orders(2), [[1, 1], [2, 1], [1, 2]]);
    for order in (0..=5).flat_map(weak_orders) {
        let words = spread(&order);
        let slot = added(true, &words).expect("words within the limits");
        let tried: Vec<u16> = (0..=65_535).filter(|word| words.contains(word)).collect();
        assert_eq!((&slot.words[..slot.count], &slot.words[slot.count..]), (&tried[..], &[0; 8][slot.count..]));
        assert_eq!(in_order(&words), tried);
    }
}

/// Adding leaves the other slots as they are, in order or not, and does not refuse them.
#[test]
fn others_left_alone() {
    let before = pattern(ANY_SPAN, &[(0, 0, Only(&[9, 8])), (1, 2, But(&[7, 7]))]);
    let made = with_slot(&before, 0, 1, false, &[6, 5]);
    let after = pattern(ANY_SPAN, &[(0, 0, Only(&[9, 8])), (1, 2, But(&[7, 7])), (0, 1, Only(&[5, 6]))]);
    assert_eq!((made.number, made.place, made.pattern), (0, 0, after));
    let refused = with_slot(&before, 2, 1, false, &[6, 5]);
    assert_eq!((refused.number, refused.place, refused.pattern), (4, 3, before));
    assert_eq!((check_pattern(&after).number, check_pattern(&after).place), (16, 1));
}

/// What the tests of a pattern with these words at its second and third slot say.
fn tested(second: &[u16], third: &[u16]) -> (u32, usize) {
    let tested = check_pattern(&pattern(ANY_SPAN, &[(0, 0, Only(&[5])), (0, 1, Only(second)), (0, 1, But(third))]));
    (tested.number, tested.place)
}

/// Words that do not rise, and words that are repeated; the first such slot.
#[test]
fn words_not_rising() {
    assert_eq!([tested(&[1, 2, 3], &[]), tested(&[1, 65_535], &[7, 8])], [(0, 0); 2]);
    for wrong in [&[8, 7][..], &[7, 7], &[1, 2, 2], &[2, 1, 3], &[1, 3, 2, 4], &[1, 2, 3, 4, 5, 6, 7, 7]] {
        assert_eq!([tested(wrong, &[7]), tested(wrong, &[9, 9]), tested(&[7], wrong)], [(16, 2), (16, 2), (16, 3)]);
    }
    let past = |words, count, excluding| {
        let mut stated = pattern(ANY_SPAN, &[(0, 0, Only(&[5]))]);
        stated.slots[0] = Slot { words, count, low: 0, high: 0, excluding };
        check_pattern(&stated).number
    };
    assert_eq!([0, 1, 2, 3, 4].map(|count| past([7, 8, 8, 3, 0, 0, 0, 0], count, true)), [0, 0, 0, 16, 16]);
    assert_eq!([1, 2, 3, 4, 5].map(|count| past([7, 8, 8, 3, 0, 0, 0, 0], count, false)), [0, 0, 16, 16, 3]);
}

/// 16 comes after 1 to 5 and before all that follows, and every call that is handed a pattern gives it.
#[test]
fn order_of_sixteen() {
    let unsorted = pattern(ANY_SPAN, &[(0, 0, Only(&[7])), (0, 1, Only(&[8, 7]))]);
    let refused = |change: fn(&mut Pattern)| {
        let mut changed = unsorted;
        change(&mut changed);
        check(&changed, 20_001).number
    };
    assert_eq!(refused(|changed| changed.count = 17), 1);
    assert_eq!(refused(|changed| changed.slots[1].count = 9), 2);
    assert_eq!(refused(|changed| changed.slots[1].words[1] = 0), 3);
    assert_eq!(refused(|changed| changed.slots[1].high = 64), 4);
    assert_eq!(refused(|changed| changed.least = 0), 5);
    assert_eq!(refused(|_| ()), 16);
    let text = [7, 8];
    let brute = Brute::enumerated(&unsorted, &text);
    let refusal = Answer { number: 16, place: 2, value: 0 };
    assert_eq!([check_pattern(&unsorted), write_pattern(&unsorted, &mut [])], [refusal; 2]);
    assert_eq!([brute.is_occurrence(&[1]), brute.support(), brute.starts(&mut [])], [refusal; 3]);
    assert_eq!(brute.tally(), Total { number: 16, place: 2, high: 0, low: 0 });
    assert_eq!([brute.leftmost(&mut []), brute.rightmost(&mut []), brute.all(&mut [])], [refusal; 3]);
    for found in [brute.first_after(&[0]), brute.last_before(&[9, 9])] {
        assert_eq!((found.number, found.place, found.found), (16, 2, 0));
    }
    assert_eq!(brute.excerpt(&[1, 2], 0), Excerpted { length: 0, word: 0 });
    let cursors = numbered([500; 4]);
    for client in [4, 5] {
        let served = brute.next(&cursors, client);
        assert_eq!((served.number, served.place, served.cursors), (16, 2, cursors));
    }
}

/// The files put down by hand, byte for byte, into lists of every length near theirs.
#[test]
fn files_by_hand() {
    let (span, slots) = longest();
    assert_eq!(LONGEST_FILE.len(), MOST_BYTES);
    for (span, slots, file) in WRITTEN_FILES.into_iter().chain([(span, &slots[..], LONGEST_FILE)]) {
        let pattern = made(span, slots);
        assert_eq!(made_from_file(file.as_bytes()).pattern, pattern);
        for room in [0, 1, file.len() - 1, file.len(), file.len() + 1, 2_000] {
            let mut out = vec![9; room];
            let answer = write_pattern(&pattern, &mut out);
            if room < file.len() {
                assert_eq!((answer, out), (Answer { number: 8, place: 0, value: 0 }, vec![9; room]));
            } else {
                assert_eq!(answer, Answer { number: 0, place: 0, value: file.len() as u64 });
                assert_eq!(out, [file.as_bytes(), &vec![9; room - file.len()]].concat());
            }
        }
    }
}

/// Whatever is made shorter in the longest file makes it shorter; another long file is counted by hand.
#[test]
fn longest_file() {
    let (span, slots) = longest();
    let longest = pattern(span, &slots);
    assert_eq!(written(&longest).unwrap().len(), MOST_BYTES);
    let shorter: [fn(&mut Pattern); 7] = [
        |pattern| pattern.count = 15,
        |pattern| pattern.least = 9_999,
        |pattern| pattern.slots[15].low = 9,
        |pattern| (pattern.slots[1].low, pattern.slots[1].high) = (9, 9),
        |pattern| pattern.slots[0].excluding = false,
        |pattern| pattern.slots[15].count = 7,
        |pattern| pattern.slots[8].words[0] = 9_999,
    ];
    for shorten in shorter {
        let mut other = longest;
        shorten(&mut other);
        assert!(written(&other).unwrap().len() < MOST_BYTES);
    }
    let plain = pattern((20_000, 20_000), &alike(Only(&[10_000, 65_535]), 16, 10, 63));
    assert_eq!(written(&plain).unwrap().len(), 11 + 12 + 15 + 16 + 15 * 18);
}

/// Patterns are written as the cases write them in the usual order, read back in order, and written alike again.
#[test]
fn written_and_read_back() {
    let mut rng = Rng::new(4);
    let kind = Kind { slots: (1, 16), highest_word: 30, most_words: 8, widest_gap: 63 };
    for _ in 0..500 {
        let stated = any_pattern(&mut rng, &kind);
        let file = written(&stated).expect("it is accepted").into_bytes();
        assert_eq!(file, usual_pattern_file(&stated));
        let read = made_from_file(&file).pattern;
        assert_eq!((read, written(&read).unwrap().into_bytes()), (canonical(&stated), file));
        let other = usual_pattern_file(&rearranged(&mut rng, &stated));
        assert_eq!(made_from_file(&other).pattern, read);
    }
}
