//! Tallies and columns of the brute force on both sides of 2^64 and far past it: literals, formulas, and a second way to
//! count.

use super::occurrences::{slots, stands};
use super::self_tests_starts::assert_column_by;
use super::*;
use crate::cases::columns::gapped_sevens;
use crate::cases::dense::{any_dense_pattern, any_dense_text};
use crate::cases::files::{input, text_file, usual_pattern_file};
use crate::cases::inputs::{mixed_sevens, sevens};
use crate::cases::sentences::joined;
use crate::cases::tallies::{
    equal_sentences, one_below_power, one_below_power_at_one_place, one_below_power_at_some_places, power,
    power_at_one_place, sixteen_words, thresholds, with_more,
};
use crate::cases::{pattern, ANY_SPAN};
use crate::halves::{halves, sum, POWER};
use crate::layout::{Pattern, Total};
use crate::rng::Rng;

/// The tally of an accepted pattern in a text.
fn tallied(pattern: &Pattern, text: &[u16]) -> u128 {
    Brute::windowed(pattern, text).tallied().unwrap()
}

/// The column of an accepted pattern in a text.
fn column(pattern: &Pattern, text: &[u16]) -> Vec<u128> {
    Brute::windowed(pattern, text).searcher().unwrap().starts()
}

/// The tally of sixteen sevens with gaps up to 63 in a text of at least 960 sevens: each of the 64^15 choices of gaps has
/// as many first places as it leaves words, and a gap is 31.5 words wide in the mean.
fn by_the_mean(words: u128) -> u128 {
    64_u128.pow(15) * (2 * (words - 15) - 15 * 63) / 2
}

/// The scope's example for row 9 is answered.
#[test]
fn the_example_of_row_nine() {
    for slots in [sevens(16, 0, 63), mixed_sevens(16, 0, 63)] {
        let wide = pattern(ANY_SPAN, &slots);
        let tally = Brute::windowed(&wide, &[7; 1_000]).tally();
        assert_eq!(tally, Total { number: 0, place: 0, high: 34_393_292_800, low: 0 });
        assert_eq!(tallied(&wide, &[7; 1_000]), 634_444_270_133_757_390_885_801_164_800);
    }
    assert_eq!(by_the_mean(1_000), 634_444_270_133_757_390_885_801_164_800);
}

/// The greatest tally of an accepted input, all words of the longest text with the most slots and the widest gaps.
#[test]
fn the_greatest() {
    let (wide, expected) = gapped_sevens(16, 63, 20_000);
    let column = column(&wide, &[7; 20_000]);
    assert_eq!((column[0], column[19_040], column[19_985]), (1 << 90, (1 << 90) - 1, 0));
    assert!(column == expected, "a number differs from the formula");
    let greatest = 24_155_305_016_555_982_613_969_161_420_800;
    assert_eq!([sum(&column), by_the_mean(20_000)], [greatest; 2]);
    assert_eq!((halves(greatest), greatest < 1 << 105), ([1_309_461_708_800, 0], true));
}

/// Sevens whose tallies are stated, with both halves, and their columns by the formula.
#[test]
fn stated_tallies() {
    let stated: [(usize, u16, usize, u128, [u64; 2]); 8] = [
        (16, 63, 116, 17_376_833_393_342_668_146, [0, 17_376_833_393_342_668_146]),
        (16, 63, 117, 20_129_556_484_108_337_682, [1, 1_682_812_410_398_786_066]),
        (16, 63, 118, 23_287_075_145_009_244_738, [1, 4_840_331_071_299_693_122]),
        (16, 63, 200, 165_231_621_125_519_522_327_640, [8_957, 4_134_457_303_068_503_128]),
        (16, 63, 500, 43_722_429_147_592_056_903_586_633_080, [2_370_197_633, 7_528_900_133_852_108_152]),
        (16, 63, 961, 586_164_608_601_627_560_164_735_320_064, [31_776_047_104, 0]),
        (16, 62, 1_000, 508_290_023_264_995_646_911_909_403_640, [27_554_457_373, 15_325_436_925_894_138_872]),
        (12, 50, 2_000, 10_405_974_436_466_962_869_414, [564, 2_010_778_894_775_757_990]),
    ];
    for (slots, high, words, tally, [high_half, low_half]) in stated {
        let (pattern, column) = gapped_sevens(slots, high, words);
        let text = vec![7; words];
        let brute = Brute::windowed(&pattern, &text);
        assert_eq!((brute.tallied(), sum(&column)), (Ok(tally), tally));
        assert_eq!(brute.tally(), Total { number: 0, place: 0, high: high_half, low: low_half });
        assert!(brute.searcher().unwrap().starts() == column, "{slots} {high} {words}");
    }
}

/// The texts made for 2^64 occurrences have exactly so many, one fewer, or one more, at many places and at one.
#[test]
fn around_the_power() {
    let sixteen = sixteen_words();
    for zeros in [1, 64] {
        assert_eq!(tallied(&sixteen, &one_below_power(16, zeros)), POWER - 1);
        assert_eq!(tallied(&sixteen, &power(16, zeros)), POWER);
        assert_eq!(tallied(&sixteen, &with_more(&power(16, zeros), 1)), POWER + 1);
        assert_eq!(tallied(&sixteen, &power(15, zeros)), 1 << 60);
    }
    assert_eq!(tallied(&sixteen, &[equal_sentences(15), one_below_power(15, 1)].concat()), POWER - 1);
    let (narrower, full) = one_below_power_at_one_place();
    for (more, total) in [(0, POWER - 1), (1, POWER), (2, POWER + 1)] {
        assert_eq!(tallied(&narrower, &with_more(&full, more)), total);
    }
    for (pattern, words, others) in thresholds() {
        let passes = |text: &[u16]| tallied(&pattern, text) >= POWER;
        let full = vec![7; words - 1];
        assert_eq!([passes(&full), passes(&vec![7; words])], [false, true]);
        assert_eq!([others - 1, others].map(|others| passes(&joined(&full, &vec![7; others]))), [false, true]);
    }
}

/// Single numbers of the column just below 2^64 and at it, alone and beside others.
#[test]
fn one_number() {
    let (narrower, full) = one_below_power_at_one_place();
    for (pattern, text, entry) in [(&narrower, &full, POWER - 1), (&sixteen_words(), &power_at_one_place(), POWER)] {
        let expected = [vec![entry], vec![0; text.len() - 1]].concat();
        assert_column_by(&Brute::windowed(pattern, text), &expected);
        let more = [expected, vec![0, 1], vec![0; 15]].concat();
        assert_column_by(&Brute::windowed(pattern, &with_more(text, 1)), &more);
    }
    let (wide, expected) = gapped_sevens(16, 63, 150);
    assert_eq!(halves(expected[0]), [7, 16_756_018_706_994_031_112]);
    assert_column_by(&Brute::windowed(&wide, &[7; 150]), &expected);
}

/// Columns of which no number passes 64 bits, though the total does: the low halves carry.
#[test]
fn totals_of_many() {
    let sentence = [vec![1 << 60], vec![0; 241]].concat();
    for sentences in [15, 16, 17, 82] {
        let text = equal_sentences(sentences);
        assert_eq!(column(&sixteen_words(), &text), sentence.repeat(sentences));
        assert_eq!(tallied(&sixteen_words(), &text), (sentences as u128) << 60);
    }
    for sentences in [1, 2, 3, 56] {
        let (narrower, text, expected) = one_below_power_at_some_places(sentences);
        assert_eq!(column(&narrower, &text), expected);
        let (high, low) = (sentences as u64 - 1, u64::MAX - (sentences as u64 - 1));
        assert_eq!(Brute::windowed(&narrower, &text).tally(), Total { number: 0, place: 0, high, low });
    }
}

/// The tally of two texts with a 0 between them, where low halves that are not 0 add up with a carry.
#[test]
fn two_texts() {
    let wide = pattern(ANY_SPAN, &sevens(16, 0, 63));
    let joined = |one: usize, other: usize| Brute::windowed(&wide, &joined(&vec![7; one], &vec![7; other])).tally();
    let total = |high: u64, low: u64| Total { number: 0, place: 0, high, low };
    assert_eq!(joined(116, 116), total(1, 16_306_922_712_975_784_676));
    assert_eq!(joined(116, 117), total(2, 612_901_730_031_902_596));
    assert_eq!(joined(200, 500), total(2_370_206_590, 11_663_357_436_920_611_280));
}

/// How many occurrences start at a place, by the ways to go on from every place, from the last slot to the first.
fn from_behind(pattern: &Pattern, text: &[u16], first: u16) -> u128 {
    let spans = u32::from(pattern.least)..=u32::from(pattern.most);
    let ends = |place: u16| place >= first && spans.contains(&u32::from(place - first + 1));
    let mut ahead: Vec<u128> = (0..=text.len() as u16).map(|place| ends(place).into()).collect();
    for (at, slot) in slots(pattern).iter().enumerate().rev() {
        let here = |place: usize| if stands(slot, text, place as u16) { ahead[place] } else { 0 };
        if at == 0 {
            return here(first.into());
        }
        let (low, high) = (slot.low as usize, slot.high as usize);
        let before = |place: usize| {
            let mut ways = 0;
            for next in place + 1..=(place + 1 + high).min(text.len()) {
                ways += if next > place + low { here(next) } else { 0 };
                // A phrase stops at the full stop.
                if text[next - 1] == 0 {
                    break;
                }
            }
            ways
        };
        ahead = (0..=text.len()).map(before).collect();
    }
    unreachable!("an accepted pattern has a slot")
}

/// Columns at random of dense patterns, counted from behind; many of the numbers pass 64 bits.
#[test]
fn counted_from_behind() {
    let mut rng = Rng::new(7);
    let mut great = 0;
    for _ in 0..25 {
        let (pattern, words) = (any_dense_pattern(&mut rng), rng.within(140, 240));
        let text = any_dense_text(&mut rng, words);
        let expected: Vec<u128> = (1..=words as u16).map(|first| from_behind(&pattern, &text, first)).collect();
        assert_eq!(column(&pattern, &text), expected, "{pattern:?} {text:?}");
        assert_eq!(tallied(&pattern, &text), sum(&expected));
        great += expected.iter().filter(|&&entry| entry >= POWER).count();
    }
    assert!(great >= 200, "{great} numbers pass 64 bits");
}

/// The full list is refused with 8 however many occurrences there are.
#[test]
fn full_lists() {
    let wide = pattern(ANY_SPAN, &sevens(16, 0, 63));
    for words in [116, 117, 1_000] {
        let (text, mut list) = (vec![7; words], vec![5; 400]);
        let answer = Brute::windowed(&wide, &text).all(&mut list);
        assert_eq!((answer.number, answer.place, answer.value, list), (8, 0, 0, vec![5; 400]));
    }
}

/// What the program prints for tallies past 64 bits: its first lines, and all of them for a single row.
#[test]
fn reports() {
    let report = |pattern: &Pattern, text: &[u16]| {
        String::from_utf8(report(&input(&usual_pattern_file(pattern), &text_file(text)))).unwrap()
    };
    let wide = pattern(ANY_SPAN, &sevens(16, 0, 63));
    for (words, counts) in [(1_000, "985 34393292800 0"), (117, "102 1 1682812410398786066")] {
        let first = format!("count high low\n{counts}\nrow slot front back\n1 1 1 1\n1 2 2 2\n");
        assert!(report(&wide, &vec![7; words]).starts_with(&first));
    }
    let rows = "row slot front back
1 1 1 1
1 2 2 17
1 3 18 33
1 4 34 49
1 5 50 65
1 6 66 81
1 7 82 97
1 8 98 113
1 9 114 129
1 10 130 145
1 11 146 161
1 12 162 177
1 13 178 209
1 14 210 241
1 15 242 273
1 16 274 305
";
    assert_eq!(report(&sixteen_words(), &power_at_one_place()), format!("count high low\n1 1 0\n{rows}"));
    let (narrower, full) = one_below_power_at_one_place();
    assert!(report(&narrower, &full).starts_with("count high low\n1 0 18446744073709551615\nrow slot front back\n"));
    assert!(report(&narrower, &with_more(&full, 2)).starts_with("count high low\n3 1 1\n"));
}
