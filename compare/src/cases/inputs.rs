//! Inputs of the program: good ones, refused ones, and those at its limits.

use super::examples::EXAMPLES;
use super::files::{input, text_file, usual_pattern_file};
use super::sentences::{cut_at, cut_every, joined};
use super::tallies::{
    equal_sentences, one_below_power, one_below_power_at_one_place, power, power_at_one_place, sixteen_words, with_more,
};
use super::worked::{worked_texts, Worked};
use super::Words::{But, Only};
use super::{alike, pattern, Written, ANY_SPAN};

/// So many slots that take the word 7, with these gaps between them.
pub fn sevens(slots: usize, low: u16, high: u16) -> Vec<Written<'static>> {
    alike(Only(&[7]), slots, low, high)
}

/// The same, every other slot by excluding other words.
pub fn mixed_sevens(slots: usize, low: u16, high: u16) -> Vec<Written<'static>> {
    let mut mixed = sevens(slots, low, high);
    mixed.iter_mut().step_by(2).for_each(|slot| slot.2 = But(&[8, 9]));
    mixed
}

/// The input for these slots and a text of so many sevens.
fn sevens_input(slots: &[Written], words: usize) -> Vec<u8> {
    any_span_input(slots, &vec![7; words])
}

/// The input for these slots, without span limits that bind, and a text.
fn any_span_input(slots: &[Written], text: &[u16]) -> Vec<u8> {
    input(&usual_pattern_file(&pattern(ANY_SPAN, slots)), &text_file(text))
}

/// The worked texts as inputs.
fn worked() -> Vec<Vec<u8>> {
    let worked = |case: &Worked| {
        let file = usual_pattern_file(&pattern(case.span, case.slots));
        input(&file, &text_file(case.text))
    };
    worked_texts().map(worked).collect()
}

/// Inputs on both sides of the room for lists, of 2^64 occurrences, and of the limits on words and bytes.
fn at_limits() -> Vec<Vec<u8>> {
    let wide = sevens(16, 0, 63);
    let mut inputs: Vec<Vec<u8>> = [
        (sevens(1, 0, 0), 16_000),
        (sevens(1, 0, 0), 16_001),
        (sevens(1, 0, 0), 20_000),
        (sevens(1, 0, 0), 20_001),
        (sevens(2, 0, 0), 8_001),
        (sevens(2, 0, 0), 8_002),
        (sevens(3, 0, 1), 5_335),
        (sevens(3, 0, 1), 5_336),
        (wide.clone(), 116),
        (wide.clone(), 117),
        (wide.clone(), 1_000),
        (wide.clone(), 1_015),
        (wide, 1_016),
    ]
    .iter()
    .map(|(slots, words)| sevens_input(slots, *words))
    .collect();
    let full = sevens_input(&sevens(1, 0, 0), 10);
    inputs.push(padded(&full, 60_000));
    inputs.push(padded(&full, 60_001));
    inputs.push(vec![b'\n'; 60_000]);
    inputs.push(vec![b'\n'; 60_001]);
    inputs
}

/// Inputs on both sides of the room for lists and of 2^64 occurrences, their texts cut by sentence ends.
fn cut_at_limits() -> Vec<Vec<u8>> {
    let wide = sevens(16, 0, 63);
    let mut inputs: Vec<Vec<u8>> = [
        (sevens(1, 0, 0), cut_every(5, vec![7; 20_000])),
        (sevens(1, 0, 0), cut_every(6, vec![7; 20_000])),
        (sevens(2, 0, 0), cut_every(2, vec![7; 20_000])),
        (sevens(2, 0, 63), cut_every(5, vec![7; 13_333])),
        (sevens(2, 0, 63), cut_every(5, vec![7; 13_334])),
        (wide.clone(), joined(&[7; 116], &[7; 116])),
        (wide.clone(), joined(&[7; 117], &[7; 1])),
        (wide.clone(), joined(&[7; 1], &[7; 117])),
        (wide.clone(), cut_every(16, vec![7; 1_000])),
        (wide.clone(), cut_every(17, vec![7; 1_000])),
        (wide.clone(), cut_every(117, vec![7; 1_000])),
    ]
    .iter()
    .map(|(slots, text)| any_span_input(slots, text))
    .collect();
    for place in [1, 2, 16, 17, 59, 101, 116, 117] {
        inputs.push(any_span_input(&wide, &cut_at(&[place], vec![7; 117])));
    }
    inputs
}

/// Inputs on both sides of the room for lists and of 2^64 occurrences, all slots or every other one excluding.
fn excluding_at_limits() -> Vec<Vec<u8>> {
    let any = But(&[]);
    let eight = But(&[1, 2, 3, 4, 5, 6, 8, 9]);
    let wide = mixed_sevens(16, 0, 63);
    let inputs = [
        (alike(any, 1, 0, 0), vec![7; 16_000]),
        (alike(any, 1, 0, 0), vec![7; 16_001]),
        (alike(any, 1, 0, 0), cut_every(5, vec![7; 20_000])),
        (alike(any, 1, 0, 0), cut_every(6, vec![7; 20_000])),
        (alike(eight, 2, 0, 63), cut_every(5, vec![7; 13_333])),
        (alike(eight, 2, 0, 63), cut_every(5, vec![7; 13_334])),
        (alike(eight, 16, 0, 63), vec![7; 1_015]),
        (alike(But(&[7]), 3, 0, 63), vec![7; 1_015]),
        (wide.clone(), vec![7; 116]),
        (wide, vec![7; 117]),
    ];
    inputs.map(|(slots, text)| any_span_input(&slots, &text)).to_vec()
}

/// Inputs of few rows and about 2^64 occurrences, or many more, of which few or many start at one place.
pub fn great() -> Vec<Vec<u8>> {
    let sixteen = sixteen_words();
    let (narrower, full) = one_below_power_at_one_place();
    let inputs = [
        (&sixteen, one_below_power(16, 1)),
        (&sixteen, power(16, 1)),
        (&sixteen, with_more(&power(16, 1), 1)),
        (&sixteen, power_at_one_place()),
        (&sixteen, equal_sentences(40)),
        (&narrower, full.clone()),
        (&narrower, with_more(&full, 1)),
        (&narrower, with_more(&full, 2)),
        (&narrower, joined(&full, &full)),
    ];
    inputs.map(|(pattern, text)| input(&usual_pattern_file(pattern), &text_file(&text))).to_vec()
}

/// The input with lines of 5 bytes added, and a line of 2 to 6 bytes, up to exactly so many bytes.
fn padded(input: &[u8], bytes: usize) -> Vec<u8> {
    let mut padded = input.to_vec();
    while padded.len() + 6 < bytes {
        padded.extend(b"9876\n");
    }
    let digits = bytes - padded.len() - 1;
    padded.extend(&b"12345"[..digits]);
    padded.extend(b"\n");
    assert_eq!(padded.len(), bytes, "the input was not filled up");
    padded
}

/// Inputs that are refused, or parted in odd ways.
fn odd() -> Vec<Vec<u8>> {
    let good = b"least most\n1 20000\nlow high words\n0 0 7\n";
    let tails: [&[u8]; 31] = [
        b"",
        b"\n",
        b"\nword\n",
        b"\nword",
        b"\nword\n7",
        b"\nword\n7\n",
        b"\nword\n7\n\n",
        b"\n\nword\n7\n",
        b"\nwords\n7\n",
        b"\nword\n07\n",
        b"\nword\n65535\n65536\n",
        b"\nword \n7\n",
        b"3 2 7\n\nword\n7\n",
        b"0 01 7\n\nword\n7\n",
        b"0 0 1,2,3,4,5,6,7,8,9\n\nwrd\n",
        b"0 0 0\n\nword\n7\n",
        b"0 0 !\n\nword\n7\n7\n0\n",
        b"0 0 !7\n\nword\n7\n7\n8\n",
        b"0 0 !0\n\nword\n7\n",
        b"0 0 !!\n\nword\n7\n",
        b"0 0 !1,2,3,4,5,6,7,8\n\nword\n7\n9\n",
        b"0 0 !1,2,3,4,5,6,7,8,9\n\nword\n7\n9\n",
        b"0 0 7!\n\nword\n7\n",
        b"0 0 7\n\nword\n!7\n",
        b"0 0 9,8,7\n\nword\n7\n8\n0\n7\n9\n",
        b"0 0 8,8,7,8\n\nword\n7\n8\n7\n",
        b"0 1 !9,7,9\n\nword\n7\n9\n8\n",
        b"0 0 7,7,7,7,7,7,7,7\n\nword\n7\n7\n",
        b"0 0 7,7,7,7,7,7,7,7,7\n\nword\n7\n7\n",
        b"0 0 !8,8,8,8,8,8,8,8,8\n\nword\n7\n7\n",
        b"0 0 9,8,7,0\n\nword\n7\n7\n",
    ];
    let mut inputs: Vec<Vec<u8>> = tails.iter().map(|tail| [good, *tail].concat()).collect();
    let whole: [&[u8]; 10] = [
        b"",
        b"\n",
        b"\n\n",
        b"\nword\n7\n",
        b"least most\n",
        b"least most\n0 5\nlow high words\n0 0 7\n\nword\n7\n",
        b"least most\n1 5\nlow high words\n\nword\n7\n",
        b"least most\n1 5\nwords low\n0 0 7\n\nword\n7\n",
        b"most least\n3 2\nwords high low\n7,8 0 0\n9 1 0\n\nword\n8\n9\n7\n0\n9\n",
        b"least most\r\n1 5\r\n",
    ];
    inputs.extend(whole.map(<[u8]>::to_vec));
    inputs
}

/// Some dozens of inputs.
pub fn inputs() -> Vec<Vec<u8>> {
    let examples = EXAMPLES.map(|(input, _)| input.to_vec()).to_vec();
    [examples, worked(), at_limits(), cut_at_limits(), excluding_at_limits(), great(), odd()].concat()
}
