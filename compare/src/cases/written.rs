//! Patterns with the files that they are written as, put down by hand.

use super::Words::{But, Only};
use super::{alike, Written, ANY_SPAN};

/// Span limits and slots, their words as they are added, and the file that the pattern is written as.
pub type WrittenFile = ((u16, u16), &'static [Written<'static>], &'static str);

/// Patterns and their files.
pub const WRITTEN_FILES: [WrittenFile; 16] = [
    // The scope's example, GGAAAA with G as 7 and A as 1.
    (
        ANY_SPAN,
        &[(0, 0, Only(&[7])), (0, 1, Only(&[1])), (0, 1, Only(&[1]))],
        "least most\n1 20000\nlow high words\n0 0 7\n0 1 1\n0 1 1\n",
    ),
    // The fewest bytes that a pattern has.
    ((1, 1), &[(0, 0, Only(&[1]))], "least most\n1 1\nlow high words\n0 0 1\n"),
    ((1, 1), &[(0, 0, But(&[]))], "least most\n1 1\nlow high words\n0 0 !\n"),
    // as .. as, with any word but two in the middle; the mark of document 02.
    (
        ANY_SPAN,
        &[(0, 0, Only(&[1])), (0, 0, But(&[12, 15])), (0, 0, Only(&[1]))],
        "least most\n1 20000\nlow high words\n0 0 1\n0 0 !12,15\n0 0 1\n",
    ),
    // Excluding slots without words, first, in the middle and last.
    (
        (3, 9),
        &[(0, 0, But(&[])), (0, 63, But(&[])), (63, 63, But(&[]))],
        "least most\n3 9\nlow high words\n0 0 !\n0 63 !\n63 63 !\n",
    ),
    // Words that rise, that fall, and that are mixed.
    ((2, 3), &[(0, 0, Only(&[12, 15]))], "least most\n2 3\nlow high words\n0 0 12,15\n"),
    ((2, 3), &[(0, 0, Only(&[15, 12]))], "least most\n2 3\nlow high words\n0 0 12,15\n"),
    ((2, 3), &[(0, 0, But(&[9, 65_535, 10, 1, 100]))], "least most\n2 3\nlow high words\n0 0 !1,9,10,100,65535\n"),
    ((2, 3), &[(0, 0, Only(&[8, 7, 6, 5, 4, 3, 2, 1]))], "least most\n2 3\nlow high words\n0 0 1,2,3,4,5,6,7,8\n"),
    // By their numbers, not by their digits or bytes.
    ((2, 3), &[(0, 0, Only(&[10, 9]))], "least most\n2 3\nlow high words\n0 0 9,10\n"),
    (
        (2, 3),
        &[(0, 0, Only(&[256, 255, 32_768, 32_767]))],
        "least most\n2 3\nlow high words\n0 0 255,256,32767,32768\n",
    ),
    // Repeats: two, a mixture, and eight of one word.
    ((1, 9), &[(0, 0, Only(&[7, 7]))], "least most\n1 9\nlow high words\n0 0 7\n"),
    ((1, 9), &[(0, 0, But(&[15, 12, 15, 12, 12]))], "least most\n1 9\nlow high words\n0 0 !12,15\n"),
    ((1, 9), &[(0, 0, But(&[7; 8])), (5, 5, Only(&[9; 8]))], "least most\n1 9\nlow high words\n0 0 !7\n5 5 9\n"),
    // Numbers of one to five digits.
    (
        (10, 999),
        &[(0, 0, Only(&[9, 99, 999, 9_999])), (9, 10, Only(&[10, 100, 1_000, 10_000])), (10, 10, Only(&[65_535]))],
        "least most\n10 999\nlow high words\n0 0 9,99,999,9999\n9 10 10,100,1000,10000\n10 10 65535\n",
    ),
    // The greatest span limits and gaps.
    (
        (20_000, 20_000),
        &[(0, 0, Only(&[1])), (63, 63, But(&[65_535, 65_534]))],
        "least most\n20000 20000\nlow high words\n0 0 1\n63 63 !65534,65535\n",
    ),
];

/// How many bytes the longest file has that a pattern is written as.
pub const MOST_BYTES: usize = 916;

/// The words of slots with the most bytes.
const LONG_WORDS: [u16; 8] = [65_528, 65_529, 65_530, 65_531, 65_532, 65_533, 65_534, 65_535];

/// The span limits and slots of the longest file.
pub fn longest() -> ((u16, u16), Vec<Written<'static>>) {
    ((20_000, 20_000), alike(But(&LONG_WORDS), 16, 63, 63))
}

/// The longest file.
pub const LONGEST_FILE: &str = "least most
20000 20000
low high words
0 0 !65528,65529,65530,65531,65532,65533,65534,65535
63 63 !65528,65529,65530,65531,65532,65533,65534,65535
63 63 !65528,65529,65530,65531,65532,65533,65534,65535
63 63 !65528,65529,65530,65531,65532,65533,65534,65535
63 63 !65528,65529,65530,65531,65532,65533,65534,65535
63 63 !65528,65529,65530,65531,65532,65533,65534,65535
63 63 !65528,65529,65530,65531,65532,65533,65534,65535
63 63 !65528,65529,65530,65531,65532,65533,65534,65535
63 63 !65528,65529,65530,65531,65532,65533,65534,65535
63 63 !65528,65529,65530,65531,65532,65533,65534,65535
63 63 !65528,65529,65530,65531,65532,65533,65534,65535
63 63 !65528,65529,65530,65531,65532,65533,65534,65535
63 63 !65528,65529,65530,65531,65532,65533,65534,65535
63 63 !65528,65529,65530,65531,65532,65533,65534,65535
63 63 !65528,65529,65530,65531,65532,65533,65534,65535
63 63 !65528,65529,65530,65531,65532,65533,65534,65535
";
