//! Expressions of word classes: those put down by hand, right and wrong, deep ones and long ones; class bytes at random.

use crate::rng::Rng;

/// An expression, and what it says of the bits of a class byte, the lowest first.
pub type Meant = (&'static str, fn([bool; 8]) -> bool);

/// Expressions that are right and at most 8 deep.
pub const MEANT: [Meant; 60] = [
    ("a", |[a, ..]| a),
    ("b", |[_, b, ..]| b),
    ("c", |[_, _, c, ..]| c),
    ("d", |[_, _, _, d, ..]| d),
    ("e", |[.., e, _, _, _]| e),
    ("f", |[.., f, _, _]| f),
    ("g", |[.., g, _]| g),
    ("h", |[.., h]| h),
    // A `!`, repeated, and before brackets.
    ("!a", |[a, ..]| !a),
    ("!!a", |[a, ..]| a),
    ("!!!a", |[a, ..]| !a),
    ("!!!!h", |[.., h]| h),
    ("!(a)", |[a, ..]| !a),
    ("!(!a)", |[a, ..]| a),
    ("(!a)", |[a, ..]| !a),
    ("!!(!(a))", |[a, ..]| !a),
    // It binds tightest.
    ("!a&b", |[a, b, ..]| !a & b),
    ("!a|b", |[a, b, ..]| !a | b),
    ("a&!b", |[a, b, ..]| a & !b),
    ("a|!b", |[a, b, ..]| a | !b),
    ("!a&!b", |[a, b, ..]| !a & !b),
    ("!a|!b", |[a, b, ..]| !a | !b),
    ("!!a&b", |[a, b, ..]| a & b),
    ("!!!a|b", |[a, b, ..]| !a | b),
    ("!a&b|c", |[a, b, c, ..]| (!a & b) | c),
    ("!a|b&c", |[a, b, c, ..]| !a | (b & c)),
    ("!(a|b)", |[a, b, ..]| !(a | b)),
    ("!(a&b)", |[a, b, ..]| !(a & b)),
    ("!(a|b)&c", |[a, b, c, ..]| !(a | b) & c),
    ("!(a&b)|c", |[a, b, c, ..]| !(a & b) | c),
    // Then `&`, then `|`.
    ("a&b", |[a, b, ..]| a & b),
    ("a|b", |[a, b, ..]| a | b),
    ("a|b&c", |[a, b, c, ..]| a | (b & c)),
    ("a&b|c", |[a, b, c, ..]| (a & b) | c),
    ("a&b|c&d", |[a, b, c, d, ..]| (a & b) | (c & d)),
    ("a|b&c|d", |[a, b, c, d, ..]| a | (b & c) | d),
    ("a&b&c|d", |[a, b, c, d, ..]| (a & b & c) | d),
    ("a|b&c&d", |[a, b, c, d, ..]| a | (b & c & d)),
    ("a&b|c|d&e&f|g", |[a, b, c, d, e, f, g, _]| (a & b) | c | (d & e & f) | g),
    // Brackets, needed or not.
    ("(a|b)&c", |[a, b, c, ..]| (a | b) & c),
    ("a&(b|c)", |[a, b, c, ..]| a & (b | c)),
    ("(a|b)&(c|d)", |[a, b, c, d, ..]| (a | b) & (c | d)),
    ("a|(b&c)", |[a, b, c, ..]| a | (b & c)),
    ("(a&b)|c", |[a, b, c, ..]| (a & b) | c),
    ("(a)|(b)", |[a, b, ..]| a | b),
    ("((a))", |[a, ..]| a),
    ("((a|b)&c|d)&e", |[a, b, c, d, e, ..]| (((a | b) & c) | d) & e),
    ("!(a&!(b|!(c&d)))", |[a, b, c, d, ..]| !(a & !(b | !(c & d)))),
    ("((((((((a))))))))", |[a, ..]| a),
    ("!(!(!(!(!(!(!(!(b))))))))", |[_, b, ..]| b),
    // Rows, and the same letter again.
    ("a&b&c", |[a, b, c, ..]| a & b & c),
    ("a|b|c", |[a, b, c, ..]| a | b | c),
    ("a&b&c&d&e&f&g&h", |bits| bits.iter().all(|bit| *bit)),
    ("a|b|c|d|e|f|g|h", |bits| bits.contains(&true)),
    ("a&a", |[a, ..]| a),
    ("b|b|b", |[_, b, ..]| b),
    ("a&!a", |_| false),
    ("a|!a", |_| true),
    // A noun or a name, but no plural; exactly one of two.
    ("(a|b)&!c", |[a, b, c, ..]| (a | b) & !c),
    ("a&!b|!a&b", |[a, b, ..]| a != b),
];

/// Bytes that are no expression, whatever their depth.
pub const WRONG: [&str; 86] = [
    "", "!", "&", "|", "(", ")", "()", ")(", "!!", "!()", "(!)", "(())", "()a", "a()", "((", "))", "i", "z", "A", "H",
    "`", "0", "1", "@", "'", "*", "%", "{", "}", "~", " ", "\n", "\0", "\u{7f}", "\u{e9}", "ab", "aa", "a b", " a",
    "a ", "a\n", "a\0", "\0a", "a1", "ai", "a&", "a|", "&a", "|a", "a&&b", "a||b", "a&|b", "a|&b", "a& b", "a &b",
    "a!", "a!b", "a!&b", "!&a", "a&!", "a|!", "a!!b", "(a", "a)", "((a)", "(a))", "(a&b", "a&b)", "a&(b", "(a)&b)",
    "(a)b", "a(b)", "(a)(b)", "(a)!", "(a)!(b)", "(&a)", "(a&)", "(|a)", "(a|)", "a&(|b)", "[a]", "a+b", "a^b", "~a",
    "a=b", "a,b",
];

/// Expressions that are right and nested just so deep, 1 or more: one in another, in both parts or in one, side by side,
/// and with `!` between them.
pub fn nested(depth: usize) -> Vec<String> {
    let times = |before: &str, within: &str, after: &str, times: usize| {
        [before.repeat(times), within.to_string(), after.repeat(times)].concat()
    };
    let (plain, less) = (times("(", "a", ")", depth), times("(", "b", ")", depth - 1));
    vec![
        times("!(", "a", ")", depth),
        times("!!(", "h", ")", depth),
        times("a&(", "b", ")", depth),
        times("(", "b", ")|a", depth),
        times("(c|", "!d", "&e)", depth),
        times("(", "(a)|(b)&(c)", ")", depth - 1),
        times("(", "!(a)|!!(b)", ")", depth - 1),
        times("(a)|", &plain, "&(b)", 9),
        format!("{plain}&c"),
        format!("c|{plain}"),
        format!("!{plain}|!c&!{less}"),
        format!("{plain}|{less}"),
        format!("{less}&{plain}"),
        format!("{plain}&{plain}|{plain}"),
        format!("{less}|{less}&{plain}|{less}"),
        plain,
    ]
}

/// The expression with an alternative behind it that makes it so many bytes long, two more than it has at least.
pub fn padded(expression: &str, bytes: usize) -> String {
    format!("{expression}|{}g", "!".repeat(bytes - expression.len() - 2))
}

/// Right expressions of so many bytes, at least 100, that are at most 8 deep, and a right one that is deeper.
pub fn long(bytes: usize) -> (Vec<String>, String) {
    let row = |parts: &str| {
        // A row ends with a letter, so its bytes are odd; a `!` before it makes them even.
        let not = if bytes.is_multiple_of(2) { "!" } else { "" };
        format!("{not}{}", &parts.repeat(bytes)[..bytes - not.len()])
    };
    let deep = |depth: usize| format!("{}a&!b{}", "(".repeat(depth), ")".repeat(depth));
    let right = vec![
        "!".repeat(bytes - 1) + "h",
        row("a|"),
        row("a&"),
        row("a&b|c|d&e&f|g|h&"),
        row("a|b&c&d|e|f|g&h|"),
        padded("a", bytes),
        padded(&deep(8), bytes),
        padded(&format!("{}&!{}|c", deep(8), deep(7)), bytes),
    ];
    (right, padded(&deep(9), bytes))
}

/// So many class bytes: any, or few different ones.
pub fn any_classes(rng: &mut Rng, words: usize) -> Vec<u8> {
    let few: [u8; 3] = std::array::from_fn(|_| rng.within(0, 255) as u8);
    let any = rng.once_in(2);
    (0..words).map(|_| if any { rng.within(0, 255) as u8 } else { rng.pick(&few) }).collect()
}

/// The bits of a class byte, the lowest first.
pub fn bits(class: u8) -> [bool; 8] {
    [1, 2, 4, 8, 16, 32, 64, 128].map(|bit| class & bit != 0)
}
