//! Expressions read in another way, by crossing out, for the brute force's own tests.

use crate::cases::expressions::bits;

/// Whether a class byte meets the expression, by crossing out: every letter becomes 1 or 0, then, again and again, a `!`
/// with its digit or a digit in brackets becomes a digit; where there is none, two digits with a `&` do; and where there
/// is none of these either, two with a `|` that are next to no `&`. None where in the end more than one digit is left.
pub fn crossed_out(expression: &[u8], class: u8) -> Option<bool> {
    let digit = |byte: &u8| match byte {
        b'a'..=b'h' => char::from(b'0' + u8::from(bits(class)[usize::from(byte - b'a')])),
        b'!' | b'&' | b'|' | b'(' | b')' => char::from(*byte),
        _ => '?',
    };
    let mut rest: String = expression.iter().map(digit).collect();
    while let Some((at, bytes, value)) = next_crossed_out(&rest) {
        rest.replace_range(at..at + bytes, if value { "1" } else { "0" });
    }
    match &rest[..] {
        "0" => Some(false),
        "1" => Some(true),
        _ => None,
    }
}

/// What is crossed out next: where, how many bytes, and what becomes of them.
fn next_crossed_out(rest: &str) -> Option<(usize, usize, bool)> {
    let first = |sought: &str, value: bool| rest.find(sought).map(|at| (at, sought.len(), value));
    let alone = |sought: &str, value: bool| {
        let next_to_and = |at: usize| rest[..at].ends_with('&') || rest[at + 3..].starts_with('&');
        let at = rest.match_indices(sought).map(|(at, _)| at).find(|&at| !next_to_and(at))?;
        Some((at, 3, value))
    };
    let factors = [("!0", true), ("!1", false), ("(0)", false), ("(1)", true)];
    let ands = [("0&0", false), ("0&1", false), ("1&0", false), ("1&1", true)];
    let ors = [("0|0", false), ("0|1", true), ("1|0", true), ("1|1", true)];
    let found = factors.into_iter().chain(ands).find_map(|(sought, value)| first(sought, value));
    found.or_else(|| ors.into_iter().find_map(|(sought, value)| alone(sought, value)))
}

/// How deep the brackets are nested, by counting those that are open.
pub fn open(expression: &[u8]) -> usize {
    let opened = |end: usize| expression[..end].iter().filter(|&&byte| byte == b'(').count();
    let closed = |end: usize| expression[..end].iter().filter(|&&byte| byte == b')').count();
    (0..=expression.len()).map(|end| opened(end) - closed(end)).max().unwrap_or(0)
}
