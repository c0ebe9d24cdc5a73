//! Pattern files and text files, read by splitting them into strings.

use super::limits::{pattern_of, push_slot, test_slot, test_slot_count, test_span, test_text};
use super::refusal::{answer, refuse, Refusal};
use crate::layout::{Answer, Made, Pattern, ReadBoth};

/// Refuses files of more than 60,000 bytes.
pub fn test_bytes(bytes: usize) -> Result<(), Refusal> {
    if bytes > 60_000 {
        return refuse(12, 0);
    }
    Ok(())
}

/// The pattern in a pattern file.
pub fn read_pattern(bytes: &[u8]) -> Result<Pattern, Refusal> {
    test_bytes(bytes.len())?;
    let file = letters(bytes);
    let lines = lines(&file);
    let span_names = names(&lines, 1, &["least", "most"])?;
    let span = values(&lines, 2, &span_names)?;
    let slot_names = names(&lines, 3, &["low", "high", "words"])?;
    let mut slots = Vec::new();
    for line in 4..=lines.len() {
        slots.push(values(&lines, line, &slot_names)?);
    }

    test_slot_count(slots.len())?;
    let mut pattern = pattern_of(span.number("least"), span.number("most"));
    for (index, slot) in slots.iter().enumerate() {
        let (low, high, words) = (slot.number("low"), slot.number("high"), slot.of("words"));
        test_slot(index + 1, low, high, words.excluding, Some(&words.numbers))?;
        push_slot(&mut pattern, low, high, words.excluding, &words.numbers);
    }
    test_span(pattern.least, pattern.most)?;
    Ok(pattern)
}

/// The words in a text file, which must not be more than there is room for.
pub fn read_text(bytes: &[u8], room: usize) -> Result<Vec<u16>, Refusal> {
    test_bytes(bytes.len())?;
    if bytes.is_empty() {
        return Ok(Vec::new());
    }
    let file = letters(bytes);
    let lines = lines(&file);
    let names = names(&lines, 1, &["word"])?;
    let mut words = Vec::new();
    for line in 2..=lines.len() {
        words.push(values(&lines, line, &names)?.number("word"));
    }

    test_text(words.len())?;
    if words.len() > room {
        return refuse(13, 0);
    }
    Ok(words)
}

/// The pattern and the words in two files that come in one call, the words not more than there is room for.
pub fn read_both(pattern: &[u8], text: &[u8], room: usize) -> Result<(Pattern, Vec<u16>), Refusal> {
    test_bytes(pattern.len())?;
    test_bytes(text.len())?;
    Ok((read_pattern(pattern)?, read_text(text, room)?))
}

/// The pattern in a pattern file, or beside a refusal a new pattern.
pub fn made_from_file(bytes: &[u8]) -> Made {
    match read_pattern(bytes) {
        Ok(pattern) => Made { number: 0, place: 0, pattern },
        Err(refusal) => Made { number: refusal.number, place: refusal.place, pattern: pattern_of(1, 20_000) },
    }
}

/// Writes the words in a text file to the start of `words`.
pub fn words_from_file(bytes: &[u8], words: &mut [u16]) -> Answer {
    let read = read_text(bytes, words.len());
    if let Ok(read) = &read {
        words[..read.len()].copy_from_slice(read);
    }
    answer(read.map(|read| read.len() as u64))
}

/// The pattern in a pattern file, the words in a text file written to the start of `words`; beside a refusal a new
/// pattern, no words, and nothing written.
pub fn both_from_files(pattern: &[u8], text: &[u8], words: &mut [u16]) -> ReadBoth {
    match read_both(pattern, text, words.len()) {
        Ok((pattern, read)) => {
            words[..read.len()].copy_from_slice(&read);
            ReadBoth { number: 0, place: 0, words: read.len() as u64, pattern }
        }
        Err(Refusal { number, place }) => ReadBoth { number, place, words: 0, pattern: pattern_of(1, 20_000) },
    }
}

/// The bytes as letters, one for each byte.
fn letters(bytes: &[u8]) -> String {
    bytes.iter().map(|&byte| char::from(byte)).collect()
}

/// The file's lines with what closes them; only the last may be left open.
fn lines(file: &str) -> Vec<&str> {
    file.split_inclusive('\n').collect()
}

/// The fields of a line, by its number from 1, if it is there and closed.
fn fields<'a>(lines: &[&'a str], line: usize) -> Option<Vec<&'a str>> {
    let closed = lines.get(line - 1)?.strip_suffix('\n')?;
    Some(closed.split(' ').collect())
}

/// The names in a line, which must be the expected ones in any order.
fn names<'a>(lines: &[&'a str], line: usize, expected: &[&str]) -> Result<Vec<&'a str>, Refusal> {
    let found = fields(lines, line).unwrap_or_default();
    let (mut one, mut other) = (found.clone(), expected.to_vec());
    one.sort_unstable();
    other.sort_unstable();
    if one != other {
        return refuse(10, line);
    }
    Ok(found)
}

/// The values in a line, in the order of the names.
fn values<'a>(lines: &[&str], line: usize, names: &[&'a str]) -> Result<Values<'a>, Refusal> {
    let found = fields(lines, line).unwrap_or_default();
    if found.len() != names.len() {
        return refuse(11, line);
    }
    let mut values = Values(Vec::new());
    for (&name, field) in names.iter().zip(found) {
        let value = if name == "words" { list(field) } else { single(field) };
        match value {
            Some(value) => values.0.push((name, value)),
            None => return refuse(11, line),
        }
    }
    Ok(values)
}

/// What a field says: numbers, and whether they are excluded.
struct Value {
    excluding: bool,
    numbers: Vec<u16>,
}

/// The values of a line, by their names.
struct Values<'a>(Vec<(&'a str, Value)>);

impl Values<'_> {
    /// The value under this name.
    fn of(&self, name: &str) -> &Value {
        let named = self.0.iter().find(|(other, _)| *other == name);
        &named.expect("the line of names has been tested").1
    }

    /// The single number under this name.
    fn number(&self, name: &str) -> u16 {
        self.of(name).numbers[0]
    }
}

/// The value of a field of one number.
fn single(field: &str) -> Option<Value> {
    Some(Value { excluding: false, numbers: vec![number(field)?] })
}

/// The value of a field of words: numbers, or a `!` and the numbers that are excluded, perhaps none.
fn list(field: &str) -> Option<Value> {
    let (excluding, numbers) = match field.strip_prefix('!') {
        None => (false, numbers(field)?),
        Some("") => (true, Vec::new()),
        Some(excluded) => (true, numbers(excluded)?),
    };
    Some(Value { excluding, numbers })
}

/// The numbers that a string is made of, joined by commas.
fn numbers(joined: &str) -> Option<Vec<u16>> {
    joined.split(',').map(number).collect()
}

/// The number that a string is written as, if it is written as we would write it.
fn number(written: &str) -> Option<u16> {
    let number: u16 = written.parse().ok()?;
    (number.to_string() == written).then_some(number)
}
