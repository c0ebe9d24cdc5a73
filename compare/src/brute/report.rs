//! The count for two files, and what the program prints for its input.

use super::calls::Brute;
use super::files::{read_both, read_pattern, read_text, test_bytes};
use super::refusal::{refuse, Refusal};
use super::rows::Row;
use crate::halves::halves;

/// The count for a pattern file and a text file, or 100,000 plus the refusal's number.
pub fn count(pattern: &[u8], text: &[u8]) -> u32 {
    match counted(pattern, text) {
        Ok(count) => count as u32,
        Err(refusal) => 100_000 + refusal.number,
    }
}

/// The count for a pattern file and a text file.
fn counted(pattern: &[u8], text: &[u8]) -> Result<usize, Refusal> {
    let (pattern, text) = read_both(pattern, text, usize::MAX)?;
    Ok(Brute::windowed(&pattern, &text).front()?.len())
}

/// The bytes that the program prints for the bytes of its standard input.
pub fn report(input: &[u8]) -> Vec<u8> {
    let printed = summary(input).unwrap_or_else(|refusal| {
        let Refusal { number, place } = refusal;
        format!("refused place\n{number} {place}\n")
    });
    printed.into_bytes()
}

/// What the program prints unless it refuses.
fn summary(input: &[u8]) -> Result<String, Refusal> {
    test_bytes(input.len())?;
    let (pattern, text) = parted(input);
    let pattern = read_pattern(pattern)?;
    let text = read_text(text, usize::MAX)?;
    let brute = Brute::windowed(&pattern, &text);
    let (front, back) = (brute.front()?, brute.back()?);
    assert_eq!(front.len(), back.len(), "the lists differ in length");
    if front.len() * pattern.count > 16_000 {
        return refuse(8, front.len());
    }
    let [high, low] = halves(brute.tallied()?);
    Ok(format!("count high low\n{} {high} {low}\n{}", front.len(), table(front, back)))
}

/// The places of both lists, a line for each row and slot.
fn table(front: &[Row], back: &[Row]) -> String {
    let mut table = String::from("row slot front back\n");
    for (row, (early, late)) in front.iter().zip(back).enumerate() {
        for (slot, (early, late)) in early.iter().zip(late).enumerate() {
            table += &format!("{} {} {early} {late}\n", row + 1, slot + 1);
        }
    }
    table
}

/// The bytes before the first empty line, and those after it.
fn parted(input: &[u8]) -> (&[u8], &[u8]) {
    let mut seen = 0;
    for line in input.split_inclusive(|&byte| byte == b'\n') {
        if line == b"\n" {
            return (&input[..seen], &input[seen + 1..]);
        }
        seen += line.len();
    }
    (input, &[])
}
