//! The measured calls, by the library and by hand.

use crate::{by_hand, by_hand_all, by_hand_file, by_hand_merge, by_hand_recode};
use compare::cases::written::MOST_BYTES;
use compare::ffi;
use compare::halves::whole;
use compare::layout::{Answer, Found, Made, Pattern, Total};
use std::fmt;
use std::hint::black_box;
use std::process::exit;

/// How many searches make up a call that searches.
const SEARCHES: usize = 100;

/// How many files make up a call that writes files.
const FILES: usize = 100;

/// How many merges make up a call that merges.
const MERGES: usize = 100;

/// The code that texts are recoded to; no word of theirs.
const CODE: u16 = 65_535;

/// A call of the library, or so many searches, files, merges or recodings.
#[derive(Clone, Copy, PartialEq)]
pub enum Call {
    Front,
    Back,
    Count,
    Tally,
    Starts,
    All,
    Forward,
    Backward,
    Write,
    Merge,
    /// So many recodings.
    Recode(usize),
}

/// What a call reads: a pattern, one to merge it with, a text, its class bytes, and an expression to recode it by.
#[derive(Clone)]
pub struct Given {
    pub pattern: Pattern,
    pub second: Pattern,
    pub text: Vec<u16>,
    pub classes: Vec<u8>,
    pub expression: Vec<u8>,
}

/// The lists that a call writes to, and the pattern that it makes.
#[derive(Clone, PartialEq)]
pub struct Lists {
    pub places: Vec<u16>,
    pub numbers: Vec<u64>,
    pub bytes: Vec<u8>,
    pub made: Option<Pattern>,
}

impl Lists {
    /// Sets all entries to 0, and takes the pattern away.
    pub fn clear(&mut self) {
        self.places.fill(0);
        self.numbers.fill(0);
        self.bytes.fill(0);
        self.made = None;
    }
}

impl fmt::Display for Call {
    fn fmt(&self, out: &mut fmt::Formatter) -> fmt::Result {
        match self {
            Call::Front => out.write_str("front list"),
            Call::Back => out.write_str("back list"),
            Call::Count => out.write_str("count"),
            Call::Tally => out.write_str("tally"),
            Call::Starts => out.write_str("column"),
            Call::All => out.write_str("all"),
            Call::Forward => write!(out, "{SEARCHES} forward searches"),
            Call::Backward => write!(out, "{SEARCHES} backward searches"),
            Call::Write => write!(out, "{FILES} pattern files"),
            Call::Merge => write!(out, "{MERGES} merges"),
            Call::Recode(1) => out.write_str("recoding"),
            Call::Recode(times) => write!(out, "{times} recodings"),
        }
    }
}

/// Ends the run with a message.
pub fn fail(message: &str) -> ! {
    eprintln!("{message}");
    exit(1)
}

/// Ends the run because of a refusal.
fn refused(number: u32) -> ! {
    fail(&format!("the library refused a call with number {number}"))
}

/// The answer's value.
fn value(answer: Answer) -> u128 {
    match answer.number {
        0 => answer.value as u128,
        number => refused(number),
    }
}

/// The total's number.
fn total(total: Total) -> u128 {
    match total.number {
        0 => whole(total.high, total.low),
        number => refused(number),
    }
}

/// The places of the row that a search found.
fn places(found: Found) -> Option<[u16; 16]> {
    match found.number {
        0 => (found.found == 1).then_some(found.places),
        number => refused(number),
    }
}

/// The pattern that a call made.
fn made(made: Made) -> Pattern {
    match made.number {
        0 => made.pattern,
        number => refused(number),
    }
}

/// What a call by hand gives; ends the run if it refuses.
fn answered<T>(answer: Option<T>) -> T {
    answer.unwrap_or_else(|| fail("by hand refused a call"))
}

/// A search with a pattern, a text and marks: the places of the row that it finds.
type Search = fn(&Pattern, &[u16], &[u16]) -> Option<[u16; 16]>;

/// Searches past evenly spaced marks, the same at every slot: how many rows there are. They are written one after the other.
fn searches(call: Call, search: Search, pattern: &Pattern, text: &[u16], list: &mut [u16]) -> u128 {
    let mut rows = 0;
    let mut room = list.chunks_exact_mut(pattern.count);
    for k in 0..SEARCHES {
        let passed = k * text.len() / SEARCHES;
        let mark = if call == Call::Forward { passed } else { text.len() + 1 - passed };
        if let Some(places) = search(pattern, text, &[mark as u16; 16][..pattern.count]) {
            let entries = room.next().expect("the list has room for every row");
            entries.copy_from_slice(&places[..pattern.count]);
            rows += 1;
        }
    }
    rows
}

/// A call that writes a pattern's file: how many bytes.
type Write = fn(&Pattern, &mut [u8]) -> u128;

/// Writes the pattern's file again and again: how many bytes it has.
fn files(write: Write, pattern: &Pattern, bytes: &mut [u8]) -> u128 {
    (0..FILES).fold(0, |_, _| write(black_box(pattern), black_box(bytes)))
}

/// Merges the patterns again and again: what the last merge answers.
fn merges<M>(merge: fn(&Pattern, &Pattern) -> M, first: &Pattern, second: &Pattern) -> M {
    for _ in 1..MERGES {
        black_box(&merge(black_box(first), black_box(second)));
    }
    merge(black_box(first), black_box(second))
}

/// A call that recodes a text by its class bytes, an expression and a code: how many words.
type Recode = fn(&[u16], &[u8], &[u8], u16, &mut [u16]) -> u128;

/// Recodes the text so many times: how many words it has.
fn recodings(times: usize, recode: Recode, given: &Given, list: &mut [u16]) -> u128 {
    let Given { text, classes, expression, .. } = given;
    (0..times).fold(0, |_, _| recode(black_box(text), classes, black_box(expression), CODE, black_box(list)))
}

/// Keeps the pattern that was made: how many words it lists.
fn keep(made: Pattern, lists: &mut Lists) -> u128 {
    lists.made = Some(made);
    made.slots.iter().map(|slot| slot.count as u128).sum()
}

/// The library's call: its value, and what it writes to the lists.
pub fn library(call: Call, given: &Given, lists: &mut Lists) -> u128 {
    let Given { pattern, second, text, .. } = given;
    let list = &mut lists.places[..];
    match call {
        Call::Front => value(ffi::leftmost(pattern, text, list)),
        Call::Back => value(ffi::rightmost(pattern, text, list)),
        Call::Count => value(ffi::support(pattern, text)),
        Call::Tally => total(ffi::tally(pattern, text)),
        Call::Starts => value(ffi::starts(pattern, text, &mut lists.numbers)),
        Call::All => value(ffi::all(pattern, text, list)),
        Call::Forward => searches(call, |p, t, m| places(ffi::first_after(p, t, m)), pattern, text, list),
        Call::Backward => searches(call, |p, t, m| places(ffi::last_before(p, t, m)), pattern, text, list),
        Call::Write => files(|p, bytes| value(ffi::write_pattern(p, bytes)), pattern, &mut lists.bytes),
        Call::Merge => keep(made(merges(ffi::merge, pattern, second)), lists),
        Call::Recode(times) => {
            recodings(times, |t, c, e, code, out| value(ffi::recode(t, c, e, code, out)), given, list)
        }
    }
}

/// The same by hand.
pub fn by_hand(call: Call, given: &Given, lists: &mut Lists) -> u128 {
    let Given { pattern, second, text, .. } = given;
    let list = &mut lists.places[..];
    match call {
        Call::Front => by_hand::leftmost(pattern, text, list) as u128,
        Call::Back => by_hand::rightmost(pattern, text, list) as u128,
        Call::Count => by_hand::support(pattern, text) as u128,
        Call::Tally => by_hand_all::tally(pattern, text),
        Call::Starts => by_hand_all::starts(pattern, text, &mut lists.numbers) as u128,
        Call::All => answered(by_hand_all::all(pattern, text, list)) as u128,
        Call::Forward => searches(call, by_hand::first_after, pattern, text, list),
        Call::Backward => searches(call, by_hand::last_before, pattern, text, list),
        Call::Write => {
            files(|p, bytes| answered(by_hand_file::write_pattern(p, bytes)) as u128, pattern, &mut lists.bytes)
        }
        Call::Merge => keep(answered(merges(by_hand_merge::merge, pattern, second)), lists),
        Call::Recode(times) => {
            let recode: Recode = |t, c, e, code, out| answered(by_hand_recode::recode(t, c, e, code, out)) as u128;
            recodings(times, recode, given, list)
        }
    }
}

/// Empty lists with the room that the call needs.
pub fn room(call: Call, given: &Given) -> Lists {
    let Given { pattern, text, .. } = given;
    let rows = match call {
        Call::Front | Call::Back | Call::Recode(_) => text.len(),
        Call::Forward | Call::Backward => SEARCHES,
        Call::Count | Call::Tally | Call::Starts | Call::Write | Call::Merge => 0,
        Call::All => match by_hand_all::tally(pattern, text) {
            rows @ 0..10_000_000 => rows as usize,
            _ => fail("a case has too many occurrences to list"),
        },
    };
    let numbers = if call == Call::Starts { 2 * text.len() } else { 0 };
    let bytes = if call == Call::Write { MOST_BYTES } else { 0 };
    Lists { places: vec![0; rows * pattern.count], numbers: vec![0; numbers], bytes: vec![0; bytes], made: None }
}
