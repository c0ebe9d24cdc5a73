//! The measured cases: a selection of texts, slots, gaps, spans and calls.

use crate::calls::{by_hand, fail, library, room, Call, Given, Lists};
use crate::clock::{rivals, Compared};
use crate::netback::{netback, Visits};
use crate::texts::{classes, expression, patterns, span_limits, text, Kind, Spans, WORDS};

/// How long NetBack may take for one case.
pub const LIMIT_MS: f64 = 2_000.0;

/// A text, a pattern with gaps from 0 to `high`, and a call.
#[derive(Clone, Copy)]
pub struct Case {
    pub kind: Kind,
    pub slots: usize,
    pub high: u16,
    pub spans: Spans,
    pub call: Call,
}

/// A case ready to run.
pub struct Ready {
    pub call: Call,
    pub given: Given,
    pub lists: Lists,
}

/// What NetBack did with a case: its rows, whether they are the front list, its time, and how many times the library's that is.
pub struct Rival {
    pub rows: usize,
    pub same: bool,
    pub ms: f64,
    pub times: f64,
}

/// NetBack as written and with one visit to a node; nothing where it took longer than its limit.
pub struct Rivals {
    pub any: Option<Rival>,
    pub once: Option<Rival>,
}

/// What was measured of a case, in milliseconds, with the library's ratio to by hand; NetBack for the front list only.
pub struct Measured {
    pub case: Case,
    pub value: u128,
    pub library: f64,
    pub by_hand: f64,
    pub ratio: f64,
    pub netback: Option<Rivals>,
}

impl Case {
    /// Makes the case's patterns, text, class bytes, expression and lists.
    pub fn ready(&self, words: usize) -> Ready {
        let text = text(self.kind, words);
        let [pattern, second] = patterns(self.kind, self.spans, self.slots, self.high);
        let (classes, expression) = (classes(text.len()), expression(self.kind));
        let given = Given { pattern, second, text, classes, expression };
        let lists = room(self.call, &given);
        Ready { call: self.call, given, lists }
    }

    /// The case in words.
    pub fn describe(&self) -> String {
        let (least, most) = span_limits(self.kind, self.spans, self.slots, self.high);
        let Case { kind, slots, high, call, .. } = self;
        if let Call::Recode(_) = call {
            return format!("{kind} | – | – | – | {call}");
        }
        format!("{kind} | {slots} | 0–{high} | {least}–{most} | {call}")
    }

    /// The case after the library's call, and the call's value; ends the run if by hand gives or writes anything else.
    pub fn compared(&self, words: usize) -> (Ready, u128) {
        let mut ready = self.ready(words);
        let expected = ready.by_hand();
        let written = ready.lists.clone();
        ready.lists.clear();
        let value = ready.library();
        if value != expected || ready.lists != written {
            fail(&format!("library and by hand differ: {}", self.describe()));
        }
        (ready, value)
    }

    /// Compares the answers, then measures the library, the same by hand and, for the front list, NetBack.
    pub fn measure(&self) -> Measured {
        let (mut ready, value) = self.compared(WORDS);
        let netback = (self.call == Call::Front)
            .then(|| Rivals { any: ready.netback(Visits::Any, value), once: ready.netback(Visits::Once, value) });
        let Ready { call, given, lists } = &mut ready;
        let mut other = lists.clone();
        let Compared { one, other, ratio } =
            rivals(|| library(*call, given, lists), || by_hand(*call, given, &mut other));
        Measured { case: *self, value, library: one, by_hand: other, ratio, netback }
    }
}

impl Ready {
    /// The library's call.
    pub fn library(&mut self) -> u128 {
        library(self.call, &self.given, &mut self.lists)
    }

    /// The same by hand.
    pub fn by_hand(&mut self) -> u128 {
        by_hand(self.call, &self.given, &mut self.lists)
    }

    /// Runs NetBack within its limit, and compares it with the front list, which has so many rows and is written.
    fn netback(&self, visits: Visits, front: u128) -> Option<Rival> {
        let Ready { call, given, lists } = self;
        let found = netback(&given.pattern, &given.text, visits, LIMIT_MS)?;
        let rows = found.len() / given.pattern.count;
        let same = front == rows as u128 && lists.places.starts_with(&found);
        let mut lists = lists.clone();
        let Compared { one, ratio, .. } =
            rivals(|| netback(&given.pattern, &given.text, visits, LIMIT_MS), || library(*call, given, &mut lists));
        Some(Rival { rows, same, ms: one, times: ratio })
    }
}

/// The cases of one call: each kind of text with each of the slots and gaps, loose and tight.
fn cross(call: Call, kinds: &[Kind], shapes: &[(usize, u16)]) -> Vec<Case> {
    let mut cases = Vec::new();
    for &kind in kinds {
        for &(slots, high) in shapes {
            for spans in [Spans::Loose, Spans::Tight] {
                cases.push(Case { kind, slots, high, spans, call });
            }
        }
    }
    cases
}

/// The cases of the table, in its order.
pub fn cases() -> Vec<Case> {
    let kinds = [Kind::Random, Kind::Zipf, Kind::Equal];
    let loose = |kind, slots, high, call| Case { kind, slots, high, spans: Spans::Loose, call };
    let mut cases = cross(Call::Front, &kinds, &[(2, 3), (8, 3), (16, 3), (4, 63), (16, 63)]);
    for kind in [Kind::Absent, Kind::OutOfReach] {
        cases.push(loose(kind, 4, 3, Call::Front));
        cases.push(loose(kind, 16, 63, Call::Front));
    }
    cases.extend(cross(Call::Back, &kinds, &[(8, 3), (16, 63)]));
    cases.push(loose(Kind::OutOfReach, 16, 63, Call::Back));
    cases.extend(cross(Call::Count, &kinds, &[(8, 3)]));
    cases.extend(cross(Call::Tally, &kinds, &[(2, 3), (8, 3), (16, 63)]));
    cases.push(loose(Kind::Absent, 16, 63, Call::Tally));
    cases.push(Case { spans: Spans::Nearly, ..loose(Kind::Equal, 16, 63, Call::Tally) });
    cases.extend(cross(Call::All, &kinds, &[(4, 3), (2, 63)]));
    cases.extend(cross(Call::All, &[Kind::Random], &[(16, 3)]));
    cases.push(loose(Kind::Absent, 16, 63, Call::All));
    let sentences = [Kind::Sentences];
    cases.extend(cross(Call::Front, &sentences, &[(8, 3), (16, 63)]));
    cases.push(loose(Kind::Sentences, 8, 3, Call::Back));
    cases.push(loose(Kind::Sentences, 16, 63, Call::Back));
    cases.push(loose(Kind::Sentences, 8, 3, Call::Count));
    cases.extend(cross(Call::Tally, &sentences, &[(8, 3)]));
    cases.push(Case { spans: Spans::Tight, ..loose(Kind::Sentences, 4, 63, Call::Tally) });
    cases.extend(cross(Call::All, &sentences, &[(4, 3)]));
    for call in [Call::Forward, Call::Backward] {
        for kind in [Kind::Random, Kind::Zipf, Kind::Equal, Kind::Sentences] {
            cases.push(loose(kind, 4, 3, call));
        }
    }
    for call in [Call::Front, Call::Back, Call::Count, Call::Tally, Call::All, Call::Forward, Call::Backward] {
        for listed in [1, 2, 8] {
            cases.push(loose(Kind::Plain(listed), 3, 3, call));
            cases.push(loose(Kind::Excluding(listed), 3, 3, call));
        }
    }
    cases.push(loose(Kind::Plain(1), 1, 63, Call::Write));
    cases.push(loose(Kind::Plain(8), 16, 63, Call::Write));
    cases.push(loose(Kind::Taken { listed: 1, shared: 1 }, 1, 63, Call::Merge));
    cases.push(loose(Kind::Taken { listed: 8, shared: 4 }, 16, 63, Call::Merge));
    cases.push(loose(Kind::Excluded { listed: 6, shared: 4 }, 16, 63, Call::Merge));
    cases.extend(cross(Call::Starts, &kinds, &[(2, 3), (8, 3)]));
    cases.extend(cross(Call::Starts, &sentences, &[(2, 3), (8, 3)]));
    cases.push(loose(Kind::Equal, 16, 3, Call::Starts));
    cases.push(loose(Kind::Random, 16, 63, Call::Starts));
    cases.push(loose(Kind::Equal, 16, 63, Call::Starts));
    for (words, times) in [(WORDS, 1), (20, 100)] {
        for bytes in [1, 20, 200] {
            cases.push(loose(Kind::Coded { words, bytes }, 1, 0, Call::Recode(times)));
        }
    }
    cases
}
