//! The library's tally, its column and its list of all occurrences, written by hand in ordinary safe Rust.

use compare::halves::halves;
use compare::layout::{Pattern, Slot};
use std::mem::swap;

/// In a table: there is no such index.
const NONE: u16 = u16::MAX;

/// A pattern and a text, with all that the windows share.
struct Input<'a> {
    slots: &'a [Slot],
    /// For each slot, which words of the text it takes.
    takes: Vec<Vec<bool>>,
    /// For each slot, how far it can be from the first.
    reach: Vec<usize>,
    /// For each index, the last place that a row from there can have: where its sentence ends, or the text.
    lasts: Vec<u16>,
    least: usize,
    most: usize,
    words: usize,
}

/// The places looked at in one go: from the index `start` on, so many for each slot, the last place of a row at or after `from`.
struct Window {
    start: usize,
    widths: Vec<usize>,
    from: usize,
}

/// Whether the slot takes the word: one that it lists, or if it is excluding, any other but 0.
pub fn takes(slot: &Slot, word: u16) -> bool {
    let lists = slot.words[..slot.count].contains(&word);
    if slot.excluding {
        word != 0 && !lists
    } else {
        lists
    }
}

/// For each index, where its sentence ends, or the text.
fn horizons(text: &[u16]) -> Vec<u16> {
    let mut lasts = vec![0; text.len()];
    let mut last = text.len() as u16;
    for (i, (entry, &word)) in lasts.iter_mut().zip(text).enumerate().rev() {
        *entry = last;
        if word == 0 {
            last = (i + 1) as u16;
        }
    }
    lasts
}

impl<'a> Input<'a> {
    /// The pattern and the text, made ready.
    fn new(pattern: &'a Pattern, text: &[u16]) -> Self {
        let slots = &pattern.slots[..pattern.count];
        let takes = |slot: &Slot| text.iter().map(|&word| takes(slot, word)).collect();
        let distance = |sum: &mut usize, slot: &Slot| {
            *sum += slot.high as usize + 1;
            Some(*sum - 1)
        };
        Input {
            slots,
            takes: slots.iter().map(takes).collect(),
            reach: slots.iter().scan(0, distance).collect(),
            lasts: horizons(text),
            least: pattern.least as usize,
            most: pattern.most as usize,
            words: text.len(),
        }
    }

    /// Whether the span limits leave out no row that the gaps allow.
    fn unbound(&self) -> bool {
        let narrowest = self.slots.iter().map(|slot| slot.low as usize + 1).sum();
        self.least <= narrowest && self.widest().min(self.words) <= self.most
    }

    /// The largest span that the gaps allow.
    fn widest(&self) -> usize {
        self.reach[self.slots.len() - 1] + 1
    }

    /// Hands over a window for each sentence.
    fn each_sentence(&self, mut take: impl FnMut(&Window)) {
        let mut window = Window { start: 0, widths: vec![0; self.slots.len()], from: 0 };
        while window.start < self.words {
            let end = self.lasts[window.start] as usize;
            window.widths.fill(end - window.start);
            take(&window);
            window.start = end;
        }
    }

    /// Hands over a window for each first place, with the places that a row from there can have.
    fn each_start(&self, mut take: impl FnMut(&Window)) {
        let widest = self.widest().min(self.most);
        let mut window = Window { start: 0, widths: vec![0; self.slots.len()], from: 0 };
        for start in (0..self.words).filter(|&start| self.takes[0][start]) {
            let room = widest.min(self.lasts[start] as usize - start);
            window.start = start;
            window.from = start + self.least;
            for (width, reach) in window.widths.iter_mut().zip(&self.reach) {
                *width = room.min(reach + 1);
            }
            take(&window);
        }
    }

    /// Hands over a window for each sentence, or where the span limits leave rows out, for each first place.
    fn each_window(&self, take: impl FnMut(&Window)) {
        if self.unbound() {
            self.each_sentence(take);
        } else {
            self.each_start(take);
        }
    }

    /// How many rows start in the window at its first index or later, by suffix sums from the last slot to the first.
    /// Leaves the first slot's sums: how many start at each index or later.
    fn ways(&self, window: &Window, sums: &mut Vec<u128>, next: &mut Vec<u128>) -> u128 {
        let start = window.start;
        let last = self.slots.len() - 1;
        let mut width = window.widths[last];
        sums[width] = 0;
        for i in (0..width).rev() {
            let ends = self.takes[last][start + i] && window.from <= start + i + 1;
            sums[i] = sums[i + 1] + ends as u128;
        }
        for j in (0..last).rev() {
            swap(sums, next);
            let (low, high) = (self.slots[j + 1].low as usize, self.slots[j + 1].high as usize);
            let beyond = width;
            width = window.widths[j];
            let takes = &self.takes[j][start..start + width];
            let mut sum = 0;
            sums[width] = 0;
            for i in (0..width).rev() {
                if takes[i] {
                    sum += next[(i + low + 1).min(beyond)] - next[(i + high + 2).min(beyond)];
                }
                sums[i] = sum;
            }
        }
        sums[0]
    }

    /// How many occurrences there are. Hands over each window with its first slot's sums.
    fn total(&self, mut take: impl FnMut(&Window, &[u128])) -> u128 {
        let mut sums = vec![0; self.words + 1];
        let mut next = sums.clone();
        let mut total = 0;
        self.each_window(|window| {
            total += self.ways(window, &mut sums, &mut next);
            take(window, &sums);
        });
        total
    }

    /// For each slot and index of the window, the first index from there on where a row can go on to its end.
    fn tabulate(&self, window: &Window, table: &mut [Vec<u16>]) {
        let start = window.start;
        let last = self.slots.len() - 1;
        for j in (0..=last).rev() {
            let width = window.widths[j];
            let (now, after) = table.split_at_mut(j + 1);
            let entries = &mut now[j][..=width];
            let takes = &self.takes[j][start..start + width];
            let mut index = NONE;
            entries[width] = index;
            for i in (0..width).rev() {
                let leads = takes[i]
                    && if j == last {
                        window.from <= start + i + 1
                    } else {
                        let (slot, beyond) = (&self.slots[j + 1], window.widths[j + 1]);
                        let nearest = after[0][(i + slot.low as usize + 1).min(beyond)];
                        nearest as usize <= i + slot.high as usize + 1
                    };
                if leads {
                    index = i as u16;
                }
                entries[i] = index;
            }
        }
    }
}

/// Where the rows are written to, depth first.
struct Walk<'a> {
    slots: &'a [Slot],
    table: &'a [Vec<u16>],
    start: usize,
    row: [u16; 16],
    list: &'a mut [u16],
    written: usize,
}

impl Walk<'_> {
    /// Writes the rows that go on at slot j, at the indexes `from` to `to` of the window.
    fn go(&mut self, j: usize, from: usize, to: usize) {
        let count = self.slots.len();
        let table = self.table;
        let mut index = table[j][from] as usize;
        while index <= to {
            self.row[j] = (self.start + index + 1) as u16;
            if j + 1 == count {
                self.list[self.written..self.written + count].copy_from_slice(&self.row[..count]);
                self.written += count;
            } else {
                let slot = &self.slots[j + 1];
                self.go(j + 1, index + slot.low as usize + 1, index + slot.high as usize + 1);
            }
            index = table[j][index + 1] as usize;
        }
    }
}

/// How many occurrences there are.
pub fn tally(pattern: &Pattern, text: &[u16]) -> u128 {
    Input::new(pattern, text).total(|_, _| ())
}

/// Writes how many occurrences start at each word, high half before low, and says how many words there are.
pub fn starts(pattern: &Pattern, text: &[u16], list: &mut [u64]) -> u64 {
    let (column, _) = list[..2 * text.len()].as_chunks_mut();
    column.fill([0, 0]);
    Input::new(pattern, text).total(|window, sums| {
        let width = window.widths[0];
        let entries = &mut column[window.start..window.start + width];
        for (entry, sums) in entries.iter_mut().zip(sums[..=width].windows(2)) {
            *entry = halves(sums[0] - sums[1]);
        }
    });
    text.len() as u64
}

/// Writes all occurrences, if they have room, and says how many there are.
pub fn all(pattern: &Pattern, text: &[u16], list: &mut [u16]) -> Option<u64> {
    let input = Input::new(pattern, text);
    let total = input.total(|_, _| ());
    if ((list.len() / pattern.count) as u128) < total {
        return None;
    }
    let mut table = vec![vec![NONE; text.len() + 1]; pattern.count];
    let mut written = 0;
    input.each_window(|window| {
        input.tabulate(window, &mut table);
        let (slots, table, start) = (input.slots, &table, window.start);
        let mut walk = Walk { slots, table, start, row: [0; 16], list: &mut *list, written };
        walk.go(0, 0, window.widths[0] - 1);
        written = walk.written;
    });
    Some(total as u64)
}
