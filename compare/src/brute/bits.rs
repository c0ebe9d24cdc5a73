//! Sets of numbers from 0 to 1023.

/// How many numbers a set has room for; a pattern's longest span is 15 · 64 + 1 = 961.
pub const ROOM: usize = 1024;

/// How many blocks of 64 bits a set is.
const BLOCKS: usize = ROOM / 64;

/// A set of numbers below `ROOM`.
#[derive(Clone, Copy)]
pub struct Bits([u64; BLOCKS]);

impl Bits {
    /// The set of those numbers that `holds` says yes to.
    pub fn of(holds: impl Fn(usize) -> bool) -> Bits {
        let mut set = Bits([0; BLOCKS]);
        for number in (0..ROOM).filter(|&number| holds(number)) {
            set.0[number / 64] |= 1 << (number % 64);
        }
        set
    }

    /// The set of 0 alone.
    pub fn zero_alone() -> Bits {
        let mut set = Bits([0; BLOCKS]);
        set.0[0] = 1;
        set
    }

    /// The set of those numbers whose bit, counted from bit `from` of the blocks, is 1.
    pub fn cut(blocks: &[u64], from: usize) -> Bits {
        Bits(std::array::from_fn(|at| {
            let low_part = blocks[from / 64 + at];
            joined(low_part, blocks[from / 64 + at + 1], from % 64)
        }))
    }

    /// The numbers of this set that are not below `bound`.
    pub fn without_first(mut self, bound: usize) -> Bits {
        let whole = (bound / 64).min(self.0.len());
        self.0[..whole].fill(0);
        if let Some(block) = self.0.get_mut(whole) {
            *block &= u64::MAX << (bound % 64);
        }
        self
    }

    /// The numbers of this set that are below `bound`.
    pub fn below(mut self, bound: usize) -> Bits {
        let whole = (bound / 64).min(self.0.len());
        if let Some(block) = self.0.get_mut(whole) {
            *block &= !(u64::MAX << (bound % 64));
        }
        self.0.iter_mut().skip(whole + 1).for_each(|block| *block = 0);
        self
    }

    /// The set's smallest number.
    pub fn smallest(&self) -> Option<usize> {
        let block = self.0.iter().position(|&block| block != 0)?;
        Some(block * 64 + self.0[block].trailing_zeros() as usize)
    }

    /// Whether the number is in the set.
    pub fn contains(&self, number: usize) -> bool {
        self.0[number / 64] >> (number % 64) & 1 == 1
    }

    /// The numbers in both sets.
    pub fn and(&self, other: &Bits) -> Bits {
        Bits(std::array::from_fn(|block| self.0[block] & other.0[block]))
    }

    /// The numbers of this set plus each of `low` to `high`, at most 64, those past the room dropped.
    pub fn raised(&self, low: usize, high: usize) -> Bits {
        self.spread(low, high, Bits::up)
    }

    /// The numbers of this set less each of `low` to `high`, at most 64, those below 0 dropped.
    pub fn lowered(&self, low: usize, high: usize) -> Bits {
        self.spread(low, high, Bits::down)
    }

    /// The union of the set moved by each of `low` to `high`.
    fn spread(&self, low: usize, high: usize, moved: fn(&Bits, usize) -> Bits) -> Bits {
        let mut union = moved(self, low);
        let mut done = 1;
        while done < high - low + 1 {
            let step = done.min(high - low + 1 - done);
            union = union.or(&moved(&union, step));
            done += step;
        }
        union
    }

    /// The numbers in one of the sets.
    fn or(&self, other: &Bits) -> Bits {
        Bits(std::array::from_fn(|block| self.0[block] | other.0[block]))
    }

    /// The numbers of this set plus `by`, which is at most 64.
    fn up(&self, by: usize) -> Bits {
        let mut moved = Bits([0; BLOCKS]);
        let mut before = 0;
        for at in 0..BLOCKS {
            moved.0[at] = joined(before, self.0[at], 64 - by);
            before = self.0[at];
        }
        moved
    }

    /// The numbers of this set less `by`, which is at most 64.
    fn down(&self, by: usize) -> Bits {
        let mut moved = Bits([0; BLOCKS]);
        let mut after = 0;
        for at in (0..BLOCKS).rev() {
            moved.0[at] = joined(self.0[at], after, by);
            after = self.0[at];
        }
        moved
    }
}

/// The 64 bits from bit `from` of two blocks laid end to end.
fn joined(low: u64, high: u64, from: usize) -> u64 {
    (((u128::from(high) << 64) | u128::from(low)) >> from) as u64
}

#[cfg(test)]
mod tests {
    use super::*;

    /// The set's numbers, one by one.
    fn numbers(set: &Bits) -> Vec<usize> {
        (0..ROOM).filter(|&number| set.contains(number)).collect()
    }

    /// Cutting sets in two agrees with cutting their numbers.
    #[test]
    fn cuts() {
        let set = Bits::of(|number| number % 3 == 0 || number % 64 > 61);
        for bound in (0..ROOM + 200).chain([usize::MAX]) {
            let (below, above): (Vec<usize>, Vec<usize>) = numbers(&set).iter().partition(|&&number| number < bound);
            assert_eq!(numbers(&set.below(bound)), below);
            assert_eq!(numbers(&set.without_first(bound)), above);
        }
    }

    /// Moving sets agrees with moving their numbers.
    #[test]
    fn moves() {
        let members = [0, 1, 62, 63, 64, 65, 127, 128, 500, 900, 1022, 1023];
        let set = Bits::of(|number| members.contains(&number));
        assert_eq!(numbers(&set), members);
        for (low, high) in [(0, 0), (1, 1), (1, 64), (3, 7), (63, 64), (64, 64), (5, 61)] {
            let raised = Bits::of(|sum| {
                let from = |by: &usize| sum >= *by && members.contains(&(sum - by));
                (low..=high).any(|by| from(&by))
            });
            let lowered = Bits::of(|rest| (low..=high).any(|by| members.contains(&(rest + by))));
            assert_eq!(numbers(&set.raised(low, high)), numbers(&raised));
            assert_eq!(numbers(&set.lowered(low, high)), numbers(&lowered));
        }
    }
}
