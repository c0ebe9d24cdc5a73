//! Sets of numbers from 0 up, with a bit for each.

/// A set of numbers below 64 times so many blocks.
#[derive(Debug, PartialEq, Eq)]
pub struct Numbers<const BLOCKS: usize>(Vec<u64>);

impl<const BLOCKS: usize> Numbers<BLOCKS> {
    /// The set of these numbers.
    pub fn of(numbers: &[u16]) -> Self {
        let mut set = Numbers(vec![0; BLOCKS]);
        for &number in numbers {
            set.0[number as usize / 64] |= 1 << (number % 64);
        }
        set
    }

    /// The numbers below a bound.
    fn below(bound: usize) -> Self {
        let mut set = Numbers(vec![0; BLOCKS]);
        set.0[..bound / 64].fill(u64::MAX);
        if let Some(block) = set.0.get_mut(bound / 64) {
            *block = (1 << (bound % 64)) - 1;
        }
        set
    }

    /// The numbers from `first` to `last`, both included.
    pub fn range(first: u16, last: u16) -> Self {
        Self::below(last as usize + 1).without(&Self::below(first as usize))
    }

    /// The numbers in both sets.
    pub fn and(&self, other: &Self) -> Self {
        Numbers(self.0.iter().zip(&other.0).map(|(one, other)| one & other).collect())
    }

    /// The numbers of this set that are not in the other.
    pub fn without(&self, other: &Self) -> Self {
        Numbers(self.0.iter().zip(&other.0).map(|(one, other)| one & !other).collect())
    }

    /// Whether the set has no numbers.
    pub fn is_empty(&self) -> bool {
        self.0.iter().all(|&block| block == 0)
    }

    /// The set's numbers, the smallest first.
    pub fn iter(&self) -> impl DoubleEndedIterator<Item = u16> + '_ {
        let blocks = (0..BLOCKS).filter(|&block| self.0[block] != 0);
        blocks.flat_map(move |block| {
            let held = move |bit: &usize| self.0[block] >> bit & 1 == 1;
            (0..64).filter(held).map(move |bit| (64 * block + bit) as u16)
        })
    }
}

#[cfg(test)]
mod tests {
    use super::*;

    /// The set's numbers, one by one.
    fn numbers<const BLOCKS: usize>(set: &Numbers<BLOCKS>) -> Vec<u16> {
        set.iter().collect()
    }

    /// Ranges have the numbers from their first to their last, and backwards the same.
    #[test]
    fn ranges() {
        let ends = [0, 1, 2, 62, 63, 64, 65, 127, 128, 20_000, 32_767, 32_768, 65_534, 65_535];
        for (first, last) in ends.into_iter().flat_map(|first| ends.map(|last| (first, last))) {
            let range = Numbers::<1024>::range(first, last);
            assert_eq!(numbers(&range), (first..=last).collect::<Vec<u16>>());
            assert_eq!(range.iter().rev().collect::<Vec<u16>>(), (first..=last).rev().collect::<Vec<u16>>());
        }
        let all = (0..=63).flat_map(|first| (0..=63).map(move |last| (first, last)));
        for (first, last) in all {
            assert_eq!(numbers(&Numbers::<1>::range(first, last)), (first..=last).collect::<Vec<u16>>());
        }
    }

    /// What is in both sets, and in one but not in the other, agrees with asking every number.
    #[test]
    fn two_sets() {
        let (one, other) = ([0, 1, 63, 64, 300, 65_535], [1, 2, 64, 299, 300, 301, 32_768, 65_535]);
        let [one_set, other_set] = [Numbers::<1024>::of(&one), Numbers::of(&other)];
        assert_eq!((numbers(&one_set), numbers(&other_set)), (one.to_vec(), other.to_vec()));
        let asked = |holds: fn(bool, bool) -> bool| {
            let in_set = |number: &u16| holds(one.contains(number), other.contains(number));
            (0..=65_535).filter(in_set).collect::<Vec<u16>>()
        };
        assert_eq!(numbers(&one_set.and(&other_set)), asked(|one, other| one && other));
        assert_eq!(numbers(&one_set.without(&other_set)), asked(|one, other| one && !other));
        assert_eq!(numbers(&Numbers::<1024>::of(&[])), []);
        for set in [Numbers::of(&[]), Numbers::of(&[0]), Numbers::of(&[65_535]), one_set.without(&one_set), one_set] {
            assert_eq!(set.is_empty(), numbers(&set).is_empty());
        }
    }
}
