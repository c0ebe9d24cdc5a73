//! Numbers of 128 bits and their halves of 64 bits, the high one first, as they cross the C interface.

/// How many numbers a half can be: 2^64.
pub const POWER: u128 = 1 << 64;

/// The high half of a number, and its low half.
pub fn halves(number: u128) -> [u64; 2] {
    [(number / POWER) as u64, (number % POWER) as u64]
}

/// The number with these halves.
pub fn whole(high: u64, low: u64) -> u128 {
    u128::from(high) * POWER + u128::from(low)
}

/// The halves of several numbers, one number after another.
pub fn halved(numbers: &[u128]) -> Vec<u64> {
    numbers.iter().flat_map(|&number| halves(number)).collect()
}

/// The numbers whose halves stand in a list, one number after another.
pub fn wholes(list: &[u64]) -> Vec<u128> {
    list.chunks_exact(2).map(|pair| whole(pair[0], pair[1])).collect()
}

/// The sum of several numbers, which must not pass 128 bits.
pub fn sum(numbers: &[u128]) -> u128 {
    let add = |sum: u128, number: &u128| sum.checked_add(*number);
    numbers.iter().try_fold(0, add).expect("the sum passes 128 bits")
}

#[cfg(test)]
mod tests {
    use super::*;

    /// Numbers on both sides of 2^64, at both ends, and with unlike halves, and back.
    #[test]
    fn numbers_and_halves() {
        let stated: [(u128, [u64; 2]); 9] = [
            (0, [0, 0]),
            (6, [0, 6]),
            (18_446_744_073_709_551_615, [0, u64::MAX]),
            (18_446_744_073_709_551_616, [1, 0]),
            (18_446_744_073_709_551_617, [1, 1]),
            (36_893_488_147_419_103_231, [1, u64::MAX]),
            (20_129_556_484_108_337_682, [1, 1_682_812_410_398_786_066]),
            (u128::MAX - 1, [u64::MAX, u64::MAX - 1]),
            (u128::MAX, [u64::MAX, u64::MAX]),
        ];
        for (number, [high, low]) in stated {
            assert_eq!((halves(number), whole(high, low)), ([high, low], number));
        }
        let (numbers, list) = (stated.map(|(number, _)| number), stated.map(|(_, halves)| halves).concat());
        assert_eq!((halved(&numbers), wholes(&list)), (list, numbers.to_vec()));
    }

    /// Sums whose low halves carry, up to the greatest number.
    #[test]
    fn sums() {
        assert_eq!([sum(&[]), sum(&[7]), sum(&[POWER - 1, 1])], [0, 7, POWER]);
        assert_eq!(halves(sum(&[whole(3, u64::MAX), whole(4, u64::MAX), 1])), [8, u64::MAX]);
        assert_eq!(sum(&[u128::MAX - 5, 5]), u128::MAX);
    }

    /// No sum wraps around.
    #[test]
    #[should_panic(expected = "the sum passes 128 bits")]
    fn too_great_a_sum() {
        sum(&[u128::MAX, 1]);
    }
}
