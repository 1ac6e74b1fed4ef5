//! For trying what document 01 says: a deterministic source of numbers that
//! look random (splitmix64).

use std::ops::RangeInclusive;

/// Draws numbers. The same seed always gives the same numbers.
pub struct Draw {
    state: u64,
}

impl Draw {
    pub fn new(seed: u64) -> Draw {
        Draw { state: seed }
    }

    /// Any number.
    pub fn number(&mut self) -> u64 {
        self.state = self.state.wrapping_add(0x9E37_79B9_7F4A_7C15);
        let mut mixed = self.state;
        mixed = (mixed ^ (mixed >> 30)).wrapping_mul(0xBF58_476D_1CE4_E5B9);
        mixed = (mixed ^ (mixed >> 27)).wrapping_mul(0x94D0_49BB_1331_11EB);
        mixed ^ (mixed >> 31)
    }

    /// A number below `end`, or 0 where there is none.
    pub fn below(&mut self, end: u64) -> u64 {
        self.number() % end.max(1)
    }

    /// A number of this range, or its start where there is none.
    pub fn between(&mut self, range: RangeInclusive<u64>) -> u64 {
        let span = range.end().saturating_sub(*range.start());
        range.start() + self.below(span.saturating_add(1))
    }

    /// A place in a table of this length, or 0 where there is none.
    pub fn place(&mut self, length: usize) -> usize {
        self.below(length as u64) as usize
    }

    /// One of these choices. The first stands in for the rest of an empty list.
    pub fn choice<T: Copy>(&mut self, first: T, others: &[T]) -> T {
        let place = self.place(others.len() + 1);
        place
            .checked_sub(1)
            .and_then(|place| others.get(place).copied())
            .unwrap_or(first)
    }

    /// True once in so many draws.
    pub fn once_in(&mut self, draws: u64) -> bool {
        self.below(draws) == 0
    }

    /// A coordinate from −reach to reach.
    pub fn coordinate(&mut self, reach: i32) -> i32 {
        let reach = i64::from(reach).abs();
        let drawn = self.below(2 * reach as u64 + 1) as i64 - reach;
        drawn.clamp(i32::MIN.into(), i32::MAX.into()) as i32
    }

    /// The numbers 0 to `count` − 1 in some order.
    pub fn permutation(&mut self, count: usize) -> Vec<usize> {
        let mut numbers: Vec<usize> = (0..count).collect();
        for last in (1..count).rev() {
            numbers.swap(self.place(last + 1), last);
        }
        numbers
    }
}

#[cfg(test)]
mod tests {
    use super::Draw;

    #[test]
    fn the_first_numbers_are_those_of_splitmix64() {
        let mut draw = Draw::new(1_234_567);
        assert_eq!(draw.number(), 6_457_827_717_110_365_317);
        assert_eq!(draw.number(), 3_203_168_211_198_807_973);
    }

    #[test]
    fn a_permutation_has_each_number_once() {
        let mut numbers = Draw::new(5).permutation(100);
        assert_ne!(numbers, (0..100).collect::<Vec<_>>());
        numbers.sort();
        assert_eq!(numbers, (0..100).collect::<Vec<_>>());
    }
}
