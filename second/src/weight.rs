//! Document 02, §4, "The weight from the paper": beside document 01's short
//! weight that of source document 002's rule V.3, chosen per call.

use std::ops::RangeInclusive;
use std::sync::LazyLock;

use crate::interval::{cosine, pi, Interval};

/// By which weight the spokes of an inner vertex count.
#[derive(Clone, Copy, Debug, PartialEq, Eq)]
pub enum Weight {
    /// Document 01's short weight, 3/(8n) for every valence n.
    Short,
    /// The paper's weight, for a valence from 2 to 32.
    Paper,
}

/// The valences that have an entry: from 2 to 32.
pub const VALENCES: RangeInclusive<usize> = 2..=32;

/// How many parts make one: 2^24.
pub const WHOLE: u32 = 1 << 24;

/// The weight of one spoke at an inner vertex of this valence: a whole number of
/// 2^24ths, nearest to the formula. None where the valence has no entry.
pub fn paper_part(valence: usize) -> Option<u32> {
    let entry = valence.checked_sub(*VALENCES.start())?;
    PAPER_PARTS.get(entry).copied()
}

/// The 31 entries, worked out once.
static PAPER_PARTS: LazyLock<Vec<u32>> = LazyLock::new(|| {
    let entries = VALENCES.map(|valence| nearest_part(valence as i128));
    entries.collect()
});

/// The nearest whole number of 2^24ths. It is not guessed: where the bounds do
/// not make sure of it, there is no table.
fn nearest_part(valence: i128) -> u32 {
    let parts = paper_weight(valence).times(WHOLE.into());
    let nearest = parts.nearest().expect("bounds that leave one nearest");
    u32::try_from(nearest).expect("a weight from 0 to 1")
}

/// (5/8 − (3/8 + cos(2π/n)/4)²)/n, the formula of rule V.3.
fn paper_weight(n: i128) -> Interval {
    let cosine = cosine(pi().times(2).over(n));
    let base = Interval::fraction(3, 8) + cosine.over(4);
    (Interval::fraction(5, 8) - base * base).over(n)
}

#[cfg(test)]
mod tests {
    use super::{paper_part, paper_weight, VALENCES, WHOLE};
    use crate::interval::Interval;

    /// The bounds make sure of every entry, and with room to spare: they might
    /// lie wider apart by a thousandth of a part on either side.
    #[test]
    fn every_entry_is_sure() {
        let thousandth = Interval::fraction(1, 1_000);
        for valence in VALENCES {
            let parts = paper_weight(valence as i128).times(WHOLE.into());
            let nearest = parts.give_or_take(thousandth).nearest();
            assert_eq!(nearest, paper_part(valence).map(i128::from), "{valence}");
            assert!(nearest.is_some(), "{valence}");
        }
    }

    /// The bounds lie less than a millionth of a part from each other: taken
    /// from itself, a number is zero, give or take what its bounds leave open.
    #[test]
    fn every_weight_is_known_closely() {
        for valence in VALENCES {
            let parts = paper_weight(valence as i128).times(WHOLE.into());
            let open = (parts - parts).times(500_000);
            assert_eq!(open.nearest(), Some(0), "{valence}");
        }
    }
}
