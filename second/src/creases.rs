//! Document 02, §6, "Edges that stay sharp": the numbers of the crease table,
//! refusal 15, and which edges of a level are creases.

use crate::cage::Cage;

/// The highest number that an edge may have.
pub const CREASE_LIMIT: u8 = 10;

/// The lowest edge whose number is above 10, or which is on a border and has
/// another than 0, in a cage that keeps the rules 1 to 6.
pub(crate) fn lowest_bad_crease(cage: &Cage) -> Option<usize> {
    let mut most = vec![CREASE_LIMIT; cage.creases.len()];
    for h in cage.borders() {
        most[cage.edge_of(h)] = 0;
    }
    (0..most.len()).find(|&edge| cage.creases[edge] > most[edge])
}

/// The crease table of the next level. The two halves of an edge stand side by
/// side, both with its number less one; the edges across a triangle come last.
pub(crate) fn next_creases(level: &Cage) -> Vec<u8> {
    let halves = level
        .creases
        .iter()
        .flat_map(|number| [number.saturating_sub(1); 2]);
    let across = std::iter::repeat_n(0, level.halfedge_count());
    halves.chain(across).collect()
}

/// Whether the edge of `h` is a crease: on a border, or of a number above 0.
pub(crate) fn is_on_crease(level: &Cage, h: usize) -> bool {
    level.twin_of(h).is_none() || level.creases[level.edge_of(h)] > 0
}

/// The two ends of each crease of a level, one crease after the other. Of the
/// halfedges that carry an edge one is above its twin.
pub(crate) fn ends_of_creases(level: &Cage) -> impl Iterator<Item = [usize; 2]> + '_ {
    level
        .halfedges()
        .filter(|&h| level.is_above_twin(h) && is_on_crease(level, h))
        .map(|h| [level.vert_of(h), level.far_end(h)])
}

#[cfg(test)]
mod tests {
    use super::{ends_of_creases, lowest_bad_crease, next_creases};
    use crate::cage::Cage;
    use crate::sew::sew;

    /// Two triangles with the edge from 1 to 2 between them, which is edge 1.
    fn pair() -> Cage {
        sew([[0, 1, 2], [2, 1, 3]])
    }

    fn with_numbers(creases: [u8; 5]) -> Cage {
        Cage {
            creases: creases.to_vec(),
            ..pair()
        }
    }

    #[test]
    fn the_lowest_edge_answers() {
        let lowest = |numbers| lowest_bad_crease(&with_numbers(numbers));
        assert_eq!(lowest([0; 5]), None);
        assert_eq!(lowest([0, 10, 0, 0, 0]), None);
        assert_eq!(lowest([0, 11, 0, 0, 0]), Some(1));
        assert_eq!(lowest([0, 255, 1, 0, 255]), Some(1));
        assert_eq!(lowest([0, 10, 0, 1, 1]), Some(3));
        assert_eq!(lowest([1, 11, 0, 0, 0]), Some(0));
    }

    #[test]
    fn halves_carry_the_number_less_one() {
        let numbers = next_creases(&with_numbers([0, 10, 0, 0, 0]));
        assert_eq!(numbers[..10], [0, 0, 9, 9, 0, 0, 0, 0, 0, 0]);
        assert_eq!(numbers[10..], [0; 6]);
        let numbers = next_creases(&with_numbers([0, 1, 0, 0, 0]));
        assert_eq!(numbers, [0; 16]);
    }

    #[test]
    fn borders_are_creases() {
        let ends = |cage: Cage| {
            let sorted = ends_of_creases(&cage).map(|[a, b]| [a.min(b), a.max(b)]);
            let mut ends: Vec<[usize; 2]> = sorted.collect();
            ends.sort();
            ends
        };
        assert_eq!(ends(pair()), [[0, 1], [0, 2], [1, 3], [2, 3]]);
        let creased = with_numbers([0, 3, 0, 0, 0]);
        assert_eq!(ends(creased), [[0, 1], [0, 2], [1, 2], [1, 3], [2, 3]]);
    }
}
