//! Document 02, "Edges that stay sharp": the crease table of a cage.

use crate::cage::HALFEDGE_LIMIT;
use crate::{edges, Cage};

/// The highest number of a crease.
pub const CREASE_LIMIT: u8 = 10;

/// The creases of a cage without any: it has at most as many edges as
/// halfedges.
static NO_CREASES: [u8; HALFEDGE_LIMIT] = [0; HALFEDGE_LIMIT];

/// A zero for each edge of a TWIN table.
pub(crate) fn no_creases(twin: &[u32]) -> Vec<u8> {
    vec![0; edges(twin) as usize]
}

impl<'a> Cage<'a> {
    /// The crease table as it is handed over: the one that there is, or else a
    /// zero for each edge.
    ///
    /// Where there is none and the cage has more edges than halfedges are
    /// allowed, it is empty: such a cage is refused by 1 or 2, before the length
    /// of its creases is looked at.
    pub fn crease_table(&self) -> &'a [u8] {
        match self.creases {
            Some(creases) => creases,
            None => NO_CREASES
                .get(..edges(self.twin) as usize)
                .unwrap_or_default(),
        }
    }
}

#[cfg(test)]
mod tests {
    use crate::{Cage, HALFEDGE_LIMIT, MARKER};

    fn without_creases(twin: &[u32]) -> Cage<'_> {
        Cage {
            twin,
            ..Cage::default()
        }
    }

    #[test]
    fn without_creases_there_is_a_zero_for_each_edge() {
        for (twin, edges) in [
            (&[][..], 0),
            (&[MARKER; 3], 3),
            (&[5, 4, 3, 2, 1, 0], 3),
            (&[MARKER; HALFEDGE_LIMIT], HALFEDGE_LIMIT),
        ] {
            let cage = without_creases(twin);
            assert_eq!(cage.crease_table(), vec![0; edges]);
        }
    }

    #[test]
    fn of_more_edges_than_a_cage_may_have_halfedges_there_is_no_table() {
        for halfedges in [HALFEDGE_LIMIT + 1, HALFEDGE_LIMIT + 3, 100_000] {
            let twin = vec![MARKER; halfedges];
            assert_eq!(without_creases(&twin).crease_table(), []);
        }
    }

    #[test]
    fn a_table_that_there_is_is_handed_over_as_it_is() {
        for creases in [&[][..], &[0], &[10, 0, 255], &[1; 5_000]] {
            let cage = Cage {
                creases: Some(creases),
                ..without_creases(&[MARKER; 3])
            };
            assert_eq!(cage.crease_table(), creases);
        }
    }
}
