//! For trying what document 02 says in "One halfedge, no tables": three tables, V,
//! a depth and the number of a halfedge, each of any kind.

mod cages;
mod drawn;
mod faults;
mod numbers;
mod sizes;

use crate::cage::Cage;
use crate::halfedge::ThreeTables;
use crate::refusal::Refusal;
use crate::suite::{suite, Expected, SuiteCage};

/// A question about one halfedge, and what is known of its answer beforehand.
#[derive(Clone, Debug)]
pub struct HalfedgeQuestion {
    pub name: String,
    pub twin: Vec<u32>,
    pub vert: Vec<u32>,
    pub edge: Vec<u32>,
    pub vertices: u64,
    pub depth: u64,
    pub halfedge: u64,
    pub expected: Expected,
}

impl HalfedgeQuestion {
    /// About a cage, with no answer known beforehand. Its points tell V and nothing
    /// else, and its creases have no part.
    fn about(cage: &Cage, depth: u64, halfedge: u64) -> HalfedgeQuestion {
        HalfedgeQuestion {
            name: format!("depth-{depth}-halfedge-{halfedge}"),
            twin: cage.twin.clone(),
            vert: cage.vert.clone(),
            edge: cage.edge.clone(),
            vertices: cage.vertex_count() as u64,
            depth,
            halfedge,
            expected: Expected::Unforeseen,
        }
    }

    fn named(self, name: impl ToString) -> HalfedgeQuestion {
        HalfedgeQuestion {
            name: name.to_string(),
            ..self
        }
    }

    fn of_vertices(self, vertices: u64) -> HalfedgeQuestion {
        HalfedgeQuestion { vertices, ..self }
    }

    fn expecting(self, expected: Expected) -> HalfedgeQuestion {
        HalfedgeQuestion { expected, ..self }
    }

    fn accepted(self) -> HalfedgeQuestion {
        self.expecting(Expected::Accepted)
    }

    fn refused(self, number: u32, place: u64) -> HalfedgeQuestion {
        self.expecting(Expected::Refused(Refusal { number, place }))
    }

    /// The three tables and V, as they are asked about.
    pub fn tables(&self) -> ThreeTables<'_> {
        ThreeTables {
            twin: &self.twin,
            vert: &self.vert,
            edge: &self.edge,
            vertices: self.vertices,
        }
    }
}

/// Those that were chosen, then those that are drawn. No two have the same name.
pub fn questions() -> Vec<HalfedgeQuestion> {
    let suite = suite();
    [
        sizes::wrong_lengths(),
        sizes::numbers_for_v(&suite),
        sizes::depths(&suite),
        sizes::halfedge_counts(&suite),
        faults::several_faults(),
        numbers::halfedge_numbers(&suite),
        cages::suite_cages(&suite),
        drawn::drawn_questions(),
    ]
    .concat()
}

/// Those of these cages that the suite has, with their names.
fn named<'a>(
    suite: &'a [SuiteCage],
    names: &'a [&str],
) -> impl Iterator<Item = (&'a str, &'a Cage)> {
    let wanted = |entry: &&SuiteCage| names.contains(&entry.name.as_str());
    let found = suite.iter().filter(wanted);
    found.map(|entry| (entry.name.as_str(), &entry.cage))
}

/// H of the level at this depth, where the cage has so many halfedges and the depth
/// is within its limit.
fn level_end(halfedges: usize, depth: u64) -> u64 {
    (halfedges as u64) << (2 * depth)
}
