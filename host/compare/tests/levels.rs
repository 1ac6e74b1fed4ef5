//! Demand 3 seen from outside: what every level of the host library's output
//! keeps of the cage, judged by the second program.

use compare::{chosen, handed, named, owned, verdict_with, vertices_of, Vertex, WEIGHTS};
use ryebadger::Refined;
use second::check::{check_any_size, CageCounts};
use second::weight::Weight;

/// V − E + F.
fn characteristic(counts: &CageCounts) -> i64 {
    (counts.vertices + counts.triangles) as i64 - counts.edges as i64
}

/// Cages of each kind, and how deep they are refined here: the second program's
/// check is plain, and slow on large levels.
const TRIED: [(&str, u64); 14] = [
    ("triangle", 6),
    ("pillow", 6),
    ("pillow-slit", 6),
    ("strip-2-disguised", 6),
    ("disc-3", 6),
    ("torus-3x3", 6),
    ("pieces", 5),
    ("double-pyramid-33", 5),
    ("frame-4x5-disguised", 5),
    ("cushion", 5),
    ("disc-1024", 4),
    ("creased-number-10-closed", 6),
    ("creased-number-3-open-disguised", 6),
    ("creased-pillow-slit-0130", 6),
];

/// Each of them that passes 14, with its name.
fn refined_with(weight: Weight) -> impl Iterator<Item = (&'static str, Refined)> {
    let passes = move |(name, _): &(&str, u64)| verdict_with(weight, &named(name)) == (0, 0);
    let tried = TRIED.into_iter().filter(passes);
    tried.map(move |(name, depth)| {
        let refined = Refined::new(handed(&named(name)), depth, chosen(weight)).expect(name);
        assert_eq!(refined.levels().count() as u64, depth + 1);
        (name, refined)
    })
}

#[test]
fn every_level_is_accepted_and_keeps_its_counts() {
    for (name, refined) in WEIGHTS.into_iter().flat_map(refined_with) {
        let first = check_any_size(&named(name)).expect(name);
        let told = refined.counts();
        for (d, level) in refined.levels().enumerate() {
            let counted = check_any_size(&owned(level)).expect(name);
            assert_eq!(counted.halfedges, first.halfedges << (2 * d), "{name}");
            assert_eq!(counted.borders, first.borders << d, "{name}");
            assert_eq!(characteristic(&counted), characteristic(&first), "{name}");
            let of_level = [told.halfedges[d], told.edges[d], told.vertices[d]];
            let from_tables = [counted.halfedges, counted.edges, counted.vertices];
            assert_eq!(of_level.map(u64::from), from_tables, "{name}");
        }
    }
}

#[test]
fn vertices_keep_their_corners_and_new_ones_have_six_or_three() {
    for (name, refined) in WEIGHTS.into_iter().flat_map(refined_with) {
        let levels: Vec<Vec<Vertex>> = refined
            .levels()
            .map(|level| vertices_of(&owned(level)))
            .collect();
        for (old, new) in levels.iter().zip(&levels[1..]) {
            let (kept, added) = new.split_at(old.len());
            for (old, kept) in old.iter().zip(kept) {
                assert_eq!(old.corners, kept.corners, "{name}");
                assert_eq!(old.is_on_border(), kept.is_on_border(), "{name}");
            }
            for vertex in added {
                let expected = if vertex.is_on_border() { 3 } else { 6 };
                assert_eq!(vertex.corners, expected, "{name}");
            }
        }
    }
}
