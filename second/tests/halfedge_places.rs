//! Document 02, §9, "One halfedge, no tables": where each halfedge lies on the cage
//! tells which ones are twins, leave one vertex and carry one edge, whatever the
//! numbers of vertices and edges are.

mod common;

use std::collections::HashMap;

use common::{document_pillow, document_triangle, small_accepted};
use second::cage::{Cage, MARKER};
use second::halfedge::{Climber, ThreeTables};

/// A point of a triangle of the cage, by how many parts of the way it has of each
/// corner. The parts of all points of a level add up to the same number.
#[derive(Clone, Copy)]
struct Spot {
    triangle: usize,
    parts: [u32; 3],
}

impl Spot {
    /// The corner of the cage that halfedge `h` leaves.
    fn corner(h: usize) -> Spot {
        let mut parts = [0; 3];
        parts[h % 3] = 1;
        Spot {
            triangle: h / 3,
            parts,
        }
    }

    /// The point between this one and another, in twice as many parts.
    fn between(self, other: Spot) -> Spot {
        Spot {
            triangle: self.triangle,
            parts: [0, 1, 2].map(|corner| self.parts[corner] + other.parts[corner]),
        }
    }

    /// What it is on the cage: the same for all spots that are sewn together.
    fn on(self, cage: &Cage) -> Place {
        let Spot { triangle, parts } = self;
        let zeros = parts.iter().filter(|&&part| part == 0).count();
        let opposite = parts.iter().position(|&part| part == 0);
        match (zeros, opposite) {
            (2, _) => {
                let corner = parts.iter().position(|&part| part > 0);
                Place::Vertex(cage.vert[3 * triangle + corner.expect("one of three")])
            }
            (1, Some(opposite)) => {
                let [from, to] = [(opposite + 1) % 3, (opposite + 2) % 3];
                let h = 3 * triangle + from;
                match cage.twin[h] as usize {
                    twin if twin < h => Place::Edge(twin, parts[from]),
                    _ => Place::Edge(h, parts[to]),
                }
            }
            _ => Place::Inside(triangle, parts),
        }
    }
}

/// A place on the cage: a vertex; an edge, by its lower halfedge and the parts of
/// the way along it; or inside a triangle.
#[derive(Clone, Copy, Debug, PartialEq, Eq, Hash)]
enum Place {
    Vertex(u32),
    Edge(usize, u32),
    Inside(usize, [u32; 3]),
}

/// The next and the previous halfedge.
fn neighbours(h: usize) -> [usize; 2] {
    [1, 2].map(|turn| h - h % 3 + (h + turn) % 3)
}

/// Where each halfedge of the level starts. In the paper's words 3h "cuts the old
/// halfedge h in half", 3h+1 and 3h+2 "follow within the same triangle", and 3H+h
/// "is the twin of" 3h+1.
fn starts(cage: &Cage, depth: u64) -> Vec<Spot> {
    let mut starts: Vec<Spot> = (0..cage.halfedge_count()).map(Spot::corner).collect();
    for _ in 0..depth {
        let middle = |h: usize, to: usize| starts[h].between(starts[to]);
        let corners = (0..starts.len()).flat_map(|h| {
            let [next, previous] = neighbours(h);
            [middle(h, h), middle(h, next), middle(h, previous)]
        });
        let middles = (0..starts.len()).map(|h| middle(h, neighbours(h)[1]));
        starts = corners.chain(middles).collect();
    }
    starts
}

/// Each place has one number of its own, and no number is left over.
fn assert_numbered(numbers: impl Iterator<Item = (Place, u32)>, name: &str) {
    let mut number_at: HashMap<Place, u32> = HashMap::new();
    for (place, number) in numbers {
        assert_eq!(*number_at.entry(place).or_insert(number), number, "{name}");
    }
    let mut found: Vec<u32> = number_at.into_values().collect();
    found.sort();
    let all: Vec<u32> = (0..found.len() as u32).collect();
    assert_eq!(found, all, "{name}");
}

fn assert_level(cage: &Cage, depth: u64, name: &str) {
    let climber = Climber::new(ThreeTables::of(cage), depth).expect(name);
    let starts = starts(cage, depth);
    assert_eq!(climber.halfedge_count(), starts.len() as u64);
    let cells: Vec<_> = (0..starts.len() as u64)
        .map(|h| climber.cells(h).expect(name))
        .collect();
    let vertex = |h: usize| starts[h].on(cage);
    let edge = |h: usize| starts[h].between(starts[neighbours(h)[0]]).on(cage);
    assert_numbered((0..starts.len()).map(|h| (vertex(h), cells[h].vert)), name);
    assert_numbered((0..starts.len()).map(|h| (edge(h), cells[h].edge)), name);
    let mut carriers: HashMap<Place, Vec<usize>> = HashMap::new();
    for h in 0..starts.len() {
        carriers.entry(edge(h)).or_default().push(h);
    }
    for carriers in carriers.values() {
        match carriers[..] {
            [alone] => assert_eq!(cells[alone].twin, MARKER, "{name}"),
            [lower, higher] => {
                assert_eq!(cells[lower].twin as usize, higher, "{name}");
                assert_eq!(cells[higher].twin as usize, lower, "{name}");
            }
            _ => panic!("{name}: {carriers:?}"),
        }
    }
}

#[test]
fn small_cages_at_depths_0_to_2() {
    for entry in small_accepted() {
        for depth in 0..=2 {
            assert_level(&entry.cage, depth, &entry.name);
        }
    }
}

#[test]
fn the_triangle_and_the_pillow_at_every_depth() {
    for depth in 0..=6 {
        assert_level(&document_triangle(), depth, "triangle");
        assert_level(&document_pillow(), depth, "pillow");
    }
}
