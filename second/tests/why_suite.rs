//! Document 02, §8, "Say why": what is foreseen for the suite's broken clauses, and
//! the answer compared with one that is worked out by trying every halfedge.

mod common;

use std::collections::{BTreeSet, HashSet};

use common::{creased_pair, document_pillow};
use second::cage::{Cage, MARKER};
use second::check::check;
use second::draw::Draw;
use second::suite::{cage_named, suite, SuiteCage};
use second::why::why;

/// The highest number, which stands for no twin, and the one below it.
const M: u64 = 4_294_967_295;
const BELOW_M: u64 = 4_294_967_294;

/// A cage of the suite without `clause-`, and number, place, clause and the numbers
/// that show it.
type Foreseen = (&'static str, [u64; 6]);

const TWINS: [Foreseen; 20] = [
    ("twin-just-past", [3, 0, 1, 6, 6, 0]),
    ("twin-past", [3, 1, 1, 65_534, 6, 0]),
    ("twin-far-past", [3, 2, 1, BELOW_M, 6, 0]),
    ("twin-past-at-the-end", [3, 5, 1, 6, 6, 0]),
    ("twin-itself", [3, 2, 2, 2, 0, 0]),
    ("twin-itself-twice", [3, 1, 2, 1, 0, 0]),
    ("twin-itself-at-the-end", [3, 5, 2, 5, 0, 0]),
    ("twin-not-returned-by-none", [3, 2, 3, 3, M, 0]),
    ("twin-not-returned-by-itself", [3, 1, 3, 4, 4, 0]),
    ("twin-not-returned-by-a-lower", [3, 2, 3, 3, 0, 0]),
    ("twin-not-returned-by-a-higher", [3, 2, 3, 3, 5, 0]),
    ("twin-not-returned-by-one-past", [3, 1, 3, 4, 6, 0]),
    (
        "twin-not-returned-by-one-far-past",
        [3, 0, 3, 5, BELOW_M, 0],
    ),
    ("twin-not-returned-at-the-end", [3, 5, 3, 0, M, 0]),
    ("twin-three-in-a-ring", [3, 0, 3, 1, 2, 0]),
    ("twin-past-before-itself", [3, 1, 1, 7, 6, 0]),
    ("twin-itself-before-past", [3, 1, 2, 1, 0, 0]),
    ("twin-itself-before-not-returned", [3, 0, 2, 0, 0, 0]),
    ("twin-not-returned-before-past", [3, 1, 3, 2, 3, 0]),
    ("twin-not-returned-before-itself", [3, 1, 3, 3, M, 0]),
];

const VERTICES: [Foreseen; 29] = [
    ("vertex-pillow-past-at-0", [4, 0, 1, 3, 3, 0]),
    ("vertex-pillow-past-alike-at-0", [4, 0, 1, 3, 3, 0]),
    ("vertex-pillow-past-differ-at-0", [4, 0, 1, 3, 3, 0]),
    ("vertex-pillow-past-alike-differ-at-0", [4, 0, 1, 3, 3, 0]),
    ("vertex-pillow-alike-at-0", [4, 0, 2, 0, 1, 0]),
    ("vertex-pillow-alike-differ-at-0", [4, 0, 2, 2, 1, 0]),
    ("vertex-pillow-differ-at-0", [4, 0, 3, 5, 2, 1]),
    ("vertex-pillow-past-at-1", [4, 1, 1, M, 3, 0]),
    ("vertex-pillow-past-alike-at-1", [4, 1, 1, 7, 3, 0]),
    ("vertex-pillow-past-differ-at-1", [4, 1, 1, 65_535, 3, 0]),
    ("vertex-pillow-past-alike-differ-at-1", [4, 1, 1, 4, 3, 0]),
    ("vertex-pillow-alike-at-1", [4, 1, 2, 1, 2, 0]),
    ("vertex-pillow-alike-differ-at-1", [4, 1, 2, 1, 2, 0]),
    ("vertex-pillow-differ-at-1", [4, 1, 3, 4, 0, 2]),
    ("vertex-pillow-past-at-2", [4, 2, 1, 3, 3, 0]),
    ("vertex-pillow-past-differ-at-2", [4, 2, 1, 3, 3, 0]),
    ("vertex-pillow-alike-at-2", [4, 2, 2, 0, 0, 0]),
    ("vertex-pillow-alike-differ-at-2", [4, 2, 2, 0, 0, 0]),
    ("vertex-pillow-differ-at-2", [4, 2, 3, 3, 1, 0]),
    (
        "vertex-pillow-differ-before-past-alike-at-0",
        [4, 0, 3, 5, 9, 1],
    ),
    ("vertex-pair-differ-from-a-lower-at-3", [4, 3, 3, 1, 1, 0]),
    (
        "vertex-pair-alike-differ-from-a-lower-at-3",
        [4, 3, 2, 2, 4, 0],
    ),
    ("vertex-pair-differ-by-one-past-at-1", [4, 1, 3, 3, 9, 2]),
    (
        "vertex-pair-past-alike-on-a-border-at-0",
        [4, 0, 1, 9, 4, 0],
    ),
    ("vertex-pair-alike-on-a-border-at-4", [4, 4, 2, 1, 5, 0]),
    ("unused-0-and-1", [5, 0, 1, 0, 0, 0]),
    ("unused-0-and-4", [5, 0, 1, 0, 0, 0]),
    ("unused-1-and-3", [5, 1, 1, 1, 0, 0]),
    ("unused-3-and-4", [5, 3, 1, 3, 0, 0]),
];

const EDGES: [Foreseen; 34] = [
    ("edge-triangle-past-shared-at-0", [6, 0, 1, 3, 3, 0]),
    ("edge-triangle-shared-with-1-at-0", [6, 0, 3, 0, 1, 0]),
    ("edge-triangle-shared-with-2-at-0", [6, 0, 3, 0, 2, 0]),
    ("edge-triangle-shared-with-1-and-2-at-0", [6, 0, 3, 0, 1, 0]),
    ("edge-triangle-shared-with-2-at-1", [6, 1, 3, 1, 2, 0]),
    ("edge-pillow-past-at-0", [6, 0, 1, 3, 3, 0]),
    ("edge-pillow-past-differs-at-0", [6, 0, 1, 3, 3, 0]),
    ("edge-pillow-past-shared-at-0", [6, 0, 1, M, 3, 0]),
    ("edge-pillow-past-differs-shared-at-0", [6, 0, 1, 3, 3, 0]),
    ("edge-pillow-differs-at-0", [6, 0, 2, 5, 0, 1]),
    ("edge-pillow-differs-from-one-past-at-0", [6, 0, 2, 5, 0, 3]),
    ("edge-pillow-differs-shared-at-0", [6, 0, 2, 5, 0, 1]),
    ("edge-pillow-shared-with-1-at-0", [6, 0, 3, 0, 1, 0]),
    (
        "edge-pillow-shared-with-2-and-3-and-4-at-0",
        [6, 0, 3, 0, 2, 0],
    ),
    ("edge-pair-past-at-1", [6, 1, 1, 9, 5, 0]),
    ("edge-pair-past-differs-at-1", [6, 1, 1, 5, 5, 0]),
    ("edge-pair-past-shared-at-1", [6, 1, 1, 5, 5, 0]),
    (
        "edge-pair-past-differs-shared-at-1",
        [6, 1, 1, 65_535, 5, 0],
    ),
    ("edge-pair-differs-at-1", [6, 1, 2, 3, 1, 2]),
    ("edge-pair-differs-shared-at-1", [6, 1, 2, 3, 1, 2]),
    ("edge-pair-shared-with-2-and-4-at-1", [6, 1, 3, 1, 2, 0]),
    ("edge-pair-shared-with-4-and-5-at-1", [6, 1, 3, 1, 4, 0]),
    ("edge-pair-shared-with-5-at-1", [6, 1, 3, 1, 5, 0]),
    ("edge-pair-shared-with-4-at-0", [6, 0, 3, 0, 4, 0]),
    ("edge-pair-shared-with-4-and-5-at-2", [6, 2, 3, 2, 4, 0]),
    ("edge-pair-shared-before-past-at-0", [6, 0, 3, 0, 4, 0]),
    ("edge-pair-differs-before-past-at-1", [6, 1, 2, 3, 1, 3]),
    ("edge-tetrahedron-past-at-0", [6, 0, 1, 6, 6, 0]),
    ("edge-tetrahedron-shared-with-4-at-2", [6, 2, 3, 2, 4, 0]),
    (
        "edge-tetrahedron-shared-with-7-and-10-at-2",
        [6, 2, 3, 2, 7, 0],
    ),
    ("edge-tetrahedron-shared-with-9-at-0", [6, 0, 3, 0, 9, 0]),
    (
        "edge-tetrahedron-shared-with-9-and-11-at-0",
        [6, 0, 3, 0, 9, 0],
    ),
    (
        "edge-tetrahedron-shared-with-5-and-9-at-0",
        [6, 0, 3, 0, 5, 0],
    ),
    ("edge-tetrahedron-shared-with-all-at-0", [6, 0, 3, 0, 1, 0]),
];

/// The corners at the vertex are 1, 5, 6, 10, 14, 15, 19 and 23.
const FANS: [Foreseen; 7] = [
    ("fan-ends-first", [7, 4, 1, 1, 6, 0]),
    ("fan-far-end-first", [7, 4, 1, 1, 6, 0]),
    ("fan-middle-first", [7, 4, 1, 1, 10, 0]),
    ("fan-middle-last", [7, 4, 1, 1, 6, 0]),
    ("fan-closed-first", [7, 4, 1, 1, 10, 0]),
    ("fan-closed-against-the-order", [7, 4, 1, 1, 6, 0]),
    ("fan-second-not-joined", [7, 4, 1, 1, 5, 0]),
];

/// The cages of the suite that are there for their clauses.
fn broken_clauses() -> Vec<SuiteCage> {
    let mut cages = suite();
    cages.retain(|entry| entry.name.starts_with("clause-"));
    cages
}

fn small_cages() -> Vec<SuiteCage> {
    let mut cages = suite();
    cages.retain(|entry| !entry.is_large());
    cages
}

#[test]
fn broken_clauses_are_answered_as_foreseen() {
    let foreseen = [&TWINS[..], &VERTICES, &EDGES, &FANS].concat();
    let cages = broken_clauses();
    assert_eq!(cages.len(), foreseen.len());
    for (entry, (name, six_numbers)) in cages.iter().zip(foreseen) {
        assert_eq!(entry.name, format!("clause-{name}"));
        assert_eq!(why(&entry.cage).six_numbers(), six_numbers, "{name}");
    }
}

/// "For 1, 2, 8 and later numbers" there is none.
#[test]
fn number_and_place_are_the_check_s() {
    for entry in suite() {
        let answer = why(&entry.cage);
        match check(&entry.cage) {
            Ok(_) => assert_eq!(answer.six_numbers(), [0; 6], "{}", entry.name),
            Err(refusal) => {
                let told = (answer.number, answer.place);
                assert_eq!(told, (refusal.number, refusal.place), "{}", entry.name);
            }
        }
        let has_clauses = (3..=7).contains(&answer.number);
        assert_eq!(answer.clause > 0, has_clauses, "{}", entry.name);
        assert!(has_clauses || answer.shown == [0; 3], "{}", entry.name);
    }
}

/// The halfedge so many steps round the triangle.
fn round(h: usize, steps: usize) -> usize {
    h / 3 * 3 + (h + steps) % 3
}

/// A clause that holds, and the numbers that show it.
type Shown = (u64, [u64; 3]);

/// Every clause of a refusal that holds at a place, in the order of the table, in a
/// cage that keeps the rules before.
fn clauses(cage: &Cage, number: u64, at: usize) -> Vec<Shown> {
    match number {
        3 => clauses_of_3(cage, at),
        4 => clauses_of_4(cage, at),
        5 => clauses_of_5(cage, at),
        6 => clauses_of_6(cage, at),
        _ => clauses_of_7(cage, at),
    }
}

/// Those of the clauses that hold.
fn holding<const N: usize>(clauses: [(bool, [u64; 3]); N]) -> Vec<Shown> {
    let numbered = (1..).zip(clauses);
    let holding = numbered.filter(|(_, (holds, _))| *holds);
    holding
        .map(|(clause, (_, shown))| (clause, shown))
        .collect()
}

fn clauses_of_3(cage: &Cage, h: usize) -> Vec<Shown> {
    let twin = cage.twin[h];
    if twin == MARKER {
        return Vec::new();
    }
    // Past the table nothing is there to be returned.
    let its_twin = cage.twin.get(twin as usize).copied();
    let is_other = its_twin.is_some_and(|its_twin| its_twin as usize != h);
    let (t, length) = (u64::from(twin), cage.twin.len() as u64);
    let returned = its_twin.unwrap_or_default().into();
    holding([
        (t >= length, [t, length, 0]),
        (t == h as u64, [t, 0, 0]),
        (is_other, [t, returned, 0]),
    ])
}

fn clauses_of_4(cage: &Cage, h: usize) -> Vec<Shown> {
    let vert = |h: usize| u64::from(cage.vert[h]);
    let next = round(h, 1);
    let vertices = cage.points.len() as u64 / 3;
    let twin = cage.twin[h];
    let at_twin = if twin == MARKER {
        vert(next)
    } else {
        vert(twin as usize)
    };
    holding([
        (vert(h) >= vertices, [vert(h), vertices, 0]),
        (vert(h) == vert(next), [vert(h), next as u64, 0]),
        (at_twin != vert(next), [twin.into(), at_twin, vert(next)]),
    ])
}

fn clauses_of_5(cage: &Cage, vertex: usize) -> Vec<Shown> {
    let is_named = cage.vert.iter().any(|&named| named as usize == vertex);
    holding([(!is_named, [vertex as u64, 0, 0])])
}

fn clauses_of_6(cage: &Cage, h: usize) -> Vec<Shown> {
    let edge = |h: usize| u64::from(cage.edge[h]);
    let twin = cage.twin[h];
    let at_twin = if twin == MARKER {
        edge(h)
    } else {
        edge(twin as usize)
    };
    let lower = |g: &usize| cage.twin[*g] == MARKER || cage.twin[*g] < *g as u32;
    let edges = (0..cage.twin.len()).filter(lower).count() as u64;
    let stranger = strangers(cage, h).first().copied();
    holding([
        (edge(h) >= edges, [edge(h), edges, 0]),
        (at_twin != edge(h), [twin.into(), edge(h), at_twin]),
        (
            stranger.is_some(),
            [edge(h), stranger.unwrap_or_default() as u64, 0],
        ),
    ])
}

/// The halfedges that carry the edge of `h` and are neither it nor its twin, the
/// lowest first.
fn strangers(cage: &Cage, h: usize) -> Vec<usize> {
    let is_stranger =
        |&g: &usize| cage.edge[g] == cage.edge[h] && g != h && g as u32 != cage.twin[h];
    (0..cage.edge.len()).filter(is_stranger).collect()
}

fn clauses_of_7(cage: &Cage, vertex: usize) -> Vec<Shown> {
    let corners: Vec<usize> = corners_at(cage, vertex);
    let joined = joined_to(cage, corners[0]);
    let other = corners.iter().find(|corner| !joined.contains(corner));
    let shown = [corners[0], other.copied().unwrap_or_default(), 0];
    holding([(other.is_some(), shown.map(|number| number as u64))])
}

fn corners_at(cage: &Cage, vertex: usize) -> Vec<usize> {
    let is_there = |&h: &usize| cage.vert[h] as usize == vertex;
    (0..cage.vert.len()).filter(is_there).collect()
}

/// All that links join with a halfedge, followed either way until there is nothing
/// new.
fn joined_to(cage: &Cage, corner: usize) -> HashSet<usize> {
    let halfedges = 0..cage.twin.len();
    let links: Vec<[usize; 2]> = halfedges
        .map(|h| [h, cage.twin[round(h, 2)] as usize])
        .filter(|link| link[1] != MARKER as usize)
        .collect();
    let mut joined = HashSet::from([corner]);
    loop {
        let before = joined.len();
        for [one, other] in &links {
            if joined.contains(one) || joined.contains(other) {
                joined.extend([one, other]);
            }
        }
        if joined.len() == before {
            return joined;
        }
    }
}

/// How many places a refusal of this number may have.
fn places(cage: &Cage, number: u64) -> usize {
    match number {
        5 | 7 => cage.points.len() / 3,
        _ => cage.twin.len(),
    }
}

/// The first of these refusals by whose rule the cage is sent back: the lowest place
/// where any of its clauses holds, and the first of them.
fn first_broken(cage: &Cage, numbers: &[u64]) -> Option<[u64; 6]> {
    numbers.iter().find_map(|&number| {
        (0..places(cage, number)).find_map(|place| {
            let (clause, [x, y, z]) = *clauses(cage, number, place).first()?;
            Some([number, place as u64, clause, x, y, z])
        })
    })
}

/// Where no clause holds at any place, only the numbers of the crease table and the
/// coordinates are left to be sent back for.
#[test]
fn the_suite_by_trying_every_place() {
    for entry in small_cages() {
        let answer = why(&entry.cage).six_numbers();
        let before: &[u64] = match answer[0] {
            1 | 2 => continue,
            // Before 7.
            15 => &[3, 4, 5, 6],
            _ => &[3, 4, 5, 6, 7],
        };
        match first_broken(&entry.cage, before) {
            Some(foreseen) => assert_eq!(answer, foreseen, "{}", entry.name),
            None => assert!([0, 8, 15].contains(&answer[0]), "{}", entry.name),
        }
    }
}

/// At the place given the clause named holds, and none before it, in large cages too.
#[test]
fn no_clause_before_the_one_named_holds() {
    for entry in suite() {
        let [number, place, clause, x, y, z] = why(&entry.cage).six_numbers();
        if clause > 0 {
            let holding = clauses(&entry.cage, number, place as usize);
            assert_eq!(holding[0], (clause, [x, y, z]), "{}", entry.name);
        }
    }
}

/// Every table of this length with these cells.
fn tables(length: usize, cells: &[u32]) -> impl Iterator<Item = Vec<u32>> + '_ {
    let count = cells.len().pow(length as u32);
    (0..count).map(move |mut number| {
        let mut table = Vec::new();
        for _ in 0..length {
            table.push(cells[number % cells.len()]);
            number /= cells.len();
        }
        table
    })
}

fn assert_as_tried(cage: Cage) {
    let cage = cage.without_creases();
    let foreseen = first_broken(&cage, &[3, 4, 5, 6, 7]).unwrap_or_default();
    assert_eq!(why(&cage).six_numbers(), foreseen, "{cage:?}");
}

/// The pillow with every TWIN table, one past the table among its cells.
#[test]
fn every_twin_table_of_six() {
    for twin in tables(6, &[0, 1, 2, 3, 4, 5, 6, MARKER]) {
        assert_as_tried(Cage {
            twin,
            ..document_pillow()
        });
    }
}

/// The pillow and a pair of triangles with every VERT and every EDGE table, one past
/// the points or past the count among their cells.
#[test]
fn every_vert_and_edge_table_of_six() {
    let bases = [
        (document_pillow(), &[0, 1, 2, 3][..], &[0, 1, 2, 3][..]),
        (creased_pair(0), &[0, 1, 2, 3, 4], &[0, 1, 2, 3, 4, 5]),
    ];
    for (base, vertices, edges) in bases {
        for vert in tables(6, vertices) {
            assert_as_tried(Cage {
                vert,
                ..base.clone()
            });
        }
        for edge in tables(6, edges) {
            assert_as_tried(Cage {
                edge,
                ..base.clone()
            });
        }
    }
}

/// The cage with its triangles in another order.
fn shuffled(cage: &Cage, draw: &mut Draw) -> Cage {
    let places = draw.permutation(cage.twin.len() / 3);
    let new = |h: usize| 3 * places[h / 3] + h % 3;
    let mut shuffled = cage.clone();
    for h in 0..cage.twin.len() {
        shuffled.twin[new(h)] = match cage.twin[h] {
            MARKER => MARKER,
            twin => new(twin as usize) as u32,
        };
        shuffled.vert[new(h)] = cage.vert[h];
        shuffled.edge[new(h)] = cage.edge[h];
    }
    shuffled
}

/// Three fans at a vertex, whatever the order of the triangles: the second corner,
/// the third and the fourth are each the lowest not joined.
#[test]
fn fans_in_any_order() {
    let fans = cage_named("clause-fan-ends-first").expect("of this name");
    let mut draw = Draw::new(88);
    let mut ranks = BTreeSet::new();
    for _ in 0..500 {
        let cage = shuffled(&fans, &mut draw);
        let answer = why(&cage).six_numbers();
        let corners = corners_at(&cage, 4);
        ranks.insert(corners.iter().position(|&h| h as u64 == answer[4]));
        assert_eq!(answer[..4], [7, 4, 1, corners[0] as u64]);
        assert_as_tried(cage);
    }
    assert_eq!(ranks, BTreeSet::from([1, 2, 3].map(Some)));
}

/// Each clause alone, and all that can hold together at the place given.
#[test]
fn clauses_hold_alone_and_together() {
    let mut found: HashSet<(u64, Vec<u64>)> = HashSet::new();
    for entry in broken_clauses() {
        let answer = why(&entry.cage).six_numbers();
        let holding = clauses(&entry.cage, answer[0], answer[1] as usize);
        found.insert((answer[0], holding.iter().map(|known| known.0).collect()));
    }
    let together: [&[u64]; 7] = [&[1], &[2], &[3], &[1, 2], &[1, 3], &[2, 3], &[1, 2, 3]];
    let of = |number: u64, sets: &[&[u64]]| -> Vec<(u64, Vec<u64>)> {
        sets.iter().map(|set| (number, set.to_vec())).collect()
    };
    let expected = [
        // A twin past the table has none to return, and itself is returned.
        of(3, &together[..3]),
        of(4, &together),
        of(5, &together[..1]),
        of(6, &together),
        of(7, &together[..1]),
    ];
    assert_eq!(found, expected.concat().into_iter().collect());
}

/// One stranger and several: where there is no twin, and where the lowest of them is
/// below the twin or above it. None is below the place.
#[test]
fn strangers_in_every_position() {
    let mut found = HashSet::new();
    for entry in suite() {
        let [number, place, clause, _, lowest, _] = why(&entry.cage).six_numbers();
        if (number, clause) != (6, 3) {
            continue;
        }
        assert!(lowest > place, "{}", entry.name);
        let twin = entry.cage.twin[place as usize];
        let is_above_twin = (twin != MARKER).then_some(lowest > twin.into());
        let are_several = strangers(&entry.cage, place as usize).len() > 1;
        found.insert((is_above_twin, are_several));
    }
    assert_eq!(found.len(), 6, "{found:?}");
}
