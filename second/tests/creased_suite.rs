//! Document 02, §6, "Edges that stay sharp": what the suite's cages with creases
//! are there to try, and that a wrong rule would show in them.

mod common;

use std::collections::{HashMap, HashSet};

use common::{corners, creases_at, levels, rounded};
use second::cage::{Cage, MARKER};
use second::check::check;
use second::creases::CREASE_LIMIT;
use second::refusal::{Refusal, CREASE, SHAPE};
use second::suite::{accepted_cages, cage_named, suite, Expected, SuiteCage};

/// The accepted cages with creases.
fn creased() -> Vec<SuiteCage> {
    let mut cages = accepted_cages();
    cages.retain(|entry| entry.name.starts_with("creased-"));
    cages
}

fn small_creased() -> Vec<SuiteCage> {
    let mut cages = creased();
    cages.retain(|entry| !entry.is_large());
    cages
}

fn is_closed(cage: &Cage) -> bool {
    cage.border_count() == 0
}

/// Those that bear the name have a crease, the others have none.
#[test]
fn creases_are_where_the_name_says() {
    for entry in accepted_cages() {
        let has_crease = entry.cage.creases.iter().any(|&number| number > 0);
        assert_eq!(
            has_crease,
            entry.name.starts_with("creased-"),
            "{}",
            entry.name
        );
    }
    let (closed, open): (Vec<_>, Vec<_>) = creased()
        .into_iter()
        .partition(|entry| is_closed(&entry.cage));
    assert!(
        closed.len() >= 60 && open.len() >= 60,
        "{} {}",
        closed.len(),
        open.len()
    );
}

/// Each number from 1 to 10, in closed and in open cages.
#[test]
fn every_number_is_there() {
    let mut numbers: HashMap<bool, HashSet<u8>> = HashMap::new();
    for entry in creased() {
        let found = numbers.entry(is_closed(&entry.cage)).or_default();
        found.extend(&entry.cage.creases);
    }
    for kind in [true, false] {
        assert_eq!(numbers[&kind], (0..=CREASE_LIMIT).collect::<HashSet<u8>>());
    }
}

/// How many creases a vertex has at levels 0 to 2, and whether it is on a border.
fn histories(cage: &Cage) -> Vec<([usize; 3], bool)> {
    let levels = levels(cage, 2);
    let at: Vec<Vec<Vec<usize>>> = levels.iter().map(creases_at).collect();
    let vertices = corners(cage).into_iter().enumerate();
    let history = |(vertex, (_, on_border)): (usize, (usize, bool))| {
        (
            [0, 1, 2].map(|depth: usize| at[depth][vertex].len()),
            on_border,
        )
    };
    vertices.map(history).collect()
}

/// Vertices inside with none to five creases, and on a border with two to five;
/// vertices that go from one rule to another from level to level.
#[test]
fn vertices_go_from_rule_to_rule() {
    let mut closed: HashSet<[usize; 3]> = HashSet::new();
    let (mut inside, mut on_border) = (closed.clone(), closed.clone());
    for entry in small_creased() {
        for (history, is_on_border) in histories(&entry.cage) {
            match (is_closed(&entry.cage), is_on_border) {
                (true, _) => closed.insert(history),
                (false, false) => inside.insert(history),
                (false, true) => on_border.insert(history),
            };
        }
    }
    for kind in [&closed, &inside] {
        let at_first: HashSet<usize> = kind.iter().map(|history| history[0]).collect();
        assert!(
            (0..=5).all(|count| at_first.contains(&count)),
            "{at_first:?}"
        );
        let steps: HashSet<[usize; 2]> = kind
            .iter()
            .flat_map(|&[a, b, c]| [[a, b], [b, c]])
            .collect();
        for step in [
            [1, 0],
            [2, 0],
            [2, 1],
            [2, 2],
            [3, 1],
            [3, 2],
            [3, 3],
            [4, 3],
            [5, 4],
        ] {
            assert!(steps.contains(&step), "{step:?}");
        }
        assert!(kind.contains(&[2, 1, 0]) && kind.contains(&[3, 2, 1]));
    }
    let counts: HashSet<usize> = on_border.iter().map(|history| history[0]).collect();
    assert!((2..=5).all(|count| counts.contains(&count)), "{counts:?}");
    assert!(on_border.contains(&[4, 3, 2]), "{on_border:?}");
}

/// 3,072 halfedges and 2,048 vertices, a tenth of the inner edges sharp.
#[test]
fn cages_at_the_limits() {
    for (name, vertices) in [
        ("creased-torus-32x16", 512),
        ("creased-grid-32x16", 561),
        ("creased-most-halfedges-and-vertices", 2_048),
    ] {
        for name in [name.to_string(), format!("{name}-disguised")] {
            let cage = cage_named(&name).expect("in the suite");
            let counts = check(&cage).expect("accepted");
            assert_eq!((counts.halfedges, counts.vertices), (3_072, vertices));
            let inner = (counts.edges - counts.borders) as usize;
            let sharp = cage.creases.iter().filter(|&&number| number > 0).count();
            assert_eq!(sharp, inner / 10, "{name}");
            assert!(sharp >= 50, "{name} {sharp}");
        }
    }
}

/// The cage to draw has one closed seam, through the vertices one cell in from the
/// border. No other edge joins two of these.
#[test]
fn the_seam_of_the_seamed_cushion() {
    let cage = cage_named("seamed-cushion").expect("there to be drawn");
    let counts = check(&cage).expect("accepted");
    assert_eq!((counts.triangles, counts.vertices), (72, 49));
    let sharp = cage.creases.iter().filter(|&&number| number > 0);
    assert_eq!(sharp.copied().collect::<Vec<u8>>(), [4; 16]);
    let is_on_seam = |vertex: usize| {
        let (column, row) = (vertex % 7, vertex / 7);
        [column, row, 6 - column, 6 - row].into_iter().min() == Some(1)
    };
    for (vertex, creases) in numbered_creases(&cage).iter().enumerate() {
        let sharp = creases.iter().filter(|crease| !crease.is_border());
        let expected = if is_on_seam(vertex) { 2 } else { 0 };
        assert_eq!(sharp.count(), expected, "{vertex}");
    }
    for (h, &edge) in cage.edge.iter().enumerate() {
        let ends = [h, h - h % 3 + (h + 1) % 3].map(|h| cage.vert[h] as usize);
        let joins_two = ends.into_iter().all(is_on_seam);
        assert_eq!(cage.creases[edge as usize] > 0, joins_two, "{ends:?}");
    }
}

/// Every order of two faults in which the crease table has a part, and the place of
/// 15 at low and high edges.
#[test]
fn refusals_for_the_crease_table() {
    let names: HashMap<String, Expected> = suite()
        .into_iter()
        .map(|entry| (entry.name, entry.expected))
        .collect();
    let expected = |name: &str| match names[name] {
        Expected::Refused(refusal) => (refusal.number, refusal.place),
        other => panic!("{name} {other:?}"),
    };
    // After 3 and before 4.
    assert_eq!(expected("crease-shape-and-length"), (SHAPE, 0));
    assert_eq!(expected("crease-limit-and-length"), (2, 0));
    assert_eq!(expected("crease-twin-and-length"), (3, 21));
    for later in ["vertex", "unused", "edge", "number", "fan", "point"] {
        assert_eq!(expected(&format!("crease-length-and-{later}")), (SHAPE, 0));
    }
    // After 6 and before 7.
    assert_eq!(expected("crease-limit-and-number"), (2, 0));
    assert_eq!(expected("crease-twin-and-number"), (3, 21));
    assert_eq!(expected("crease-vertex-and-number"), (4, 22));
    assert_eq!(expected("crease-unused-and-number"), (5, 23));
    assert_eq!(expected("crease-edge-and-number"), (6, 23));
    for later in ["fan", "point"] {
        assert_eq!(expected(&format!("crease-number-and-{later}")), (CREASE, 5));
    }
    let of_15 = names.values().filter_map(|expected| match expected {
        Expected::Refused(Refusal { number, place }) if *number == CREASE => Some(*place),
        _ => None,
    });
    let places: HashSet<u64> = of_15.collect();
    assert!((0..6).all(|edge| places.contains(&edge)) && places.contains(&1_535));
}

/// A crease at one of its ends. Its number is 0 on a border.
#[derive(Clone, Copy)]
struct Crease {
    far_end: usize,
    number: u8,
}

impl Crease {
    fn is_border(&self) -> bool {
        self.number == 0
    }
}

/// The creases at each vertex.
fn numbered_creases(level: &Cage) -> Vec<Vec<Crease>> {
    let mut creases = vec![Vec::new(); level.vertex_count()];
    for (h, &twin) in level.twin.iter().enumerate() {
        let ends = [h, h - h % 3 + (h + 1) % 3].map(|h| level.vert[h] as usize);
        let number = level.creases[level.edge[h] as usize];
        // Each edge is told once, of its lower halfedge.
        if twin == MARKER || number > 0 && h < twin as usize {
            for (vertex, far_end) in [(ends[0], ends[1]), (ends[1], ends[0])] {
                creases[vertex].push(Crease { far_end, number });
            }
        }
    }
    creases
}

/// What becomes of a vertex.
#[derive(PartialEq, Eq)]
enum Rule {
    Smooth,
    Along([usize; 2]),
    StaysPut,
}

type Decide = fn(&[Crease]) -> Rule;

fn right(creases: &[Crease]) -> Rule {
    match creases {
        [] | [_] => Rule::Smooth,
        [a, b] => Rule::Along([a.far_end, b.far_end]),
        _ => Rule::StaysPut,
    }
}

fn right_of(creases: &[Crease], counts: impl Fn(&Crease) -> bool) -> Rule {
    let counted: Vec<Crease> = creases.iter().copied().filter(counts).collect();
    right(&counted)
}

/// Other rules, which differ at inner vertices.
const WRONG_INSIDE: [(&str, Decide); 9] = [
    ("one crease stays put", |creases| match creases {
        [_] => Rule::StaysPut,
        _ => right(creases),
    }),
    ("one crease pulls", |creases| match creases {
        [a] => Rule::Along([a.far_end; 2]),
        _ => right(creases),
    }),
    ("two creases stay put", |creases| match creases {
        [_, _] => Rule::StaysPut,
        _ => right(creases),
    }),
    ("two creases are smooth", |creases| match creases {
        [a, _] if !a.is_border() => Rule::Smooth,
        _ => right(creases),
    }),
    ("three creases are smooth", |creases| match creases {
        [_, _, _] => Rule::Smooth,
        _ => right(creases),
    }),
    ("more than two follow the first two", |creases| {
        right(&creases[..creases.len().min(2)])
    }),
    ("more than three are smooth", |creases| {
        match creases.len() {
            0..=3 => right(creases),
            _ => Rule::Smooth,
        }
    }),
    ("a crease counts from both its sides", |creases| {
        let sides = creases.iter().flat_map(|&crease| match crease.is_border() {
            true => vec![crease],
            false => vec![crease; 2],
        });
        right(&sides.collect::<Vec<Crease>>())
    }),
    ("number 1 is smooth already", |creases| {
        right_of(creases, |crease| crease.number != 1)
    }),
];

/// Where two creases join the same two vertices.
const COUNTED_ONCE: (&str, Decide) = ("creases to one far end count once", |creases| {
    let mut apart: Vec<Crease> = creases.to_vec();
    apart.sort_by_key(|crease| crease.far_end);
    apart.dedup_by_key(|crease| crease.far_end);
    right(&apart)
});

/// Other rules, which differ at border vertices.
const WRONG_ON_BORDER: [(&str, Decide); 2] = [
    ("a seam does not count on a border", |creases| {
        let has_border = creases.iter().any(Crease::is_border);
        right_of(creases, |crease| crease.is_border() || !has_border)
    }),
    ("a border does not count beside a seam", |creases| {
        let has_seam = creases.iter().any(|crease| !crease.is_border());
        right_of(creases, |crease| !crease.is_border() || !has_seam)
    }),
];

/// Where a vertex goes by a rule, with the short weight.
fn point(level: &Cage, sums: &[(i64, [i64; 3])], vertex: usize, rule: &Rule) -> [i64; 3] {
    let at = |vertex: usize, axis: usize| i64::from(level.points[3 * vertex + axis]);
    [0, 1, 2].map(|axis| match rule {
        Rule::Smooth => {
            let (n, s) = sums[vertex];
            rounded(5 * n * at(vertex, axis) + 3 * s[axis], 8 * n)
        }
        Rule::Along([a, b]) => rounded(6 * at(vertex, axis) + at(*a, axis) + at(*b, axis), 8),
        Rule::StaysPut => at(vertex, axis),
    })
}

/// How many halfedges leave each vertex, and the sum over their far ends.
fn spokes(level: &Cage) -> Vec<(i64, [i64; 3])> {
    let mut sums = vec![(0, [0; 3]); level.vertex_count()];
    for (h, &vertex) in level.vert.iter().enumerate() {
        let far_end = level.vert[h - h % 3 + (h + 1) % 3] as usize;
        let (n, s) = &mut sums[vertex as usize];
        *n += 1;
        for (axis, sum) in s.iter_mut().enumerate() {
            *sum += i64::from(level.points[3 * far_end + axis]);
        }
    }
    sums
}

/// Whether a wrong rule gives another point than the level after this one has. The
/// right one never does.
fn shows(old: &Cage, new: &Cage, wrong: Decide) -> bool {
    let (creases, sums) = (numbered_creases(old), spokes(old));
    let vertices = creases.iter().enumerate();
    let differs = vertices.filter(|(vertex, creases)| {
        let is = [0, 1, 2].map(|axis| i64::from(new.points[3 * vertex + axis]));
        assert_eq!(is, point(old, &sums, *vertex, &right(creases)));
        is != point(old, &sums, *vertex, &wrong(creases))
    });
    differs.count() > 0
}

/// How many closed and how many open cages give a wrong rule away.
fn given_away(cages: &[(bool, Vec<Cage>)], wrong: Decide) -> [usize; 2] {
    [true, false].map(|kind| {
        let same_kind = cages.iter().filter(|(is_closed, _)| *is_closed == kind);
        let shown = same_kind.filter(|(_, levels)| {
            let steps = levels.iter().zip(&levels[1..]);
            steps.filter(|(old, new)| shows(old, new, wrong)).count() > 0
        });
        shown.count()
    })
}

#[test]
fn a_wrong_vertex_rule_would_show() {
    let cages: Vec<(bool, Vec<Cage>)> = small_creased()
        .iter()
        .map(|entry| (is_closed(&entry.cage), levels(&entry.cage, 2)))
        .collect();
    for (words, wrong) in WRONG_INSIDE {
        let [closed, open] = given_away(&cages, wrong);
        assert!(closed >= 5 && open >= 5, "{words}: {closed} {open}");
    }
    let (words, wrong) = COUNTED_ONCE;
    let [closed, open] = given_away(&cages, wrong);
    assert!(closed >= 5 && open >= 2, "{words}: {closed} {open}");
    for (words, wrong) in WRONG_ON_BORDER {
        let [_, open] = given_away(&cages, wrong);
        assert!(open >= 5, "{words}: {open}");
    }
}

/// The number of each half of an edge by other rules.
type Wear = fn(u8) -> [u8; 2];

const WRONG_WEAR: [(&str, Wear); 6] = [
    ("never", |number| [number; 2]),
    ("below 0", |number| [number.wrapping_sub(1); 2]),
    ("not below 1", |number| {
        [number.saturating_sub(1).max(number.min(1)); 2]
    }),
    ("by two", |number| [number.saturating_sub(2); 2]),
    ("to the half", |number| [number / 2; 2]),
    ("one half at once", |number| [number.saturating_sub(1), 0]),
];

#[test]
fn a_wrong_number_would_show() {
    for (words, wrong) in WRONG_WEAR {
        let mut shown = 0;
        for entry in small_creased() {
            let new = levels(&entry.cage, 1).remove(1);
            let halves = entry.cage.creases.iter().flat_map(|&number| wrong(number));
            let across = std::iter::repeat_n(0, entry.cage.halfedge_count());
            shown += usize::from(!halves.chain(across).eq(new.creases));
        }
        assert!(shown >= 50, "{words}: {shown}");
    }
}
