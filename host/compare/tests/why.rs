//! Why the cage check sends a cage back: number and place, the clause that is
//! broken and the numbers that show it, and the same in words.

use std::collections::BTreeSet;

use compare::{accepted, assert_alike, handed, named, refused, Question};
use ryebadger::{CageFile, Refusal};
use second::cage::{Cage, MARKER};
use second::draw::Draw;
use second::questions::files::{damaged, suite_files};
use second::suite::suite;
use second::why::why_line;

/// The clauses of each number.
const CLAUSES: [(u64, u64); 11] = [
    (3, 1),
    (3, 2),
    (3, 3),
    (4, 1),
    (4, 2),
    (4, 3),
    (5, 1),
    (6, 1),
    (6, 2),
    (6, 3),
    (7, 1),
];

/// Number, place, clause and three numbers. Number and place are the check's, and
/// there is a clause exactly where the number has some.
fn explained(name: &str, cage: &Cage) -> [u64; 6] {
    let outcome = assert_alike(name, &Question::Why(cage));
    let checked = assert_alike(name, &Question::Check(cage));
    assert_eq!(outcome.verdict(), checked.verdict(), "{name}");
    let answer: [u64; 6] = outcome.answer.try_into().expect("six numbers");
    if (3..=7).contains(&answer[0]) {
        let told = (answer[0], answer[2]);
        assert!(CLAUSES.contains(&told), "{name}: {answer:?}");
    } else {
        assert_eq!(answer[2..], [0; 4], "{name}");
    }
    answer
}

/// The clauses that are told, each with its number, and the numbers that have none.
#[derive(Default)]
struct Told(BTreeSet<(u64, u64)>);

impl Told {
    fn add(&mut self, answer: [u64; 6]) {
        self.0.insert((answer[0], answer[2]));
    }

    fn assert_has_every_clause(&self) {
        let missing = |clause: &&(u64, u64)| !self.0.contains(*clause);
        assert_eq!(CLAUSES.iter().find(missing), None, "{:?}", self.0);
    }
}

#[test]
fn every_cage_of_the_suite_valid_and_damaged() {
    let mut told = Told::default();
    for entry in suite() {
        told.add(explained(&entry.name, &entry.cage));
    }
    let without = [0, 1, 2, 8, 15].map(|number| (number, 0));
    let expected = CLAUSES.into_iter().chain(without).collect();
    assert_eq!(told.0, expected);
}

/// TWIN, VERT or EDGE.
const TABLES: [fn(&mut Cage) -> &mut Vec<u32>; 3] = [
    |cage| &mut cage.twin,
    |cage| &mut cage.vert,
    |cage| &mut cage.edge,
];

/// To every number up to one more than H, to the marker and to the number below it.
#[test]
fn every_cell_of_small_cages_changed() {
    let mut told = Told::default();
    for name in [
        "triangle",
        "pillow",
        "tetrahedron",
        "grid-3x3",
        "clause-fan-ends-first",
    ] {
        let cage = named(name);
        let h = cage.twin.len();
        let numbers = || (0..=h as u32 + 1).chain([MARKER - 1, MARKER]);
        for table in TABLES {
            for (cell, number) in (0..h).flat_map(|cell| numbers().map(move |n| (cell, n))) {
                let mut changed = cage.clone();
                table(&mut changed)[cell] = number;
                told.add(explained(name, &changed.without_creases()));
            }
        }
    }
    told.assert_has_every_clause();
}

/// The cage with two drawn vertices made one, which the last one is renumbered for.
fn with_vertices_made_one(cage: &Cage, draw: &mut Draw) -> Cage {
    let mut made = cage.clone();
    let last = cage.vertex_count() as u32 - 1;
    let [gone, kept] = [(); 2].map(|()| draw.below(last.into()) as u32);
    for vertex in &mut made.vert {
        if *vertex == gone {
            *vertex = kept;
        } else if *vertex == last {
            *vertex = gone;
        }
    }
    made.points.truncate(3 * last as usize);
    made
}

/// Two cells of a table exchanged, or one to four changed: to what another has, to a
/// halfedge, to H, to the marker, or to any number; and vertices made one. Large cages
/// are among them.
#[test]
fn drawn_cells_changed() {
    let draw = &mut Draw::new(81);
    let mut told = Told::default();
    for entry in accepted() {
        for table in TABLES.into_iter().cycle().take(9) {
            let mut changed = entry.cage.clone();
            let cells = table(&mut changed);
            let h = cells.len();
            if draw.once_in(3) {
                cells.swap(draw.place(h), draw.place(h));
            }
            for _ in 0..draw.below(5) {
                let (any, halfedge) = (draw.number() as u32, draw.place(h) as u32);
                let other = cells[draw.place(h)];
                cells[draw.place(h)] = draw.choice(any, &[other, halfedge, h as u32, MARKER]);
            }
            told.add(explained(&entry.name, &changed.without_creases()));
            let made_one = with_vertices_made_one(&entry.cage, draw);
            told.add(explained(&entry.name, &made_one));
        }
    }
    told.assert_has_every_clause();
}

/// The halfedges that carry an edge, the lowest first.
fn carriers(cage: &Cage, edge: u32) -> Vec<usize> {
    let carries = |&h: &usize| cage.edge[h] == edge;
    (0..cage.edge.len()).filter(carries).collect()
}

/// The edge of the last halfedge of the largest cages, given to another edge's: the
/// lowest carrier is the place, and the next that is not its twin the stranger.
#[test]
fn an_edge_shared_with_the_last_halfedge_of_a_large_cage() {
    for name in ["torus-32x16", "grid-32x16", "disc-1024"] {
        let cage = named(name);
        let last = cage.edge[cage.edge.len() - 1];
        for other in [0, 1, 500, 1_000].into_iter().filter(|&edge| edge != last) {
            let mut shared = cage.clone();
            for h in carriers(&cage, other) {
                shared.edge[h] = last;
            }
            let all = carriers(&shared, last);
            let place = all[0];
            let is_stranger = |&&h: &&usize| h as u32 != shared.twin[place];
            let stranger = *all[1..].iter().find(is_stranger).expect(name);
            let foreseen = [6, place as u64, 3, last.into(), stranger as u64, 0];
            assert_eq!(explained(name, &shared), foreseen, "{name}");
        }
    }
}

/// A disc with the spoke of this corner of its hub cut: both its halfedges are on a
/// border, and the rim has a vertex more.
fn with_cut_spoke(cage: &Cage, corner: usize) -> Cage {
    let mut cut = cage.clone();
    cut.twin[corner] = MARKER;
    cut.twin[cage.twin[corner] as usize] = MARKER;
    cut.edge[corner] = cage.edge_count() as u32;
    // The next halfedge leaves the far end.
    cut.vert[corner / 3 * 3 + (corner + 1) % 3] = cage.vertex_count() as u32;
    cut.points.extend([0; 3]);
    cut.creases.push(0);
    cut
}

/// Discs cut at one spoke, which leaves one fan at the hub, and at two.
#[test]
fn a_fan_cut_anywhere() {
    for (hub, step) in [(4, 1), (33, 4), (1_024, 341)] {
        let name = format!("disc-{hub}");
        let cage = named(&name);
        let at_hub = |&h: &usize| cage.vert[h] == hub;
        let corners: Vec<usize> = (0..cage.vert.len()).filter(at_hub).collect();
        let some = || corners.iter().copied().step_by(step);
        for one in some() {
            let once = with_cut_spoke(&cage, one);
            assert_eq!(explained(&name, &once), [0; 6], "{name}");
            for other in some().filter(|&other| other > one) {
                let twice = with_cut_spoke(&once, other);
                // Corners of a disc are numbered round it.
                let is_between = |h: usize| (one..other).contains(&h);
                let is_apart = |&&h: &&usize| is_between(h) != is_between(corners[0]);
                let apart = *corners.iter().find(is_apart).expect("two fans");
                let foreseen = [7, hub.into(), 1, corners[0] as u64, apart as u64, 0];
                assert_eq!(explained(&name, &twice), foreseen, "{name}");
            }
        }
    }
}

/// Tables of any cells, now and then not all of one length.
#[test]
fn drawn_tables() {
    let draw = &mut Draw::new(82);
    for _ in 0..20_000 {
        let length = draw.choice(3, &[0, 1, 2, 4, 6]);
        let most = draw.between(1..=9) as u32;
        let mut table = || -> Vec<u32> {
            let length = if draw.once_in(20) { 5 } else { length };
            let cells = 0..length as u32;
            cells
                .map(|cell| draw.choice(MARKER, &[cell, cell % most, most, MARKER - 1]))
                .collect()
        };
        let [twin, vert, edge] = [(); 3].map(|()| table());
        let cage = Cage {
            twin,
            vert,
            edge,
            points: vec![0; draw.choice(9, &[0, 3, 8, 18])],
            creases: Vec::new(),
        };
        explained("drawn tables", &cage);
        explained("drawn tables", &cage.without_creases());
    }
}

/// What is said of the cage that a file holds is the second program's line; where it
/// is accepted, nothing. A file that cannot be read has no cage.
#[test]
fn the_line_is_the_second_programs() {
    let mut told = Told::default();
    for file in suite_files().chain(damaged()) {
        let (name, line) = (&file.name, why_line(&file.bytes));
        let read = match CageFile::read(&file.bytes) {
            Ok(read) => read,
            Err(refusal) => {
                let (number, place) = (refusal.number(), refusal.place());
                let start = format!("refused {number} {place}");
                let rest = line.strip_prefix(&start).expect(name);
                assert_eq!(rest == "\n", number != 3, "{name}: {line}");
                continue;
            }
        };
        match ryebadger::why(read.cage.as_cage()) {
            Some(why) => assert_eq!(format!("{why}\n"), line, "{name}"),
            None => assert!(line.starts_with("accepted: "), "{name}: {line}"),
        }
        let cage = compare::owned(read.cage.as_cage());
        told.add(explained(name, &cage));
    }
    told.assert_has_every_clause();
}

/// A number past 16 bits, which no file has, is said in full.
#[test]
fn a_number_of_32_bits_is_said_in_full() {
    for (name, line) in [
        (
            "clause-twin-far-past",
            "refused 3 2: halfedge 2 has twin 4294967294, past the 6 halfedges",
        ),
        (
            "clause-twin-not-returned-by-one-far-past",
            "refused 3 0: halfedge 0 has twin 5, whose twin is 4294967294",
        ),
        (
            "clause-vertex-pillow-past-at-1",
            "refused 4 1: corner 1 names vertex 4294967295, past the 3 points",
        ),
        (
            "clause-edge-pillow-past-shared-at-0",
            "refused 6 0: halfedge 0 has edge 4294967295, past the 3 edges",
        ),
    ] {
        let cage = named(name);
        let why = ryebadger::why(handed(&cage)).expect(name);
        assert_eq!(why.to_string(), line);
    }
}

/// Of the cage that it refuses, and of no other.
#[test]
fn a_refusal_tells_its_reason() {
    let (pillow, mut before) = (named("pillow"), None::<Refusal>);
    let mut reasons = 0;
    for entry in refused() {
        let (name, cage) = (&entry.name, handed(&entry.cage));
        let why = ryebadger::why(cage).expect(name);
        let refusal = ryebadger::check(cage).expect_err(name);
        assert_eq!(why.refusal, refusal, "{name}");
        assert_eq!(refusal.reason(cage), why.reason, "{name}");
        assert_eq!(refusal.reason(handed(&pillow)), None, "{name}");
        if let Some(other) = before.filter(|&other| other != refusal) {
            assert_eq!(other.reason(cage), None, "{name}");
        }
        reasons += usize::from(why.reason.is_some());
        before = Some(refusal);
    }
    assert!(reasons > 150);
}
