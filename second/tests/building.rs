//! Document 02, §1, "Cages as plain triangles".

mod common;

use common::{document_pillow, document_triangle, lendable};
use second::build::build;
use second::cage::{Cage, MARKER as M};
use second::check::{check, CageCounts};
use second::questions::triangles::questions;
use second::refusal::Refusal;
use second::suite::{accepted_cages, cage_named, suite, Expected};

type Built = Result<(CageCounts, Vec<u32>, Vec<u32>), Refusal>;

/// Builds into tables of these lengths. On a refusal they must be as before,
/// and past H always.
fn built_into(vert: &[u32], points: &[i32], [twin, edge]: [usize; 2]) -> Built {
    let before = lendable([twin, 0, edge, 0, 0]);
    let mut tables = before.clone();
    let answer = build(vert, points, [&mut tables.twin, &mut tables.edge]);
    let written = if answer.is_ok() { vert.len() } else { 0 };
    assert_eq!(tables.twin[written..], before.twin[written..]);
    assert_eq!(tables.edge[written..], before.edge[written..]);
    tables.twin.truncate(vert.len());
    tables.edge.truncate(vert.len());
    answer.map(|counts| (counts, tables.twin, tables.edge))
}

/// With room for any cage, and some more.
fn built(vert: &[u32], points: &[i32]) -> Built {
    built_into(vert, points, [3_080, 3_090])
}

fn tables_of(vert: &[u32], vertices: usize) -> (Vec<u32>, Vec<u32>) {
    let (_, twin, edge) = built(vert, &vec![0; 3 * vertices]).expect("accepted");
    (twin, edge)
}

fn refusal_of(vert: &[u32], vertices: usize) -> Option<(u32, u64)> {
    let refusal = built(vert, &vec![0; 3 * vertices]).err();
    refusal.map(|refusal| (refusal.number, refusal.place))
}

fn refused(number: u32, place: u64) -> Option<(u32, u64)> {
    Some((number, place))
}

#[test]
fn p1_triangle() {
    assert_eq!(tables_of(&[0, 1, 2], 3), (vec![M; 3], vec![0, 1, 2]));
    let cage = document_triangle();
    let (counts, ..) = built(&cage.vert, &cage.points).expect("accepted");
    assert_eq!(Ok(counts), check(&cage));
}

#[test]
fn p5_pillow() {
    let cage = document_pillow();
    let tables = tables_of(&[0, 1, 2, 0, 2, 1], 3);
    assert_eq!(tables, (vec![5, 4, 3, 2, 1, 0], vec![0, 1, 2, 2, 1, 0]));
    assert_eq!(tables, (cage.twin, cage.edge));
}

#[test]
fn p7_two_triangles_at_a_vertex() {
    assert_eq!(refusal_of(&[0, 1, 2, 0, 3, 4], 5), refused(7, 0));
}

/// Four triangles round a square: edges in the order of their lowest halfedge.
#[test]
fn edges_are_numbered_by_their_lowest_halfedge() {
    let (twin, edge) = tables_of(&[4, 0, 1, 4, 1, 2, 4, 2, 3, 4, 3, 0], 5);
    assert_eq!(twin, [11, M, 3, 2, M, 6, 5, M, 9, 8, M, 0]);
    assert_eq!(edge, [0, 1, 2, 2, 3, 4, 4, 5, 6, 6, 7, 0]);
}

#[test]
fn the_same_pair_twice() {
    assert_eq!(refusal_of(&[0, 1, 2, 0, 1, 3], 4), refused(13, 0));
    assert_eq!(refusal_of(&[2, 0, 1, 0, 1, 3], 4), refused(13, 1));
    assert_eq!(refusal_of(&[1, 2, 0, 3, 0, 1], 4), refused(13, 2));
    // Three times, and an opposite between.
    assert_eq!(
        refusal_of(&[5, 6, 7, 0, 1, 2, 1, 0, 3, 0, 1, 4, 0, 1, 8], 9),
        refused(13, 3)
    );
    // (1,2) on 1 and 9, (6,4) on 4 and 7.
    assert_eq!(
        refusal_of(&[0, 1, 2, 3, 6, 4, 5, 6, 4, 1, 2, 7], 8),
        refused(13, 1)
    );
}

/// A halfedge from a vertex to itself has no twin, and is refused by 4; where
/// there are two, they are doubles.
#[test]
fn both_ends_alike() {
    assert_eq!(refusal_of(&[0, 0, 1], 2), refused(4, 0));
    assert_eq!(refusal_of(&[0, 1, 1], 2), refused(4, 1));
    assert_eq!(refusal_of(&[1, 0, 1], 2), refused(4, 2));
    assert_eq!(refusal_of(&[0, 0, 0], 1), refused(13, 0));
    assert_eq!(refusal_of(&[0, 0, 1, 2, 0, 0], 3), refused(13, 0));
}

/// A pair is a pair also where a number is past the points: 13 is before 4.
#[test]
fn past_the_points() {
    assert_eq!(refusal_of(&[0, 1, M], 2), refused(4, 2));
    assert_eq!(refusal_of(&[M, 0, 1, M, 0, 2], 3), refused(13, 0));
    assert_eq!(refusal_of(&[0, 1, 2, 3, M, M - 1], 4), refused(4, 4));
    assert_eq!(refusal_of(&[0, 1, 2, M, M, 3], 4), refused(4, 3));
    assert_eq!(refusal_of(&[0, 1, 2], 0), refused(4, 0));
}

#[test]
fn a_slit_closes() {
    let slit = cage_named("pillow-slit").expect("in the suite");
    assert_eq!(slit.border_count(), 2);
    let (counts, twin, edge) = built(&slit.vert, &slit.points).expect("accepted");
    let pillow = document_pillow();
    assert_eq!((twin, edge), (pillow.twin, pillow.edge));
    assert_eq!((counts.edges, counts.borders), (3, 0));
}

/// Two edges between the same two vertices: building makes no such cage.
#[test]
fn two_edges_between_two_vertices_are_doubled() {
    for name in ["twofold-pyramid", "torus-2x2"] {
        let cage = cage_named(name).expect("in the suite");
        let refusal = built(&cage.vert, &cage.points).expect_err(name);
        assert_eq!(refusal.number, 13, "{name}");
    }
}

#[test]
fn room_exact_and_one_short() {
    for name in ["triangle", "pillow", "disc-33", "torus-32x16"] {
        let Cage { vert, points, .. } = cage_named(name).expect("in the suite");
        let h = vert.len();
        let answer = |lengths| built_into(&vert, &points, lengths).err();
        assert_eq!(answer([h, h]), None);
        assert_eq!(answer([h - 1, h]), Some(Refusal::new(9, 1)));
        assert_eq!(answer([h, h - 1]), Some(Refusal::new(9, 3)));
        assert_eq!(answer([h + 9, h - 1]), Some(Refusal::new(9, 3)));
        assert_eq!(answer([h - 1, h - 1]), Some(Refusal::new(9, 1)));
        assert_eq!(answer([0, 0]), Some(Refusal::new(9, 1)));
    }
}

#[test]
fn halfedges_up_to_the_limit() {
    for name in ["torus-32x16", "grid-32x16", "disc-1024"] {
        let cage = cage_named(name).expect("in the suite");
        let (counts, ..) = built(&cage.vert, &cage.points).expect(name);
        assert_eq!(counts.halfedges, 3_072);
    }
    let above = cage_named("strip-1025").expect("in the suite");
    assert_eq!(above.vert.len(), 3_075);
    let refusal = built(&above.vert, &above.points).err();
    assert_eq!(refusal, Some(Refusal::new(2, 0)));
}

#[test]
fn vertices_up_to_the_limit() {
    let most = cage_named("most-vertices").expect("in the suite");
    let (counts, ..) = built(&most.vert, &most.points).expect("accepted");
    assert_eq!(counts.vertices, 2_048);
    assert_eq!(refusal_of(&[0, 1, 2], 2_048), refused(5, 3));
    assert_eq!(refusal_of(&[0, 1, 2], 2_049), refused(2, 0));
}

/// Every set of faults among them: the first in the order 1, 2, 13, 4, 5, 7, 8
/// answers, each of them before 9.
#[test]
fn the_questions_are_answered_as_foreseen() {
    let mut numbers = [0; 14];
    for question in questions() {
        let (vert, points) = (&question.vert, &question.points);
        let answer = built(vert, points);
        let without_room = built_into(vert, points, [0, 0]).err();
        let refusal = answer.as_ref().err().copied();
        match question.expected {
            Expected::Accepted => assert_eq!(refusal, None, "{}", question.name),
            Expected::Refused(known) => assert_eq!(refusal, Some(known), "{}", question.name),
            Expected::Unforeseen => {}
        }
        let ninth = Refusal::new(9, 1);
        assert_eq!(without_room, refusal.or(Some(ninth)), "{}", question.name);
        numbers[refusal.map_or(0, |refusal| refusal.number as usize)] += 1;
    }
    for number in [0, 1, 2, 4, 5, 7, 8, 13] {
        assert!(numbers[number] >= 20, "{number}: {numbers:?}");
    }
}

/// The rules as document 02 says them, over every two halfedges.
struct Said {
    doubled: Option<usize>,
    twin: Vec<u32>,
    edge: Vec<u32>,
}

fn said(vert: &[u32]) -> Said {
    let next = |h: usize| if h % 3 == 2 { h - 2 } else { h + 1 };
    let pairs: Vec<_> = (0..vert.len()).map(|h| (vert[h], vert[next(h)])).collect();
    let doubled = (0..vert.len()).find(|&h| pairs[h + 1..].contains(&pairs[h]));
    let are_twins = |g: usize, h: usize| g != h && pairs[g] == (pairs[h].1, pairs[h].0);
    let twin_of = |h| (0..vert.len()).find(|&g| are_twins(g, h));
    let twins: Vec<Option<usize>> = (0..vert.len()).map(twin_of).collect();
    let lowest: Vec<usize> = (0..)
        .zip(&twins)
        .map(|(h, twin)| twin.map_or(h, |t| h.min(t)))
        .collect();
    let mut edges = lowest.clone();
    edges.sort();
    edges.dedup();
    let number = |h: &usize| edges.iter().position(|edge| edge == h).unwrap_or_default();
    Said {
        doubled,
        twin: twins.iter().map(|t| t.map_or(M, |t| t as u32)).collect(),
        edge: lowest.iter().map(|h| number(h) as u32).collect(),
    }
}

/// What building answers is what the rules say, word for word.
fn assert_as_said(name: &str, vert: &[u32], points: &[i32]) {
    let answer = built(vert, points);
    if answer.as_ref().is_err_and(|refusal| refusal.number <= 2) {
        return;
    }
    let Said {
        doubled,
        twin,
        edge,
    } = said(vert);
    let expected = match doubled {
        Some(h) => Err(Refusal::new(13, h)),
        None => {
            let cage = Cage {
                twin: twin.clone(),
                vert: vert.to_vec(),
                edge: edge.clone(),
                points: points.to_vec(),
                ..Cage::default()
            };
            check(&cage.without_creases())
        }
    };
    assert_eq!(
        answer,
        expected.map(|counts| (counts, twin, edge)),
        "{name}"
    );
}

#[test]
fn the_rules_word_for_word() {
    for question in questions() {
        assert_as_said(&question.name, &question.vert, &question.points);
    }
    for entry in suite() {
        assert_as_said(&entry.name, &entry.cage.vert, &entry.cage.points);
    }
}

/// Building an accepted cage's triangles gives its own TWIN back, unless two
/// of its halfedges carry one pair or a slit of it closes.
#[test]
fn an_accepted_cage_is_built_again() {
    let (mut again, mut doubled, mut closed) = (0, 0, 0);
    for entry in accepted_cages() {
        let cage = &entry.cage;
        match built(&cage.vert, &cage.points) {
            Ok((counts, twin, edge)) if twin == cage.twin => {
                again += 1;
                assert_eq!(Ok(counts), check(cage), "{}", entry.name);
                assert_eq!(edge.len(), cage.edge.len());
            }
            Ok((counts, ..)) => {
                closed += 1;
                assert!(
                    counts.borders < cage.border_count() as u64,
                    "{}",
                    entry.name
                );
            }
            Err(refusal) => {
                doubled += 1;
                assert_eq!(refusal.number, 13, "{}", entry.name);
            }
        }
    }
    assert!(
        again > 150 && doubled >= 4 && closed > 20,
        "{again} {doubled} {closed}"
    );
}
