//! For trying what document 02 says in "Cages as plain triangles": refusal 13,
//! whose place is the lowest halfedge that has a double, wherever the double
//! itself stands.

use super::{PlainTriangles, TELLING};
use crate::cage::{next, HALFEDGE_LIMIT};
use crate::refusal::{DOUBLED, VERTEX};

pub(super) fn doubled_pairs() -> Vec<PlainTriangles> {
    let mut questions = [telling_pairs(), few_numbers()].concat();
    for (shift, salt) in [(0, 0), (0, 1 << 20), (8, 5), (20, 4_095), (20, u32::MAX)] {
        let vert = apart(shift, salt);
        questions.extend(SAME.map(|(sets, lowest)| {
            let name = format!("doubled-{sets:?}-shift-{shift}-salt-{salt}");
            PlainTriangles::new(name, doubled(&vert, sets), vec![0; 9]).refused(DOUBLED, lowest)
        }));
        let name = format!("apart-shift-{shift}-salt-{salt}");
        questions.push(PlainTriangles::new(name, vert, vec![]).refused(VERTEX, 0));
    }
    questions
}

/// Any two pairs of telling numbers on one halfedge each, without any points.
fn telling_pairs() -> Vec<PlainTriangles> {
    let pairs = TELLING.map(|from| TELLING.map(|to| [from, to]));
    let pairs = pairs.as_flattened();
    let both = pairs.iter().flat_map(|&[a, b]| {
        pairs.iter().map(move |&[c, d]| {
            let vert = vec![a, b, 77, 78, c, d];
            let triangles = PlainTriangles::new(format!("pairs-{vert:?}"), vert, vec![]);
            let number = if [a, b] == [c, d] { DOUBLED } else { VERTEX };
            triangles.refused(number, 0)
        })
    });
    both.collect()
}

/// As many halfedges as there may be, on one vertex, on two and on three.
fn few_numbers() -> Vec<PlainTriangles> {
    let few: [&[u32]; 5] = [&[7], &[0, 1], &[0, 1, 2], &[5, 5, 6], &[u32::MAX, 0]];
    let of_few = few.map(|numbers| {
        let corners = numbers.iter().copied().cycle();
        let vert = corners.take(HALFEDGE_LIMIT as usize).collect();
        PlainTriangles::new(format!("all-{numbers:?}"), vert, vec![0; 9]).refused(DOUBLED, 0)
    });
    of_few.to_vec()
}

/// Halfedges that are made to carry the same pair, several sets of them at
/// once, and the lowest of all. Those of one set are of different triangles.
type Same = (&'static [&'static [usize]], usize);

const SAME: [Same; 9] = [
    (&[&[0, 3]], 0),
    (&[&[0, 3_069]], 0),
    (&[&[3_066, 3_069]], 3_066),
    (&[&[1, 3_071]], 1),
    (&[&[1_503, 1_499]], 1_499),
    // The second set is whole before the first one is.
    (&[&[10, 3_000], &[20, 30]], 10),
    (&[&[10, 3_000], &[8, 3_004]], 8),
    (&[&[5, 9, 2_000], &[6, 12]], 5),
    (&[&[100, 200, 300, 400], &[101, 98]], 98),
];

/// As many halfedges as there may be, each corner with a number of its own.
fn apart(shift: u32, salt: u32) -> Vec<u32> {
    let corner = |h: u32| (h << shift) ^ salt;
    (0..HALFEDGE_LIMIT as u32).map(corner).collect()
}

/// The table after each halfedge of a set got the pair of the first.
fn doubled(vert: &[u32], sets: &[&[usize]]) -> Vec<u32> {
    let mut doubled = vert.to_vec();
    for same in sets {
        for &h in &same[1..] {
            doubled[h] = vert[same[0]];
            doubled[next(h)] = vert[next(same[0])];
        }
    }
    doubled
}
