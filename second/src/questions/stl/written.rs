//! For trying what document 02 says in "STL out to the mill": levels that have
//! to be written, also those that no cage has.

use super::PlainTriangles;
use crate::cage::{COORDINATE_LIMIT, HALFEDGE_LIMIT, VERTEX_LIMIT};

/// Coordinates at which the bits of a float come to their end: powers of two,
/// their neighbours, and others with many bits.
fn telling() -> Vec<i32> {
    let powers = (0..=20).map(|exponent| 1 << exponent);
    let near = powers.flat_map(|power| [power - 1, power, power + 1]);
    let others = [799, 12_345, 349_525, 699_050, 777_777, 1_000_001];
    let mut telling: Vec<i32> = near.chain(others).flat_map(|c: i32| [c, -c]).collect();
    telling.retain(|coordinate| coordinate.abs() <= COORDINATE_LIMIT);
    telling.sort();
    telling.dedup();
    telling
}

/// Each telling coordinate all over a triangle, then each of them as x, as y
/// and as z of each corner.
pub(super) fn telling_coordinates() -> Vec<PlainTriangles> {
    let telling = telling();
    let all_over = |&coordinate: &i32| {
        let name = format!("all-at-{coordinate}");
        PlainTriangles::new(name, vec![0, 1, 2], vec![coordinate; 9]).accepted()
    };
    let mut questions: Vec<PlainTriangles> = telling.iter().map(all_over).collect();
    let v = telling.len();
    let three_from = |first: usize| [0, 1, 2].map(|step| (first + step) % v);
    let vert = (0..v).flat_map(|first| three_from(first).map(|vertex| vertex as u32));
    let points = (0..v).flat_map(|first| three_from(first).map(|at| telling[at]));
    let everywhere = PlainTriangles::new("telling", vert.collect(), points.collect());
    questions.push(everywhere.accepted());
    questions
}

/// Triangles that the cage check turns away, or building does.
pub(super) fn strange_triangles() -> Vec<PlainTriangles> {
    let strange: [(&str, &[u32]); 10] = [
        ("one-corner", &[0, 0, 0]),
        ("two-corners", &[0, 0, 1]),
        ("first-corner-again", &[0, 1, 0]),
        ("last-corner-again", &[0, 1, 1]),
        ("same-twice", &[0, 1, 2, 0, 1, 2]),
        ("same-twice-turned", &[0, 1, 2, 1, 2, 0]),
        ("both-sides", &[0, 1, 2, 2, 1, 0]),
        ("same-thrice-on-one-corner", &[3, 3, 3, 3, 3, 3, 3, 3, 3]),
        ("bow-tie", &[0, 1, 2, 0, 3, 4]),
        ("backwards", &[4, 3, 2, 2, 1, 0]),
    ];
    // Up to 95 of the vertices are on no triangle.
    let counts = [5, 6, 100];
    let questions = strange.iter().flat_map(|&(name, vert)| {
        counts.map(|v| {
            let name = format!("{name}-of-{v}-vertices");
            PlainTriangles::new(name, vert.to_vec(), (1..=3 * v).collect()).accepted()
        })
    });
    let single = PlainTriangles::new("single-vertex", vec![0; 6], vec![1, -2, 3]);
    questions.chain([single.accepted()]).collect()
}

/// More triangles, more vertices, and higher numbers than a cage has, or than
/// its file can hold.
pub(super) fn more_than_a_cage() -> Vec<PlainTriangles> {
    let (h, v) = (HALFEDGE_LIMIT as usize, VERTEX_LIMIT as usize);
    let counts = [
        (h, v),
        (h + 3, v),
        (h, v + 1),
        (3, 65_537),
        (65_538, 70_000),
    ];
    let level = |(h, v): (usize, usize)| {
        let corner = |at: usize| (v - 1 - at % v) as u32;
        let vert = (0..h).map(corner).collect();
        let points = (0..3 * v as i32).map(|at| 3 * at - 100_000).collect();
        PlainTriangles::new(format!("cells-{h}-vertices-{v}"), vert, points).accepted()
    };
    counts.map(level).to_vec()
}
