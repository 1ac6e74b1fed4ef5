//! Points that the documents give themselves, P4, P6 and P10, halves by each
//! rule, and creases by each of theirs, through refining.

use compare::{assert_alike, room_at, Question, WEIGHTS};
use second::cage::{Cage, MARKER};
use second::weight::Weight;

/// The points of level 1, which the host library and the second program share.
fn level_1(name: &str, cage: &Cage, weight: Weight) -> Vec<i32> {
    let question = Question::Refine(cage, 1, weight, room_at(cage, 1));
    assert_alike(name, &question).tables.points[cage.points.len()..].to_vec()
}

fn triangle(points: [i32; 9]) -> Cage {
    Cage {
        twin: vec![MARKER; 3],
        vert: vec![0, 1, 2],
        edge: vec![0, 1, 2],
        points: points.to_vec(),
        creases: vec![0; 3],
    }
}

fn pillow() -> Cage {
    Cage {
        twin: vec![5, 4, 3, 2, 1, 0],
        vert: vec![0, 1, 2, 0, 2, 1],
        edge: vec![0, 1, 2, 2, 1, 0],
        points: vec![0, 0, 0, 16, 0, 0, 0, 16, 0],
        creases: vec![0; 3],
    }
}

#[test]
fn p4_the_triangle() {
    let vertices = [100, 100, 0, 600, 100, 0, 100, 600, 0];
    let edges = [400, 0, 0, 400, 400, 0, 0, 400, 0];
    for weight in WEIGHTS {
        let triangle = triangle([0, 0, 0, 800, 0, 0, 0, 800, 0]);
        let points = level_1("P4", &triangle, weight);
        assert_eq!(points, [vertices, edges].concat());
    }
}

/// With the paper's weight vertex 0 goes to (5,5,0), and the edge's point stays.
#[test]
fn p6_the_pillow() {
    for (weight, point) in [(Weight::Short, [3, 3, 0]), (Weight::Paper, [5, 5, 0])] {
        let points = level_1("P6", &pillow(), weight);
        assert_eq!(points[..3], point, "vertex 0");
        assert_eq!(points[9..12], [6, 4, 0], "edge 0");
    }
}

/// 6v+a+b is 12, −12 and −13 in the three coordinates of vertex 0.
#[test]
fn p10_the_three_roundings() {
    for weight in WEIGHTS {
        let points = level_1("P10", &triangle([2, -2, -2, 0, 0, -1, 0, 0, 0]), weight);
        assert_eq!(points[..3], [2, -2, -2]);
    }
}

/// A half above zero in x and its mirror in y, which both go away from zero.
#[test]
fn halves_by_each_rule() {
    let placed = |cage: Cage, x: [i32; 3]| Cage {
        points: x.iter().flat_map(|&x| [x, -x, 0]).collect(),
        ..cage
    };
    for weight in WEIGHTS {
        let points = level_1("border", &placed(triangle([0; 9]), [1, 0, 6]), weight);
        assert_eq!(points[..3], [2, -2, 0], "vertex 0, 12/8");
        assert_eq!(points[9..12], [1, -1, 0], "edge 0, 1/2");
    }
    let points = level_1("inside", &placed(pillow(), [2, 6, -10]), Weight::Short);
    assert_eq!(points[..3], [1, -1, 0], "vertex 0, 8/16");
    assert_eq!(points[9..12], [1, -1, 0], "edge 0, 4/8");
    // The paper's weight at two corners is 39/128.
    let points = level_1("inside", &placed(pillow(), [33, 5, -3]), Weight::Paper);
    assert_eq!(points[..3], [14, -14, 0], "vertex 0, 1728/128");
    assert_eq!(points[9..12], [14, -14, 0], "edge 0, 108/8");
}

/// The pillow with these creases. Each vertex has two of its three edges: 0 has
/// 0 and 2, 1 has 0 and 1, 2 has 1 and 2.
fn creased_pillow(creases: [u8; 3]) -> Cage {
    Cage {
        creases: creases.to_vec(),
        ..pillow()
    }
}

/// P6's pillow: with one crease its ends are smooth, with two the vertex between
/// them goes along them, with three all do.
#[test]
fn creases_on_the_pillow() {
    let smooth = [(Weight::Short, [3, 3, 0]), (Weight::Paper, [5, 5, 0])];
    for (weight, smooth) in smooth {
        let points = level_1("one", &creased_pillow([1, 0, 0]), weight);
        assert_eq!(points[..3], smooth, "vertex 0");
        assert_eq!(points[9..12], [8, 0, 0], "edge 0");
        assert_eq!(points[12..15], [6, 6, 0], "edge 1");
        let points = level_1("two", &creased_pillow([1, 0, 10]), weight);
        assert_eq!(points[..3], [2, 2, 0], "vertex 0, (16/8, 16/8)");
        assert_eq!(points[9..12], [8, 0, 0], "edge 0");
        assert_eq!(points[15..], [0, 8, 0], "edge 2");
        let points = level_1("three", &creased_pillow([2, 3, 4]), weight);
        let vertices = [2, 2, 0, 12, 2, 0, 2, 12, 0];
        let edges = [8, 0, 0, 8, 8, 0, 0, 8, 0];
        assert_eq!(points, [vertices, edges].concat());
    }
}

/// Two triangles on the edge from 1 to 2, which is edge 1. Sharp, it makes three
/// creases at each of its ends, two of them borders: they stay where they are.
#[test]
fn a_crease_that_ends_on_the_border() {
    let pair = Cage {
        twin: vec![MARKER, 3, MARKER, 1, MARKER, MARKER],
        vert: vec![0, 1, 2, 2, 1, 3],
        edge: vec![0, 1, 2, 1, 3, 4],
        points: vec![0, 0, 0, 16, 0, 0, 0, 16, 0, 16, 16, 8],
        creases: vec![0, 3, 0, 0, 0],
    };
    let smooth = pair.clone().without_creases();
    for weight in WEIGHTS {
        let points = level_1("sharp", &pair, weight);
        assert_eq!(points[3..9], [16, 0, 0, 0, 16, 0], "vertices 1 and 2");
        assert_eq!(points[15..18], [8, 8, 0], "edge 1");
        let points = level_1("smooth", &smooth, weight);
        assert_eq!(points[3..9], [14, 2, 1, 2, 14, 1], "vertices 1 and 2");
        assert_eq!(points[15..18], [8, 8, 1], "edge 1");
    }
}

/// As on a border: 1/2 and 12/8 in x, and their mirrors in y.
#[test]
fn halves_on_creases() {
    let placed = |x: [i32; 3]| Cage {
        points: x.iter().flat_map(|&x| [x, -x, 0]).collect(),
        ..creased_pillow([1; 3])
    };
    for weight in WEIGHTS {
        let points = level_1("creases", &placed([1, 0, 6]), weight);
        assert_eq!(points[..3], [2, -2, 0], "vertex 0, 12/8");
        assert_eq!(points[9..12], [1, -1, 0], "edge 0, 1/2");
    }
}
