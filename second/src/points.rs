//! Document 01, "Points": where the vertices of the new level lie; document 02,
//! §4, "The weight from the paper": smooth vertices with the weight chosen; §5,
//! "Left and right pads": halves round away from zero; §6, "Edges that stay
//! sharp": creases, of which the borders are some.

use std::ops::{Add, AddAssign, Mul};

use crate::cage::Cage;
use crate::creases::{ends_of_creases, is_on_crease};
use crate::weight::{paper_part, Weight, WHOLE};

/// The points of the level after one that keeps the rules 3 to 8 and 15, and
/// with the paper's weight 14: first those of the old vertices, then one for
/// each old edge.
pub(crate) fn next_points(level: &Cage, weight: Weight) -> Vec<i32> {
    let points = [vertex_points(level, weight), edge_points(level)];
    points.concat().into_flattened()
}

/// A weighted sum of points, exactly: the numerators of x, y and z.
///
/// An i64 is enough. Refining has checked that the cage is in range, and so is
/// every level after it, as its coordinates are averages: at most 2^20 in size.
/// The weights of a rule are never negative and add up to its denominator: at
/// most 2^24, or 8n with n at most 1,024, since n corners at a vertex are those
/// of n triangles of the cage. So a numerator is at most 2^44 in size.
#[derive(Clone, Copy, Default)]
struct Sum([i64; 3]);

impl Sum {
    /// The point of a vertex.
    fn of(level: &Cage, vertex: usize) -> Sum {
        let (points, _) = level.points.as_chunks::<3>();
        Sum(points[vertex].map(i64::from))
    }

    /// Each coordinate over the denominator, rounded once. An average of i32
    /// numbers is again an i32 number.
    fn over(self, denominator: i64) -> [i32; 3] {
        self.0
            .map(|numerator| round_halves_away(numerator, denominator) as i32)
    }
}

impl Add for Sum {
    type Output = Sum;

    fn add(self, other: Sum) -> Sum {
        Sum([0, 1, 2].map(|axis| self.0[axis] + other.0[axis]))
    }
}

impl AddAssign for Sum {
    fn add_assign(&mut self, other: Sum) {
        *self = *self + other;
    }
}

impl Mul<Sum> for i64 {
    type Output = Sum;

    fn mul(self, sum: Sum) -> Sum {
        Sum(sum.0.map(|coordinate| self * coordinate))
    }
}

/// The nearest whole number to a fraction with a positive denominator, halves
/// going away from zero: the size is rounded with halves going up, the sign is
/// kept.
fn round_halves_away(numerator: i64, denominator: i64) -> i64 {
    let size = (2 * numerator.abs() + denominator) / (2 * denominator);
    numerator.signum() * size
}

/// The new point of each old vertex, by vertex number.
fn vertex_points(level: &Cage, weight: Weight) -> Vec<[i32; 3]> {
    let around = creases_at_vertices(level).into_iter().zip(spokes(level));
    let point = |(vertex, ((creases, far_ends), (n, s)))| {
        let v = Sum::of(level, vertex);
        match creases {
            0 | 1 => smooth_vertex(v, n, s, weight),
            2 => crease_vertex(v, far_ends),
            _ => v.over(1),
        }
    };
    around.enumerate().map(point).collect()
}

/// The point on each old edge, by edge number. Of the halfedges that carry an
/// edge one is above its twin.
fn edge_points(level: &Cage) -> Vec<[i32; 3]> {
    let mut points = vec![[0; 3]; level.edge_count()];
    for h in level.halfedges().filter(|&h| level.is_above_twin(h)) {
        points[level.edge_of(h)] = edge_point(level, h);
    }
    points
}

fn edge_point(level: &Cage, h: usize) -> [i32; 3] {
    let point = |vertex| Sum::of(level, vertex);
    let ends = [level.vert_of(h), level.far_end(h)].map(point);
    match level.twin_of(h) {
        Some(twin) if !is_on_crease(level, h) => {
            smooth_edge(ends, [h, twin].map(|h| point(level.opposite_corner(h))))
        }
        _ => crease_edge(ends),
    }
}

/// Rule E.1: (a+b)/2.
fn crease_edge([a, b]: [Sum; 2]) -> [i32; 3] {
    (a + b).over(2)
}

/// Rule E.2: (3a+3b+c+d)/8.
fn smooth_edge([a, b]: [Sum; 2], [c, d]: [Sum; 2]) -> [i32; 3] {
    (3 * a + 3 * b + c + d).over(8)
}

/// Rule V.2: (6v+a+b)/8, where `far_ends` is a+b.
fn crease_vertex(v: Sum, far_ends: Sum) -> [i32; 3] {
    (6 * v + far_ends).over(8)
}

/// Rule V.3. Short: (5n·v+3s)/(8n). The paper's: ((2^24−n·w)·v + w·s)/2^24.
fn smooth_vertex(v: Sum, n: usize, s: Sum, weight: Weight) -> [i32; 3] {
    match weight {
        Weight::Short => {
            let n = n as i64;
            (5 * n * v + 3 * s).over(8 * n)
        }
        Weight::Paper => {
            let part = paper_part(n).expect("a valence that passed 14");
            let (n, w, whole) = (n as i64, i64::from(part), i64::from(WHOLE));
            ((whole - n * w) * v + w * s).over(whole)
        }
    }
}

/// How many creases each vertex has, and the sum over their far ends. A border
/// vertex has its two border edges at least. A crease counts once at each of its
/// ends, also where another joins the same two vertices.
fn creases_at_vertices(level: &Cage) -> Vec<(usize, Sum)> {
    let mut creases = vec![(0, Sum::default()); level.vertex_count()];
    for [a, b] in ends_of_creases(level) {
        for (vertex, far_end) in [(a, b), (b, a)] {
            let (count, far_ends) = &mut creases[vertex];
            *count += 1;
            *far_ends += Sum::of(level, far_end);
        }
    }
    creases
}

/// How many halfedges leave each vertex, and the sum over their far ends: at an
/// inner vertex, as every smooth one is, n and s over all its spokes.
fn spokes(level: &Cage) -> Vec<(usize, Sum)> {
    let mut spokes = vec![(0, Sum::default()); level.vertex_count()];
    for h in level.halfedges() {
        let (n, s) = &mut spokes[level.vert_of(h)];
        *n += 1;
        *s += Sum::of(level, level.far_end(h));
    }
    spokes
}

#[cfg(test)]
mod tests {
    use super::round_halves_away;

    /// P10 as document 02, §5 has it.
    #[test]
    fn the_three_roundings() {
        assert_eq!(round_halves_away(12, 8), 2);
        assert_eq!(round_halves_away(-12, 8), -2);
        assert_eq!(round_halves_away(-13, 8), -2);
    }

    #[test]
    fn halves_go_away_from_zero() {
        assert_eq!(round_halves_away(4, 8), 1);
        assert_eq!(round_halves_away(-4, 8), -1);
        assert_eq!(round_halves_away(20, 8), 3);
        assert_eq!(round_halves_away(-20, 8), -3);
        assert_eq!(round_halves_away(1, 2), 1);
        assert_eq!(round_halves_away(-1, 2), -1);
    }

    #[test]
    fn beside_a_half_the_nearest_is_taken() {
        assert_eq!(round_halves_away(11, 8), 1);
        assert_eq!(round_halves_away(-11, 8), -1);
        assert_eq!(round_halves_away(13, 8), 2);
        assert_eq!(round_halves_away(3, 8), 0);
        assert_eq!(round_halves_away(-3, 8), 0);
        assert_eq!(round_halves_away(5, 8), 1);
        assert_eq!(round_halves_away(-5, 8), -1);
        assert_eq!(round_halves_away(0, 24), 0);
        assert_eq!(round_halves_away(-16, 8), -2);
    }

    /// An odd denominator has no halves.
    #[test]
    fn thirds_go_to_the_nearest() {
        let thirds = [-5, -4, -3, -2, -1, 0, 1, 2, 3, 4, 5];
        let rounded = thirds.map(|numerator| round_halves_away(numerator, 3));
        assert_eq!(rounded, [-2, -1, -1, -1, 0, 0, 0, 1, 1, 1, 2]);
    }

    /// What mirrored pairs rest on.
    #[test]
    fn a_negated_fraction_is_rounded_to_the_negated_number() {
        for denominator in [1, 2, 3, 8, 16, 24, 256, 1 << 24] {
            for numerator in (0..=100).chain((1 << 23) - 100..=(1 << 23) + 100) {
                let positive = round_halves_away(numerator, denominator);
                let negative = round_halves_away(-numerator, denominator);
                assert_eq!(negative, -positive, "{numerator}/{denominator}");
            }
        }
    }
}
