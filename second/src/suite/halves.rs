//! For trying what document 02 says in "Left and right pads": new coordinates that
//! are halves before they are rounded, of either sign, by each point rule, and at
//! inner vertices of each valence from 2 to 32 with either weight.

use super::shapes::{single_triangle, tetrahedron};
use super::valences::{closed, open};
use crate::cage::Cage;
use crate::sew::{beside, sew};
use crate::weight::{paper_part, Weight, VALENCES, WHOLE};

/// A coordinate before it is rounded: so many halves, and so many steps above
/// them. A step is the least by which two numerators of a rule differ, but for
/// whole numbers.
pub(super) type Target = (i64, i64);

/// One target to an axis. Together they are halves of either sign whose whole part
/// is even or odd, a number one step nearer to zero than a half and one that is
/// one step farther from it. Either three give away every other rounding.
pub(super) const FIRST: [Target; 3] = [(1, 0), (-3, 0), (1, -1)];
pub(super) const SECOND: [Target; 3] = [(-1, 0), (3, 0), (-3, -1)];

/// Each cage with its name.
pub(super) fn halves_cages() -> Vec<(String, Cage)> {
    let mut cages = edge_and_border_cages();
    for valence in VALENCES {
        let short = Rule::inner_vertex(valence, Weight::Short);
        let paper = Rule::inner_vertex(valence, Weight::Paper);
        let [open, closed] = [open, closed].map(|shape| shape(valence as u32));
        let both = beside(&short.placed(&open, FIRST), &paper.placed(&open, FIRST));
        cages.push((format!("halves-open-{valence}"), both));
        for (weight, rule) in [("short", short), ("paper", paper)] {
            let name = format!("halves-closed-{weight}-{valence}");
            cages.push((name, rule.placed(&closed, SECOND)));
        }
    }
    cages
}

/// Halves by the rules E.1, V.2 and E.2.
fn edge_and_border_cages() -> Vec<(String, Cage)> {
    let two_triangles = sew([[0, 2, 3], [1, 3, 2]]);
    let cages = [
        ("border-edge", BORDER_EDGE, single_triangle()),
        ("border-vertex", BORDER_VERTEX, single_triangle()),
        ("open-inner-edge", INNER_EDGE, two_triangles),
        ("closed-inner-edge", INNER_EDGE, tetrahedron()),
    ];
    let placed = cages.map(|(name, rule, piece)| {
        let [first, second] = [FIRST, SECOND].map(|targets| rule.placed(&piece, targets));
        (format!("halves-{name}"), beside(&first, &second))
    });
    placed.to_vec()
}

/// A point rule for one coordinate: v, and n others of sum s, go to
/// ((denominator − n·part)·v + part·s)/denominator.
pub(super) struct Rule {
    others: i64,
    part: i64,
    denominator: i64,
}

/// (a+b)/2.
pub(super) const BORDER_EDGE: Rule = Rule {
    others: 1,
    part: 1,
    denominator: 2,
};

/// (6v+a+b)/8.
pub(super) const BORDER_VERTEX: Rule = Rule {
    others: 2,
    part: 1,
    denominator: 8,
};

/// (3a+3b+c+d)/8 with both ends at v: (6v+c+d)/8.
const INNER_EDGE: Rule = BORDER_VERTEX;

impl Rule {
    fn inner_vertex(valence: usize, weight: Weight) -> Rule {
        let others = valence as i64;
        let (part, denominator) = match weight {
            Weight::Short => (3, 8 * others),
            Weight::Paper => {
                let part = paper_part(valence).expect("a valence from 2 to 32");
                (part.into(), WHOLE.into())
            }
        };
        Rule {
            others,
            part,
            denominator,
        }
    }

    /// The cage with points that the rule takes to these targets. Its first
    /// vertices are the others of the rule, and all after them lie at v.
    pub(super) fn placed(&self, cage: &Cage, targets: [Target; 3]) -> Cage {
        let axes = targets.map(|target| self.own_and_sum(target));
        let vertices = 0..cage.vertex_count() as i64;
        let points = vertices.flat_map(|vertex| {
            axes.map(|(own, sum)| match vertex < self.others {
                true => share(sum, self.others, vertex) as i32,
                false => own as i32,
            })
        });
        Cage {
            points: points.collect(),
            ..cage.clone()
        }
    }

    /// v and s that the rule takes to this target. It takes them to
    /// v + part·(s − n·v)/denominator, whose fraction is that of s − n·v alone. Of
    /// all that have it the one nearest to zero keeps v and s in range.
    fn own_and_sum(&self, (halves, steps): Target) -> (i64, i64) {
        let (step, apart_for_a_step) = common_divisor(self.part, self.denominator);
        let numerator = halves * (self.denominator / 2) + steps * step;
        let apart = numerator / step * apart_for_a_step;
        let apart = nearest_to_zero(apart, self.denominator / step);
        let own = (numerator - self.part * apart) / self.denominator;
        (own, self.others * own + apart)
    }
}

/// The greatest number that divides both, and how many times the first it is,
/// give or take whole times the second (Euclid).
fn common_divisor(first: i64, second: i64) -> (i64, i64) {
    let (mut divisor, mut times) = (first, 1);
    let (mut rest, mut times_for_rest) = (second, 0);
    while rest != 0 {
        let whole = divisor / rest;
        (divisor, rest) = (rest, divisor - whole * rest);
        (times, times_for_rest) = (times_for_rest, times - whole * times_for_rest);
    }
    (divisor, times)
}

/// The number nearest to zero that differs from this one by whole periods.
fn nearest_to_zero(number: i64, period: i64) -> i64 {
    let half = period / 2;
    (number + half).rem_euclid(period) - half
}

/// What one of so many gets of a sum that is shared out as evenly as can be.
fn share(sum: i64, count: i64, number: i64) -> i64 {
    (sum + number).div_euclid(count)
}
