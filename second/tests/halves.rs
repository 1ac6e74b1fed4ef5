//! Document 02, §5, "Left and right pads": "halves shall round away from zero",
//! by each point rule, with the creases of §6, and the cages of the suite that are
//! there to try it.

mod common;

use std::collections::{HashMap, HashSet};

use common::{
    corner_sums, corners, creases_at, levels_with, refinable, rounded, rounded_by, small_accepted,
    CornerSum, WEIGHTS,
};
use second::cage::{Cage, MARKER};
use second::suite::accepted_cages;
use second::weight::{paper_part, Weight, VALENCES};

/// A point rule, by its name in the paper.
#[derive(Clone, Copy, Debug, PartialEq, Eq)]
enum Rule {
    /// A crease, as every border edge is.
    E1,
    /// A smooth edge.
    E2,
    /// A vertex with two creases.
    V2,
    /// A smooth vertex of so many corners.
    V3(usize),
    /// A vertex with more than two creases, which the paper has no rule for.
    StaysPut,
}

/// A coordinate of the next level before it is rounded.
#[derive(Clone, Copy, Debug)]
struct Exact {
    rule: Rule,
    /// Where it stands in the points.
    index: usize,
    numerator: i64,
    denominator: i64,
}

/// All coordinates of the next level, as the rules of document 01, "Points", and
/// document 02, §4 and §6 say.
fn exact_coordinates(level: &Cage, weight: Weight) -> Vec<Exact> {
    let mut all = exact_crease_vertices(level);
    all.extend(exact_smooth_vertices(level, weight));
    all.extend(exact_edges(level));
    all
}

/// "With fewer it is smooth": with the short weight (5n·v+3s)/(8n), with the
/// paper's ((2^24−n·w)·v + w·s)/2^24.
fn exact_smooth_vertices(level: &Cage, weight: Weight) -> Vec<Exact> {
    let exact = |at: CornerSum| {
        let n = at.corners as i64;
        let (own, spoke, denominator) = match weight {
            Weight::Short => (5 * n, 3, 8 * n),
            Weight::Paper => {
                let part = i64::from(paper_part(at.corners).expect("an entry"));
                (16_777_216 - n * part, part, 16_777_216)
            }
        };
        Exact {
            rule: Rule::V3(at.corners),
            index: at.index,
            numerator: own * at.own + spoke * at.spokes,
            denominator,
        }
    };
    corner_sums(level).into_iter().map(exact).collect()
}

/// "A vertex with two creases follows the border vertex rule along them":
/// (6v+a+b)/8. "With more than two it stays put."
fn exact_crease_vertices(level: &Cage) -> Vec<Exact> {
    let mut exact = Vec::new();
    for (vertex, far_ends) in creases_at(level).iter().enumerate() {
        for axis in 0..3 {
            let own = coordinate(level, vertex, axis);
            let at = |&far_end: &usize| coordinate(level, far_end, axis);
            let (rule, numerator, denominator) = match &far_ends[..] {
                [] | [_] => continue,
                [a, b] => (Rule::V2, 6 * own + at(a) + at(b), 8),
                _ => (Rule::StaysPut, own, 1),
            };
            exact.push(Exact {
                rule,
                index: 3 * vertex + axis,
                numerator,
                denominator,
            });
        }
    }
    exact
}

/// "Border edge with ends a, b": (a+b)/2, and "an inner crease gets its midpoint".
/// "Inner edge with opposite corners c, d": (3a+3b+c+d)/8. Each inner edge is told
/// once, of its lower halfedge.
fn exact_edges(level: &Cage) -> Vec<Exact> {
    let mut exact = Vec::new();
    for (h, &twin) in level.twin.iter().enumerate() {
        let [a, b, c] = triangle_from(level, h);
        let edge = level.edge[h] as usize;
        let first = 3 * (level.vertex_count() + edge);
        let is_told = twin == MARKER || h < twin as usize;
        for axis in (0..3).filter(|_| is_told) {
            let at = |vertex| coordinate(level, vertex, axis);
            let index = first + axis;
            if twin == MARKER || level.creases[edge] > 0 {
                exact.push(Exact {
                    rule: Rule::E1,
                    index,
                    numerator: at(a) + at(b),
                    denominator: 2,
                });
            } else {
                let [_, _, d] = triangle_from(level, twin as usize);
                exact.push(Exact {
                    rule: Rule::E2,
                    index,
                    numerator: 3 * at(a) + 3 * at(b) + at(c) + at(d),
                    denominator: 8,
                });
            }
        }
    }
    exact
}

fn coordinate(level: &Cage, vertex: usize, axis: usize) -> i64 {
    level.points[3 * vertex + axis].into()
}

/// The corners of the triangle of `h`, its own first.
fn triangle_from(level: &Cage, h: usize) -> [usize; 3] {
    [0, 1, 2].map(|turn| level.vert[h - h % 3 + (h + turn) % 3] as usize)
}

/// Every coordinate of every level is the nearest whole number, and beside a half
/// the one that lies farther from zero.
#[test]
fn every_coordinate_word_for_word() {
    for weight in WEIGHTS {
        for entry in refinable(weight, small_accepted()) {
            let levels = levels_with(weight, &entry.cage, 2);
            for (old, new) in levels.iter().zip(&levels[1..]) {
                let mut said = vec![None; new.points.len()];
                for exact in exact_coordinates(old, weight) {
                    let known = said[exact.index].replace(exact);
                    assert!(known.is_none(), "{}", entry.name);
                }
                for (&point, exact) in new.points.iter().zip(said) {
                    let exact = exact.expect("a rule for each coordinate");
                    assert!(is_rounded(exact, point.into()), "{} {exact:?}", entry.name);
                }
            }
        }
    }
}

/// Not by working it out but by what it has to be.
fn is_rounded(exact: Exact, point: i64) -> bool {
    let (rounded, given) = (point * exact.denominator, exact.numerator);
    match 2 * (rounded - given).abs() - exact.denominator {
        0 => rounded.abs() > given.abs(),
        beyond => beyond < 0,
    }
}

/// What a cage of halves tries: a rule, and with which weight.
type Tried = (Rule, Weight);

/// The name of each cage of halves, and what it tries. An open cage tries an
/// inner vertex with either weight.
fn cages_of_halves() -> Vec<(String, Tried)> {
    let mut cages = Vec::new();
    for weight in WEIGHTS {
        cages.push(("halves-border-edge".to_string(), (Rule::E1, weight)));
        cages.push(("halves-border-vertex".to_string(), (Rule::V2, weight)));
        cages.push(("halves-open-inner-edge".to_string(), (Rule::E2, weight)));
        cages.push(("halves-closed-inner-edge".to_string(), (Rule::E2, weight)));
    }
    for valence in VALENCES {
        for (word, weight) in ["short", "paper"].into_iter().zip(WEIGHTS) {
            let tried = (Rule::V3(valence), weight);
            cages.push((format!("halves-open-{valence}"), tried));
            cages.push((format!("halves-closed-{word}-{valence}"), tried));
        }
    }
    cages
}

/// The accepted cages by name.
fn accepted_by_name() -> HashMap<String, Cage> {
    let accepted = accepted_cages().into_iter();
    accepted.map(|entry| (entry.name, entry.cage)).collect()
}

/// The coordinates by which a cage tries a rule.
fn tried_coordinates(cage: &Cage, (rule, weight): Tried) -> Vec<Exact> {
    let mut exact = exact_coordinates(cage, weight);
    exact.retain(|exact| exact.rule == rule);
    exact
}

/// Open and closed as the names say, small, and each there again under other
/// numbers. No other cage bears such a name.
#[test]
fn the_cages_of_halves() {
    let accepted = accepted_by_name();
    let cages = cages_of_halves().into_iter();
    let names: HashSet<String> = cages.map(|(name, _)| name).collect();
    assert_eq!(names.len(), 4 + 3 * 31);
    for name in &names {
        for cage in [&accepted[name], &accepted[&format!("{name}-disguised")]] {
            assert_eq!(cage.border_count() == 0, name.contains("closed"), "{name}");
            assert!(cage.halfedge_count() <= 200, "{name}");
        }
    }
    let alike = accepted.keys().filter(|name| name.starts_with("halves-"));
    assert_eq!(alike.count(), 2 * names.len());
}

/// For each rule, with each weight, and at an inner vertex for each valence from
/// 2 to 32: halves of either sign above an even and above an odd whole number, and
/// numbers that lie one step of the rule to either side of a half.
#[test]
fn each_rule_meets_each_kind_of_half() {
    let accepted = accepted_by_name();
    let cages = cages_of_halves().into_iter();
    let met: Vec<(Tried, Vec<Exact>)> = cages
        .map(|(name, tried)| (tried, tried_coordinates(&accepted[&name], tried)))
        .collect();
    for &(tried, _) in &met {
        let same = met.iter().filter(|(other, _)| *other == tried);
        let exact: Vec<Exact> = same.flat_map(|(_, exact)| exact).copied().collect();
        let kinds: HashSet<(bool, bool)> = exact.iter().filter_map(half).collect();
        assert_eq!(kinds.len(), 4, "{tried:?} {kinds:?}");
        for parts in [-step(tried), step(tried)] {
            let is_met = exact.iter().any(|exact| is_beside_a_half(exact, parts));
            assert!(is_met, "{tried:?} {parts}");
        }
    }
}

/// Of a half: whether it is negative, and whether its whole part is odd.
fn half(exact: &Exact) -> Option<(bool, bool)> {
    let whole = exact.numerator.abs() / exact.denominator;
    is_beside_a_half(exact, 0).then_some((exact.numerator < 0, whole % 2 == 1))
}

/// Whether the size is a half and so many parts more.
fn is_beside_a_half(exact: &Exact, parts: i64) -> bool {
    let above = exact.numerator.abs() - exact.denominator / 2 - parts;
    above % exact.denominator == 0
}

/// How many parts the numerators of a rule lie apart at least: the greatest number
/// that divides its denominator and each of its weights.
fn step((rule, weight): Tried) -> i64 {
    match (rule, weight) {
        (Rule::E1 | Rule::E2 | Rule::V2 | Rule::StaysPut, _) => 1,
        (Rule::V3(valence), Weight::Short) if valence % 3 == 0 => 3,
        (Rule::V3(_), Weight::Short) => 1,
        (Rule::V3(valence), Weight::Paper) => {
            let part = paper_part(valence).expect("an entry");
            1 << part.trailing_zeros()
        }
    }
}

/// Whether another rounding takes the upper of the two numbers beside a half, by
/// the lower one.
type TakesUpper = fn(i64) -> bool;

const OTHER_ROUNDINGS: [(&str, TakesUpper); 5] = [
    ("halves up", |_| true),
    ("halves down", |_| false),
    ("halves toward zero", |lower| lower < 0),
    ("halves to even", |lower| lower % 2 != 0),
    ("halves to odd", |lower| lower % 2 == 0),
];

/// Each cage of halves alone gives away each other rounding, by the rule and with
/// the weight that it is there to try.
#[test]
fn each_other_rounding_would_show() {
    let accepted = accepted_by_name();
    for (name, tried) in cages_of_halves() {
        let coordinates = tried_coordinates(&accepted[&name], tried);
        for (words, takes_upper) in OTHER_ROUNDINGS {
            let shows = |exact: &Exact| other_rounding_shows(exact, takes_upper);
            assert!(coordinates.iter().any(shows), "{name} {words}");
        }
    }
}

/// Whether a coordinate is on a crease inside: of an edge that has a number, or of
/// a vertex that is on no border.
fn is_on_inner_crease(cage: &Cage, exact: &Exact) -> bool {
    match (exact.index / 3).checked_sub(cage.vertex_count()) {
        Some(edge) => cage.creases[edge] > 0,
        None => !corners(cage)[exact.index / 3].1,
    }
}

/// So do the cages whose halves are on creases inside, open and closed: midpoints of
/// edges, and vertices with two creases.
#[test]
fn on_creases_each_other_rounding_would_show() {
    let accepted = accepted_by_name();
    for (word, rule) in [("edge", Rule::E1), ("vertex", Rule::V2)] {
        for kind in ["closed", "open"] {
            let name = format!("creased-halves-{word}-{kind}");
            let cage = &accepted[&name];
            assert_eq!(cage.border_count() == 0, kind == "closed", "{name}");
            let mut coordinates = tried_coordinates(cage, (rule, Weight::Short));
            coordinates.retain(|exact| is_on_inner_crease(cage, exact));
            for (words, takes_upper) in OTHER_ROUNDINGS {
                let shows = |exact: &Exact| other_rounding_shows(exact, takes_upper);
                assert!(coordinates.iter().any(shows), "{name} {words}");
            }
        }
    }
}

fn other_rounding_shows(exact: &Exact, takes_upper: TakesUpper) -> bool {
    let (numerator, denominator) = (exact.numerator, exact.denominator);
    rounded_by(numerator, denominator, takes_upper) != rounded(numerator, denominator)
}
