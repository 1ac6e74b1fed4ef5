//! Document 02, §4, "The weight from the paper".

mod common;

use common::{
    corner_sums, corners, creases_at, document_pillow, file_of, levels, levels_with,
    lowest_of_many_corners, refinable, refined_into, refusal_of_the_depth, room, rounded,
    small_accepted, CornerSum, WEIGHTS,
};
use second::cage::Cage;
use second::check::check;
use second::counts::count_question;
use second::file::{read_cage, write_cage_file};
use second::lister::list_levels;
use second::refusal::{Refusal, VALENCE};
use second::suite::{accepted_cages, cage_named, suite};
use second::weight::{paper_part, Weight, VALENCES, WHOLE};

fn named(name: &str) -> Cage {
    cage_named(name).expect("in the suite")
}

/// The entry of a valence from 2 to 32.
fn entry(valence: usize) -> i64 {
    paper_part(valence).expect("an entry").into()
}

/// "Entries 5111808, 3145728, 2031616 and 1048576 at valences 2, 3, 4 and 6 are
/// exact." There the cosine is a whole number of halves, and with c halves the
/// formula is (40 − (3+c)²)/(64n).
#[test]
fn exact_entries() {
    for (valence, halves, known) in [
        (2, -2, 5_111_808),
        (3, -1, 3_145_728),
        (4, 0, 2_031_616),
        (6, 1, 1_048_576),
    ] {
        let base = 3 + halves;
        let (numerator, denominator) = (40 - base * base, 64 * valence as i64);
        assert_eq!(entry(valence), known);
        assert_eq!(known * denominator, numerator * i64::from(WHOLE));
    }
}

/// "For a valence from 2 to 32".
#[test]
fn a_valence_has_an_entry_from_2_to_32() {
    for valence in 2..=32 {
        assert!(paper_part(valence).is_some(), "{valence}");
    }
    for valence in [0, 1, 33, 34, 64, 1_024, usize::MAX] {
        assert_eq!(paper_part(valence), None, "{valence}");
    }
    assert_eq!(VALENCES, 2..=32);
}

/// "Across the table, n·w is below 2^24."
#[test]
fn all_spokes_together_weigh_less_than_one() {
    for valence in VALENCES {
        let all = valence as i64 * entry(valence);
        assert!(0 < all && all < 16_777_216, "{valence}");
    }
}

/// Not what makes sure of an entry, which are its bounds, but another way to it.
#[test]
fn entries_are_near_the_formula_in_floats() {
    for valence in VALENCES {
        let n = valence as f64;
        let base = 0.375 + (std::f64::consts::TAU / n).cos() / 4.0;
        let formula = (0.625 - base * base) / n * 16_777_216.0;
        assert!((entry(valence) as f64 - formula).abs() < 0.51, "{valence}");
    }
}

/// The valence 27 comes closest to a half, by five thousandths of a part.
#[test]
fn an_entry_close_to_a_half() {
    assert_eq!(entry(27), 150_842);
}

/// P6 with the paper's weight.
#[test]
fn p6_pillow_points() {
    let points = levels_with(Weight::Paper, &document_pillow(), 1)
        .remove(1)
        .points;
    assert_eq!(points[..3], [5, 5, 0]);
    assert_eq!(points[9..12], [6, 4, 0]);
}

/// With six corners both weights are (10v+s)/16.
#[test]
fn six_corners_at_each_vertex_make_no_difference() {
    for name in ["torus-2x2", "torus-3x3", "torus-4x6"] {
        let cage = named(name);
        assert!(corners(&cage).iter().all(|&vertex| vertex == (6, false)));
        let [short, paper] = WEIGHTS.map(|weight| levels_with(weight, &cage, 4));
        assert_eq!(short, paper, "{name}");
        for at in corner_sums(&cage) {
            let said = rounded(10 * at.own + at.spokes, 16);
            assert_eq!(i64::from(paper[1].points[at.index]), said, "{name}");
        }
    }
}

/// The weight has a part in smooth vertices of other than six corners alone.
#[test]
fn all_else_stays_as_it_is() {
    let mut different = 0;
    for entry in refinable(Weight::Paper, accepted_cages()) {
        let [short, paper] = WEIGHTS.map(|weight| levels_with(weight, &entry.cage, 1).remove(1));
        let same_points = Cage {
            points: short.points.clone(),
            ..paper.clone()
        };
        assert_eq!(short, same_points, "{}", entry.name);
        let corners = corners(&entry.cage).into_iter();
        let vertices: Vec<_> = corners.zip(creases_at(&entry.cage)).collect();
        for (index, (short, paper)) in short.points.iter().zip(&paper.points).enumerate() {
            let smooth = vertices.get(index / 3).filter(|(_, ends)| ends.len() < 2);
            if smooth.is_none_or(|&((count, _), _)| count == 6) {
                assert_eq!(short, paper, "{}", entry.name);
            }
            different += usize::from(short != paper);
        }
    }
    assert!(different > 1_000, "{different}");
}

/// "((2^24−n·w)·v + w·s)/2^24, rounded as before": since §5 with halves going
/// away from zero.
fn said(at: &CornerSum, part: i64) -> i64 {
    let own = 16_777_216 - at.corners as i64 * part;
    rounded(own * at.own + part * at.spokes, 16_777_216)
}

#[test]
fn smooth_vertices_word_for_word() {
    for cage in refinable(Weight::Paper, small_accepted()) {
        let levels = levels_with(Weight::Paper, &cage.cage, 3);
        for (old, new) in levels.iter().zip(&levels[1..]) {
            for at in corner_sums(old) {
                let point = i64::from(new.points[at.index]);
                assert_eq!(point, said(&at, entry(at.corners)), "{}", cage.name);
            }
        }
    }
}

/// Each valence is in the suite in a closed and in an open cage, with points at
/// which an entry that is off by one gives another point.
#[test]
fn an_entry_off_by_one_would_show() {
    for valence in VALENCES {
        let closed = named(&format!("closed-valence-{valence}"));
        let open = named(&format!("open-valence-{valence}"));
        assert_eq!(closed.border_count(), 0);
        assert_ne!(open.border_count(), 0);
        let hubs = [&closed, &open].map(|cage| {
            let mut sums = corner_sums(cage);
            sums.retain(|at| at.corners == valence);
            assert!(!sums.is_empty(), "{valence}");
            sums
        });
        for wrong in [entry(valence) - 1, entry(valence) + 1] {
            let shows = |at: &CornerSum| said(at, wrong) != said(at, entry(valence));
            assert!(hubs.iter().flatten().any(shows), "{valence} {wrong}");
        }
    }
}

/// The cages by valence have points of either sign, and some at either limit.
#[test]
fn points_of_either_sign_and_at_the_limits() {
    let (mut highest, mut lowest) = (0, 0);
    for valence in 2..=33 {
        for kind in ["closed", "open"] {
            let points = named(&format!("{kind}-valence-{valence}")).points;
            assert!(points.iter().any(|&c| c < 0) && points.iter().any(|&c| c > 0));
            highest += points.iter().filter(|&&c| c == 1_048_576).count();
            lowest += points.iter().filter(|&&c| c == -1_048_576).count();
        }
    }
    assert!(highest > 100 && lowest > 100, "{highest} {lowest}");
}

/// Cages that the check accepts, and their lowest inner vertex of more than 32
/// corners.
const MANY_CORNERS: [(&str, usize); 9] = [
    ("closed-valence-33", 33),
    ("open-valence-33", 33),
    ("disc-33", 33),
    ("disc-1024", 1_024),
    ("double-pyramid-33", 33),
    ("double-pyramid-512", 512),
    ("border-33-then-inner-33", 68),
    ("inner-32-then-inner-33", 66),
    ("inner-33-twice-backwards", 33),
];

/// The lengths that this cage needs at this depth.
fn enough(cage: &Cage, depth: u64) -> [usize; 5] {
    let found = check(cage).expect("accepted");
    let counts = count_question(found.halfedges, found.edges, found.vertices, depth);
    room(&counts.expect("counted"))
}

/// "14 VALENCE at the lowest inner vertex of more than 32 corners, … at any
/// depth": with room, and before 9 without. A wrong depth comes before it.
#[test]
fn many_corners_are_refused_at_any_depth() {
    for (name, place) in MANY_CORNERS {
        let cage = named(name);
        let refined = |depth, lengths| refined_into(&cage, depth, Weight::Paper, lengths).err();
        let refusal = Some(Refusal::new(VALENCE, place));
        for depth in 0..=3 {
            assert_eq!(refined(depth, enough(&cage, depth)), refusal, "{name}");
        }
        for depth in 0..=6 {
            assert_eq!(refined(depth, [0; 5]), refusal, "{name}");
        }
        assert_eq!(refined(7, [0; 5]), Some(Refusal::new(2, 0)), "{name}");
    }
}

/// "In refining with this weight only": the short weight and all operations
/// without a weight take these cages.
#[test]
fn many_corners_are_refused_with_the_paper_s_weight_only() {
    for (name, _) in MANY_CORNERS {
        let cage = named(name);
        assert!(check(&cage).is_ok(), "{name}");
        assert_eq!(levels(&cage, 1).len(), 2, "{name}");
        let ninth = refined_into(&cage, 0, Weight::Short, [0; 5]).err();
        assert_eq!(ninth, Some(Refusal::new(9, 1)), "{name}");
        let file = file_of(&cage);
        assert_eq!(list_levels(&file).lines().count(), 8, "{name}");
        assert_eq!(read_cage(&file).map(|read| read.cage), Ok(cage), "{name}");
    }
}

/// "The lowest": by its own number, whichever halfedge comes first.
#[test]
fn the_lowest_vertex_is_not_that_of_the_lowest_halfedge() {
    let cage = named("inner-33-twice-backwards");
    let corners = corners(&cage);
    assert_eq!((corners[33], corners[67]), ((33, false), (33, false)));
    let first_at = |vertex| cage.vert.iter().position(|&v| v == vertex);
    assert!(first_at(67) < first_at(33));
    let refusal = refined_into(&cage, 0, Weight::Paper, [0; 5]).err();
    assert_eq!(refusal, Some(Refusal::new(VALENCE, 33)));
}

/// "Inner": a border vertex of more than 32 corners is passed over, and one of
/// 32 inside.
#[test]
fn border_vertices_may_have_any_number_of_corners() {
    let cage = named("border-33-then-inner-33");
    let vertices = corners(&cage);
    assert_eq!((vertices[34], vertices[68]), ((33, true), (33, false)));
    for (name, most, on_border) in [
        ("border-valence-33", 33, true),
        ("open-fan-40", 40, true),
        ("border-valence-1024", 1_024, true),
        ("closed-valence-32", 32, false),
        ("open-valence-32", 32, false),
    ] {
        let cage = named(name);
        assert!(corners(&cage).contains(&(most, on_border)), "{name}");
        for depth in 0..=2 {
            let levels = levels_with(Weight::Paper, &cage, depth);
            assert_eq!(levels.len() as u64, depth + 1, "{name}");
        }
    }
    let largest = check(&named("border-valence-1024")).expect("accepted");
    assert_eq!((largest.halfedges, largest.vertices), (3_072, 1_026));
}

/// What refining into no room at all has to answer with the paper's weight.
fn expected(cage: &Cage) -> Refusal {
    let answer = check(cage).err();
    let before = answer.filter(|refusal| refusal.number != 8);
    let many_corners = || lowest_of_many_corners(cage).map(|v| Refusal::new(VALENCE, v));
    let ninth = Refusal::new(9, 1);
    before.or_else(many_corners).or(answer).unwrap_or(ninth)
}

/// "After 7 and before 8", so after 15, and before 9; 2 is before it also for the
/// depth. The check, writing and refining with the short weight never give it.
#[test]
fn refusals_in_their_order() {
    let mut numbers = [0; 16];
    for entry in suite() {
        let (name, cage) = (&entry.name, &entry.cage);
        let answer = |depth, weight| refined_into(cage, depth, weight, [0; 5]).err();
        let refusal = expected(cage);
        for depth in [0, 1, 6] {
            assert_eq!(answer(depth, Weight::Paper), Some(refusal), "{name}");
        }
        let with_depth = refusal_of_the_depth(cage);
        assert_eq!(answer(7, Weight::Paper), Some(with_depth), "{name}");
        let others = [check(cage).err(), answer(0, Weight::Short)];
        for other in others.into_iter().flatten() {
            assert_ne!(other.number, VALENCE, "{name}");
            assert!(refusal == other || refusal.number == VALENCE || other.number == 9);
        }
        let written = write_cage_file(cage, &mut []);
        assert!(written.is_err_and(|refusal| refusal.number <= 9), "{name}");
        numbers[refusal.number as usize] += 1;
    }
    for number in [1, 2, 3, 4, 5, 6, 7, 8, 9, 14, 15] {
        assert!(numbers[number] >= 5, "{number}: {numbers:?}");
    }
}

/// An inner vertex of 33 corners, and every fault from one number up.
#[test]
fn many_corners_among_other_faults() {
    for number in 1..=8 {
        let cage = named(&format!("valence-33-faults-from-{number}"));
        let refused = |weight| refined_into(&cage, 0, weight, [0; 5]).err();
        let [short, paper] = WEIGHTS.map(refused);
        assert_eq!(short, check(&cage).err());
        assert_eq!(short.map(|refusal| refusal.number), Some(number));
        let many_corners = Some(Refusal::new(VALENCE, 33));
        assert_eq!(paper, if number == 8 { many_corners } else { short });
    }
}
