//! The comparison can fail: one wrong number or cell is found out, and where it
//! is wrong is said.

use compare::{
    assert_same, creased, first_difference, named, room_at, stl_length, Archive, Difference,
    Outcome, Question, SecondProgram,
};
use second::halfedge::ThreeTables;
use second::questions::files::{form_1_file, form_2_file};
use second::weight::Weight;

/// The outcome with each of its cells changed in turn, and the part and cell
/// that was.
fn changed_everywhere(outcome: &Outcome) -> Vec<(&'static str, usize, Outcome)> {
    let mut changed = Vec::new();
    let mut change = |part, length, alter: &dyn Fn(&mut Outcome, usize)| {
        for cell in 0..length {
            let mut wrong = outcome.clone();
            alter(&mut wrong, cell);
            changed.push((part, cell, wrong));
        }
    };
    let tables = &outcome.tables;
    change("answer", outcome.answer.len(), &|o, at| o.answer[at] += 1);
    change("twin", tables.twin.len(), &|o, at| o.tables.twin[at] ^= 1);
    change("vert", tables.vert.len(), &|o, at| o.tables.vert[at] ^= 1);
    change("edge", tables.edge.len(), &|o, at| o.tables.edge[at] ^= 1);
    change("points", tables.points.len(), &|o, at| {
        o.tables.points[at] -= 1
    });
    change("creases", tables.creases.len(), &|o, at| {
        o.tables.creases[at] ^= 1
    });
    change("file", outcome.file.len(), &|o, at| o.file[at] ^= 128);
    changed
}

#[test]
fn one_wrong_cell_anywhere_is_reported_there() {
    let (cage, many) = (named("pillow"), named("disc-33"));
    let (seam, sharper) = (creased(&cage, |_| 2), creased(&cage, |_| 11));
    let broken = named("clause-vertex-pillow-differ-at-1");
    let file = form_1_file(&cage);
    let [plain_file, seam_file] = [&cage, &seam].map(|cage| form_2_file(cage, Weight::Short));
    let room = room_at(&cage, 1).map(|length| length + 3);
    let mut short = room_at(&cage, 1);
    short[4] -= 1;
    let stl = stl_length(&cage.vert);
    for question in [
        Question::Check(&cage),
        Question::Check(&sharper),
        Question::Why(&cage),
        Question::Why(&sharper),
        Question::Why(&broken),
        Question::Edges(&cage.twin),
        Question::Counts([12, 6, 4, 2]),
        Question::Corners(&cage.vert, 1),
        Question::Halfedge(ThreeTables::of(&cage), 1, 11),
        Question::Halfedge(ThreeTables::of(&cage), 6, 1 << 32),
        Question::Halfedge(ThreeTables::of(&broken), 1, 11),
        Question::Refine(&cage, 1, Weight::Short, room),
        Question::Refine(&cage, 1, Weight::Paper, room),
        Question::Refine(&cage, 7, Weight::Short, room),
        Question::Refine(&many, 0, Weight::Paper, room),
        Question::Refine(&seam, 1, Weight::Short, room),
        Question::Refine(&seam, 1, Weight::Short, short),
        Question::Refine(&sharper, 1, Weight::Short, room),
        Question::Read(&file, room),
        Question::Read(&file[1..], room),
        Question::Write(&cage, file.len() + 3),
        Question::Write(&cage, file.len() - 1),
        Question::Read(&seam_file, room),
        Question::Read(&seam_file, [6, 6, 6, 9, 2]),
        Question::WriteForm2(&seam, Weight::Paper, seam_file.len() + 3),
        Question::WriteForm2(&sharper, Weight::Short, seam_file.len()),
        Question::ToForm2(&file, seam_file.len() + 3),
        Question::ToForm2(&seam_file, seam_file.len()),
        Question::ToForm1(&plain_file, file.len() + 3),
        Question::ToForm1(&seam_file, file.len()),
        Question::Build(&cage.vert, &cage.points, [room[0], room[2]]),
        Question::Build(&cage.vert, &cage.points, [6, 5]),
        Question::WriteStl(&cage.vert, &cage.points, stl + 3),
        Question::WriteStl(&cage.vert, &cage.points, stl - 1),
    ] {
        let judged = question.put_to(&SecondProgram);
        assert_eq!(
            first_difference(&question.put_to(&Archive::default()), &judged),
            None
        );
        let changed = changed_everywhere(&judged);
        assert!(changed.len() >= judged.answer.len());
        for (part, cell, wrong) in changed {
            let found = first_difference(&wrong, &judged).expect("a difference");
            assert_eq!((found.part, found.cell), (part, cell));
        }
    }
}

#[test]
fn a_missing_or_further_cell_is_reported() {
    let judged = Question::Counts([12, 6, 4, 2]).put_to(&SecondProgram);
    let mut other = judged.clone();
    other.answer.pop();
    for (host, second) in [(&other, &judged), (&judged, &other)] {
        let found = first_difference(host, second).expect("a difference");
        assert_eq!((found.part, found.cell), ("answer", 25));
    }
}

/// The weights are told apart: vertex 0 of the pillow goes to (3,3,0) with the
/// short one, and to (5,5,0) with the paper's.
#[test]
fn the_other_weight_is_reported() {
    let cage = named("pillow");
    let with = |weight| Question::Refine(&cage, 1, weight, room_at(&cage, 1));
    let host = with(Weight::Short).put_to(&Archive::default());
    let judged = with(Weight::Paper).put_to(&SecondProgram);
    let found = first_difference(&host, &judged).expect("a difference");
    let of_vertex_0 = Difference {
        part: "points",
        cell: cage.points.len(),
        host: Some(3),
        second: Some(5),
    };
    assert_eq!(found, of_vertex_0);
}

/// And so are creases: edge 0 of the pillow gets its midpoint, (8,0,0), and
/// without a crease (6,4,0). Its ends have one crease each, and are smooth.
#[test]
fn a_missing_crease_is_reported() {
    let cage = named("pillow");
    let seam = creased(&cage, |edge| u8::from(edge == 0));
    let asked = |cage| Question::Refine(cage, 1, Weight::Short, room_at(cage, 1));
    let mut host = asked(&cage).put_to(&Archive::default());
    let judged = asked(&seam).put_to(&SecondProgram);
    let of_edge_0 = Difference {
        part: "points",
        cell: 9 + 9,
        host: Some(6),
        second: Some(8),
    };
    assert_eq!(first_difference(&host, &judged), Some(of_edge_0));
    // With these points there is still the table, which level 0 has it in.
    host.tables.points.clone_from(&judged.tables.points);
    let in_the_table = Difference {
        part: "creases",
        cell: 0,
        host: Some(0),
        second: Some(1),
    };
    assert_eq!(first_difference(&host, &judged), Some(in_the_table));
}

/// The assertion that every comparison goes through is one that fails.
#[test]
#[should_panic(expected = "pillow: points[18] is 5, and 6 in the second program")]
fn a_wrong_cell_fails_the_assertion() {
    let cage = named("pillow");
    let question = Question::Refine(&cage, 1, Weight::Short, room_at(&cage, 1));
    let judged = question.put_to(&SecondProgram);
    let mut wrong = question.put_to(&Archive::default());
    // Edge 0's point of level 1, document 01's P6.
    wrong.tables.points[9 + 9] -= 1;
    assert_same("pillow", &question, &wrong, &judged);
}
