//! Document 02, §8, "Say why": each clause by hand, in six numbers and in words.

mod common;

use common::{creased_pair, document_pillow, document_triangle, file_of, form_2_file_of, WEIGHTS};
use second::cage::{Cage, MARKER};
use second::check::check;
use second::questions::files::{damaged, drawn_files, form_1_file, form_2_file, suite_files};
use second::reason::{Clause, Reason};
use second::refusal::Refusal;
use second::suite::cage_named;
use second::weight::Weight;
use second::why::{check_file, why, why_line, Why};

const NO_TWIN: u64 = 4_294_967_295;

fn changed(mut cage: Cage, change: fn(&mut Cage)) -> Cage {
    change(&mut cage);
    cage
}

/// Document 01's P7.
fn bow_tie() -> Cage {
    Cage {
        twin: vec![MARKER; 6],
        vert: vec![0, 1, 2, 0, 3, 4],
        edge: (0..6).collect(),
        points: vec![0; 15],
        creases: vec![0; 6],
    }
}

/// The cage is answered with these numbers, and the files that hold it in either
/// form with this line.
fn assert_told(cage: &Cage, six_numbers: [u64; 6], line: &str) {
    let answer = why(cage);
    assert_eq!(answer.six_numbers(), six_numbers, "{line}");
    let refusal = check(cage).err().unwrap_or(Refusal::new(0, 0));
    assert_eq!(
        (answer.number, answer.place),
        (refusal.number, refusal.place)
    );
    let line = format!("{line}\n");
    assert_eq!(why_line(&form_1_file(cage)), line);
    for weight in WEIGHTS {
        assert_eq!(why_line(&form_2_file(cage, weight)), line);
    }
}

#[test]
fn an_accepted_cage_gets_no_clause() {
    let accepted = [
        (
            document_triangle(),
            "accepted: halfedges 3, edges 3, triangles 1, vertices 3, border edges 3",
        ),
        (
            document_pillow(),
            "accepted: halfedges 6, edges 3, triangles 2, vertices 3, border edges 0",
        ),
        (
            creased_pair(0),
            "accepted: halfedges 6, edges 5, triangles 2, vertices 4, border edges 4",
        ),
        (
            cage_named("tetrahedron").expect("of this name"),
            "accepted: halfedges 12, edges 6, triangles 4, vertices 4, border edges 0",
        ),
    ];
    for (cage, line) in accepted {
        assert_told(&cage, [0; 6], line);
        assert_eq!(why(&cage), Why::default());
    }
}

#[test]
fn a_twin_past_the_table() {
    let cage = changed(document_triangle(), |cage| cage.twin[1] = 3);
    let line = "refused 3 1: halfedge 1 has twin 3, past the 3 halfedges";
    assert_told(&cage, [3, 1, 1, 3, 3, 0], line);
    let cage = changed(document_pillow(), |cage| cage.twin[2] = 65_534);
    let line = "refused 3 2: halfedge 2 has twin 65534, past the 6 halfedges";
    assert_told(&cage, [3, 2, 1, 65_534, 6, 0], line);
}

/// Document 01's P9, and a twin that is itself above the twin it had.
#[test]
fn a_twin_that_is_itself() {
    let cage = changed(document_pillow(), |cage| cage.twin[0] = 0);
    let line = "refused 3 0: halfedge 0 has twin 0, which is itself";
    assert_told(&cage, [3, 0, 2, 0, 0, 0], line);
    let cage = changed(document_triangle(), |cage| cage.twin[2] = 2);
    let line = "refused 3 2: halfedge 2 has twin 2, which is itself";
    assert_told(&cage, [3, 2, 2, 2, 0, 0], line);
}

#[test]
fn a_twin_not_returned() {
    let cage = changed(document_pillow(), |cage| cage.twin[4] = 2);
    let line = "refused 3 1: halfedge 1 has twin 4, whose twin is 2";
    assert_told(&cage, [3, 1, 3, 4, 2, 0], line);
    let cage = changed(document_pillow(), |cage| cage.twin[4] = 4);
    let line = "refused 3 1: halfedge 1 has twin 4, whose twin is 4";
    assert_told(&cage, [3, 1, 3, 4, 4, 0], line);
    let cage = changed(document_pillow(), |cage| cage.twin[3] = MARKER);
    let line = "refused 3 2: halfedge 2 has twin 3, which has no twin";
    assert_told(&cage, [3, 2, 3, 3, NO_TWIN, 0], line);
}

#[test]
fn a_vertex_past_the_points() {
    let cage = changed(document_triangle(), |cage| cage.vert[2] = 3);
    let line = "refused 4 2: corner 2 names vertex 3, past the 3 points";
    assert_told(&cage, [4, 2, 1, 3, 3, 0], line);
    // Without points every corner is past them.
    let cage = changed(document_pillow(), |cage| cage.points.clear());
    let line = "refused 4 0: corner 0 names vertex 0, past the 0 points";
    assert_told(&cage, [4, 0, 1, 0, 0, 0], line);
}

#[test]
fn both_ends_alike() {
    let cage = changed(document_triangle(), |cage| cage.vert[2] = 0);
    let line = "refused 4 2: corner 2 names vertex 0, and so does the next corner, 0";
    assert_told(&cage, [4, 2, 2, 0, 0, 0], line);
    let cage = changed(creased_pair(0), |cage| cage.vert[5] = 1);
    let line = "refused 4 4: corner 4 names vertex 1, and so does the next corner, 5";
    assert_told(&cage, [4, 4, 2, 1, 5, 0], line);
}

#[test]
fn ends_of_the_twin_differ() {
    let cage = changed(document_pillow(), |cage| cage.vert[3] = 1);
    let line = "refused 4 2: corner 2 has twin 3, which names vertex 1 instead of 0";
    assert_told(&cage, [4, 2, 3, 3, 1, 0], line);
    let cage = changed(creased_pair(0), |cage| cage.vert[4] = 0);
    let line = "refused 4 3: corner 3 has twin 1, which names vertex 1 instead of 0";
    assert_told(&cage, [4, 3, 3, 1, 1, 0], line);
}

#[test]
fn a_vertex_that_no_corner_names() {
    let cage = changed(document_triangle(), |cage| cage.points.resize(15, 0));
    let line = "refused 5 3: vertex 3 is named by no corner";
    assert_told(&cage, [5, 3, 1, 3, 0, 0], line);
}

#[test]
fn an_edge_past_the_count() {
    let cage = changed(document_triangle(), |cage| cage.edge[1] = 3);
    let line = "refused 6 1: halfedge 1 has edge 3, past the 3 edges";
    assert_told(&cage, [6, 1, 1, 3, 3, 0], line);
    // Below H, which is 6.
    let cage = changed(document_pillow(), |cage| cage.edge[2] = 5);
    let line = "refused 6 2: halfedge 2 has edge 5, past the 3 edges";
    assert_told(&cage, [6, 2, 1, 5, 3, 0], line);
}

#[test]
fn an_edge_that_differs_from_the_twin() {
    let cage = changed(document_pillow(), |cage| cage.edge[5] = 1);
    let line = "refused 6 0: halfedge 0 has twin 5, and edge 0 where its twin has edge 1";
    assert_told(&cage, [6, 0, 2, 5, 0, 1], line);
}

#[test]
fn a_shared_edge() {
    let cage = changed(creased_pair(0), |cage| cage.edge[4] = 1);
    let line = "refused 6 1: halfedge 1 has edge 1, and so has halfedge 4, which is not its twin";
    assert_told(&cage, [6, 1, 3, 1, 4, 0], line);
    let cage = changed(creased_pair(0), |cage| cage.edge[5] = 0);
    let line = "refused 6 0: halfedge 0 has edge 0, and so has halfedge 5, which is not its twin";
    assert_told(&cage, [6, 0, 3, 0, 5, 0], line);
}

#[test]
fn corners_not_joined() {
    let line = "refused 7 0: vertex 0 has corners 0 and 3, which are not joined";
    assert_told(&bow_tie(), [7, 0, 1, 0, 3, 0], line);
    // At the last corners of both triangles.
    let cage = changed(bow_tie(), |cage| cage.vert = vec![0, 1, 4, 2, 3, 4]);
    let line = "refused 7 4: vertex 4 has corners 2 and 5, which are not joined";
    assert_told(&cage, [7, 4, 1, 2, 5, 0], line);
}

/// "For 1, 2, 8 and later numbers the tool repeats number and place."
#[test]
fn other_numbers_have_no_clause() {
    let cage = changed(document_triangle(), |cage| {
        cage.points[5] = 1_048_577;
    });
    assert_told(&cage, [8, 5, 0, 0, 0, 0], "refused 8 5");
    let cage = changed(document_pillow(), |cage| {
        cage.points.resize(3 * 2_049, 0);
    });
    assert_told(&cage, [2, 0, 0, 0, 0, 0], "refused 2 0");
    let cage = changed(document_triangle(), |cage| {
        cage.twin.clear();
        cage.vert.clear();
        cage.edge.clear();
    });
    assert_told(&cage, [1, 0, 0, 0, 0, 0], "refused 1 0");
    assert_eq!(why(&Cage::default()).six_numbers(), [1, 0, 0, 0, 0, 0]);
    // What is wrong with a crease table is no matter for form 1.
    let line = |cage: &Cage| why_line(&form_2_file(cage, Weight::Short));
    assert_eq!(why(&creased_pair(11)).six_numbers(), [15, 1, 0, 0, 0, 0]);
    assert_eq!(line(&creased_pair(11)), "refused 15 1\n");
    let cage = changed(creased_pair(0), |cage| cage.creases.push(0));
    assert_eq!(why(&cage).six_numbers(), [1, 0, 0, 0, 0, 0]);
    assert_eq!(line(&cage), "refused 11 54\n");
}

#[test]
fn what_is_no_file_is_not_explained() {
    let file = file_of(&document_triangle());
    assert_eq!(why_line(&[]), "refused 10 0\n");
    assert_eq!(why_line(&file[..77]), "refused 10 75\n");
    assert_eq!(why_line(&[&file[..], &[1]].concat()), "refused 12 78\n");
    let mut form_3 = file;
    form_3[3] = 3;
    assert_eq!(why_line(&form_3), "refused 11 0\n");
}

/// Reading form 2 runs check 3 before the crease field is looked at, so that
/// damage after it is not found. In form 1 that damage is found first.
#[test]
fn wrong_twins_are_told_before_damage_after_them() {
    let told = "refused 3 0: halfedge 0 has twin 1, which has no twin\n";
    let with_wrong_twin = |mut file: Vec<u8>| {
        file[12..14].copy_from_slice(&[1, 0]);
        file
    };
    // The heads of the triangle's fields from the creases on, and its end.
    let form_2 = with_wrong_twin(form_2_file_of(&document_triangle(), Weight::Paper));
    for head in [36, 42, 81, 85] {
        assert_eq!(why_line(&form_2[..head]), told, "{head}");
        assert_eq!(why_line(&form_2[..head + 2]), told, "{head}");
        let mut wrong_tag = form_2.clone();
        wrong_tag[head] = 0;
        assert_eq!(why_line(&wrong_tag), told, "{head}");
    }
    assert_eq!(why_line(&[&form_2[..], &[0]].concat()), told);
    assert_eq!(why_line(&form_2), told);
    // What comes before check 3 is found before it.
    assert_eq!(why_line(&form_2[..35]), "refused 10 27\n");
    let form_1 = with_wrong_twin(file_of(&document_triangle()));
    assert_eq!(why_line(&form_1), told);
    assert_eq!(why_line(&form_1[..77]), "refused 10 75\n");
    assert_eq!(why_line(&[&form_1[..], &[0]].concat()), "refused 12 78\n");
}

#[test]
fn the_reason_holds_the_refusal_and_the_clause() {
    let cage = changed(document_pillow(), |cage| cage.twin[4] = 2);
    let reason = Reason {
        refusal: Refusal::new(3, 1),
        clause: Some(Clause::TwinNotReturned {
            twin: 4,
            its_twin: Some(2),
        }),
    };
    assert_eq!(check_file(&form_1_file(&cage)), Err(reason));
    assert_eq!(why(&cage), Why::from(reason));
    assert_eq!(Refusal::from(reason), Refusal::new(3, 1));
    let no_file = Reason::from(Refusal::new(10, 0));
    assert_eq!(no_file.clause, None);
    assert_eq!(check_file(&[]), Err(no_file));
    let counts = check_file(&file_of(&document_pillow()));
    assert_eq!(counts, check(&document_pillow()).map_err(Reason::from));
}

/// Each clause in words: the number, the clause, and the sentence with P for the
/// place and X, Y and Z for the numbers.
const SENTENCES: [(u64, u64, &str); 11] = [
    (3, 1, "halfedge P has twin X, past the Y halfedges"),
    (3, 2, "halfedge P has twin X, which is itself"),
    (3, 3, "halfedge P has twin X, whose twin is Y"),
    (4, 1, "corner P names vertex X, past the Y points"),
    (
        4,
        2,
        "corner P names vertex X, and so does the next corner, Y",
    ),
    (
        4,
        3,
        "corner P has twin X, which names vertex Y instead of Z",
    ),
    (5, 1, "vertex P is named by no corner"),
    (6, 1, "halfedge P has edge X, past the Y edges"),
    (
        6,
        2,
        "halfedge P has twin X, and edge Y where its twin has edge Z",
    ),
    (
        6,
        3,
        "halfedge P has edge X, and so has halfedge Y, which is not its twin",
    ),
    (7, 1, "vertex P has corners X and Y, which are not joined"),
];

fn line_of([number, place, clause, x, y, z]: [u64; 6]) -> String {
    let refused = format!("refused {number} {place}");
    let mut sentences = SENTENCES.iter();
    let Some((_, _, sentence)) = sentences.find(|known| (known.0, known.1) == (number, clause))
    else {
        return refused + "\n";
    };
    let sentence = match (number, clause, y) {
        (3, 3, NO_TWIN) => "halfedge P has twin X, which has no twin",
        _ => sentence,
    };
    let names = [('P', place), ('X', x), ('Y', y), ('Z', z)];
    let filled = names.iter().fold(sentence.to_string(), |text, (name, n)| {
        text.replace(*name, &n.to_string())
    });
    format!("{refused}: {filled}\n")
}

/// The line says what the six numbers say, for the files of the suite and for
/// files that are damaged.
#[test]
fn the_line_says_what_the_numbers_say() {
    let files = suite_files().chain(damaged()).chain(drawn_files());
    for file in files {
        match check_file(&file.bytes) {
            Err(reason) => {
                let numbers = Why::from(reason).six_numbers();
                let has_clauses = (3..=7).contains(&numbers[0]);
                assert_eq!(numbers[2] > 0, has_clauses, "{}", file.name);
                assert_eq!(why_line(&file.bytes), line_of(numbers), "{}", file.name);
            }
            Ok(counts) => {
                let line = why_line(&file.bytes);
                let words = line.split([' ', ',', '\n']);
                let numbers: Vec<u64> = words.filter_map(|word| word.parse().ok()).collect();
                let (h, e, f) = (counts.halfedges, counts.edges, counts.triangles);
                assert_eq!(numbers, [h, e, f, counts.vertices, counts.borders]);
                assert!(line.starts_with("accepted: halfedges "), "{}", file.name);
            }
        }
    }
}
