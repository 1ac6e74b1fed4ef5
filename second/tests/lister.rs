//! Document 01, "The level lister", with the third number that document 02, §6
//! gives its room line, for files of both forms of its §7.

mod common;

use common::{
    creased_pair, document_pillow, document_triangle, file_of, form_2_file_of, levels,
    small_accepted, WEIGHTS,
};
use second::lister::list_levels;
use second::questions::files::form_2_file;
use second::weight::Weight;

const TRIANGLE_LINES: &str = "\
0 3 3 1 3 3
1 12 9 4 6 6
2 48 30 16 15 12
3 192 108 64 45 24
4 768 408 256 153 48
5 3072 1584 1024 561 96
6 12288 6240 4096 2145 192
room 16383 2928 8382
";

#[test]
fn the_triangle_is_listed_as_printed() {
    assert_eq!(list_levels(&file_of(&document_triangle())), TRIANGLE_LINES);
}

/// The levels have the same counts, whatever the creases and the weight.
#[test]
fn both_forms_are_listed_alike() {
    for entry in small_accepted() {
        let listed = list_levels(&file_of(&entry.cage));
        for weight in WEIGHTS {
            let file = form_2_file_of(&entry.cage, weight);
            assert_eq!(list_levels(&file), listed, "{}", entry.name);
        }
    }
}

/// The lines say what the tables of the levels hold.
#[test]
fn the_lines_are_those_of_the_tables() {
    for entry in small_accepted() {
        let listed = list_levels(&file_of(&entry.cage));
        let lines: Vec<&str> = listed.lines().collect();
        assert_eq!(lines.len(), 8);
        for (depth, level) in levels(&entry.cage, 2).iter().enumerate() {
            let (h, e, f) = (
                level.halfedge_count(),
                level.edge_count(),
                level.triangle_count(),
            );
            let (v, b) = (level.vertex_count(), level.border_count());
            let line = format!("{depth} {h} {e} {f} {v} {b}");
            assert_eq!(lines[depth], line, "{}", entry.name);
        }
    }
}

#[test]
fn refusals_are_one_line() {
    let file = file_of(&document_triangle());
    assert_eq!(list_levels(&[]), "refused 10 0\n");
    assert_eq!(list_levels(&file[..77]), "refused 10 75\n");
    assert_eq!(list_levels(&[&file[..], &[1]].concat()), "refused 12 78\n");
    let mut wrong_tag = file.clone();
    wrong_tag[9] = 0x21;
    assert_eq!(list_levels(&wrong_tag), "refused 11 9\n");
    let mut own_twin = file_of(&document_pillow());
    own_twin[12] = 0;
    assert_eq!(list_levels(&own_twin), "refused 3 0\n");
    let mut far_point = file;
    far_point[39 + 4 * 5 + 3] = 0x7F;
    assert_eq!(list_levels(&far_point), "refused 8 5\n");
}

#[test]
fn refusals_of_form_2_are_one_line() {
    let listed = |cage| list_levels(&form_2_file(&cage, Weight::Short));
    assert_eq!(listed(creased_pair(10)).lines().count(), 8);
    assert_eq!(listed(creased_pair(11)), "refused 15 1\n");
    let mut border = creased_pair(0);
    border.creases[4] = 1;
    assert_eq!(listed(border), "refused 15 4\n");
    let mut file = form_2_file_of(&document_triangle(), Weight::Paper);
    assert_eq!(list_levels(&file), TRIANGLE_LINES);
    assert_eq!(list_levels(&file[..87]), "refused 10 85\n");
    file[84] = 2;
    assert_eq!(list_levels(&file), "refused 11 81\n");
    file[12..14].fill(0);
    assert_eq!(list_levels(&file), "refused 3 0\n");
    file[3] = 3;
    assert_eq!(list_levels(&file), "refused 11 0\n");
}
