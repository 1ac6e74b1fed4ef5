//! Document 01, "Cages to try", the line "Run as tests".

mod common;

use common::{document_triangle, file_of, refined_into, room, triangle, ROOM_PLACES, WEIGHTS};
use second::cage::Cage;
use second::check::check;
use second::counts::count_question;
use second::file::{read_cage, write_cage_file};
use second::refusal::Refusal;
use second::suite::cage_named;

fn named(name: &str) -> Cage {
    cage_named(name).expect("in the suite")
}

#[test]
fn halfedges_up_to_the_limit() {
    for name in ["torus-32x16", "grid-32x16", "disc-1024"] {
        assert_eq!(check(&named(name)).expect(name).halfedges, 3_072);
    }
    let above = named("strip-1025");
    assert_eq!(above.halfedge_count(), 3_075);
    assert_eq!(check(&above), Err(Refusal::new(2, 0)));
}

#[test]
fn vertices_up_to_the_limit() {
    for name in ["most-vertices", "most-halfedges-and-vertices"] {
        assert_eq!(check(&named(name)).expect(name).vertices, 2_048);
    }
    let above = named("triangles-683");
    assert_eq!(above.vertex_count(), 2_049);
    assert_eq!(check(&above), Err(Refusal::new(2, 0)));
}

#[test]
fn depth_up_to_the_limit() {
    let counts = count_question(3, 3, 3, 6).expect("accepted");
    assert_eq!(counts.halfedge_room, 16_383);
    assert_eq!(count_question(3, 3, 3, 7), Err(Refusal::new(2, 0)));
    let cage = document_triangle();
    for weight in WEIGHTS {
        assert!(refined_into(&cage, 6, weight, room(&counts)).is_ok());
        for depth in [7, 1 << 32, u64::MAX] {
            let answer = refined_into(&cage, depth, weight, room(&counts));
            assert_eq!(answer.err(), Some(Refusal::new(2, 0)));
        }
    }
}

#[test]
fn coordinates_up_to_the_limit() {
    for (coordinate, beyond) in [(1_048_576, 1_048_577), (-1_048_576, -1_048_577)] {
        assert!(check(&triangle([coordinate; 9])).is_ok());
        for index in 0..9 {
            let mut points = [coordinate; 9];
            points[index..].fill(beyond);
            let refusal = Refusal::new(8, index);
            assert_eq!(check(&triangle(points)), Err(refusal));
        }
    }
}

#[test]
fn room_exact_and_one_short() {
    for (depth, weight) in (0..=6).flat_map(|depth| WEIGHTS.map(|weight| (depth, weight))) {
        let exact = room(&count_question(3, 3, 3, depth).expect("accepted"));
        let answer = |lengths| refined_into(&document_triangle(), depth, weight, lengths);
        assert!(answer(exact).is_ok());
        for (table, place) in ROOM_PLACES.into_iter().enumerate() {
            let mut short = exact;
            short[table] -= 1;
            let refusal = Refusal::new(9, place);
            assert_eq!(answer(short).err(), Some(refusal));
        }
    }
}

#[test]
fn file_room_exact_and_one_short() {
    let mut file = [9; 78];
    assert_eq!(write_cage_file(&document_triangle(), &mut file), Ok(78));
    let mut short = [9; 77];
    let answer = write_cage_file(&document_triangle(), &mut short);
    assert_eq!(answer, Err(Refusal::new(9, 5)));
    assert_eq!(short, [9; 77]);
}

#[test]
fn the_file_of_the_triangle() {
    let file = file_of(&document_triangle());
    assert_eq!(file.len(), 78);
    assert_eq!(file[..9], [0x10, 6, 0, 1, 0, 3, 0, 3, 0]);
    let read = read_cage(&file).map(|read| read.cage);
    assert_eq!(read, Ok(document_triangle()));
    assert_eq!(read_cage(&file[..77]), Err(Refusal::new(10, 75)));
    let longer = [&file[..], &[0]].concat();
    assert_eq!(read_cage(&longer), Err(Refusal::new(12, 78)));
}
