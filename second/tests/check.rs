//! Document 01, "Why a cage is sent back", with what document 02, §6 adds to it:
//! the cage check over the suite.

mod common;

use std::collections::HashSet;

use second::cage::Cage;
use second::check::{check, check_any_size};
use second::draw::Draw;
use second::file::write_cage_file;
use second::refusal::Refusal;
use second::suite::{suite, Expected};

#[test]
fn the_suite_is_answered_as_foreseen() {
    for entry in suite() {
        let answer = check(&entry.cage);
        match entry.expected {
            Expected::Accepted => assert!(answer.is_ok(), "{} {answer:?}", entry.name),
            Expected::Refused(refusal) => assert_eq!(answer, Err(refusal), "{}", entry.name),
            Expected::Unforeseen => {}
        }
    }
}

#[test]
fn each_refusal_is_foreseen_at_several_places() {
    let suite = suite();
    for number in (1..=8).chain([15]) {
        let of_number = suite.iter().filter_map(|entry| match entry.expected {
            Expected::Refused(refusal) if refusal.number == number => Some(refusal.place),
            _ => None,
        });
        let places: Vec<u64> = of_number.collect();
        let different: HashSet<&u64> = places.iter().collect();
        assert!(places.len() >= 5, "{number}");
        assert!(number <= 2 || different.len() >= 3, "{number}");
    }
}

#[test]
fn names_differ() {
    let suite = suite();
    let names: HashSet<&str> = suite.iter().map(|entry| entry.name.as_str()).collect();
    assert_eq!(names.len(), suite.len());
}

#[test]
fn accepted_counts() {
    let counts = check(&common::document_pillow()).expect("accepted");
    assert_eq!((counts.halfedges, counts.edges), (6, 3));
    assert_eq!((counts.triangles, counts.vertices), (2, 3));
    assert_eq!(counts.borders, 0);
    let counts = check(&common::document_triangle()).expect("accepted");
    assert_eq!((counts.edges, counts.borders), (3, 3));
}

/// Without points V is 0: the shape is good and no VERT cell is below V.
#[test]
fn no_points_is_refused_by_vertex() {
    let cage = Cage {
        points: Vec::new(),
        ..common::document_triangle()
    };
    assert_eq!(check(&cage), Err(Refusal::new(4, 0)));
}

/// The check without limits differs only where refusal 2 answers.
#[test]
fn limits_apart_the_checks_agree() {
    for entry in suite() {
        let answer = check(&entry.cage);
        if answer != Err(Refusal::new(2, 0)) {
            assert_eq!(check_any_size(&entry.cage), answer, "{}", entry.name);
        }
    }
}

/// A table of a drawn length with drawn cells, most of them small.
fn drawn_table(draw: &mut Draw, length: usize) -> Vec<u32> {
    let length = length + draw.place(20).saturating_sub(18);
    let cell = |_| match draw.place(8) {
        0 => draw.number() as u32,
        1 => u32::MAX,
        _ => draw.place(length + 1) as u32,
    };
    (0..length).map(cell).collect()
}

/// A crease table that may be of any length up to H, most numbers 0.
fn drawn_creases(draw: &mut Draw, h: usize) -> Vec<u8> {
    let length = draw.between(h as u64 / 2..=h as u64);
    let number = |_| match draw.place(6) {
        0 => draw.number() as u8,
        _ => 0,
    };
    (0..length).map(number).collect()
}

/// Whatever the tables hold, every operation that checks them answers alike.
#[test]
fn drawn_tables_are_answered() {
    let mut draw = Draw::new(7);
    for _ in 0..20_000 {
        let h = 3 * draw.place(4);
        let cage = Cage {
            twin: drawn_table(&mut draw, h),
            vert: drawn_table(&mut draw, h),
            edge: drawn_table(&mut draw, h),
            points: vec![0; 3 * draw.place(6)],
            creases: drawn_creases(&mut draw, h),
        };
        let answer = check(&cage);
        assert_eq!(check_any_size(&cage), answer);
        for weight in common::WEIGHTS {
            let refined = common::refined_into(&cage, 1, weight, [100; 5]);
            assert_eq!(refined.err(), answer.err());
        }
        // Writing takes no creases.
        let written = write_cage_file(&cage, &mut [0; 500]);
        let without = check(&cage.without_creases());
        assert_eq!(written.err(), without.err());
    }
}
