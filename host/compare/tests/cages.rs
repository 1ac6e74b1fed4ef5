//! The cage files in cages/ are what the second program writes, and what the
//! host library reads and writes.

use std::path::Path;

use compare::{as_read, assert_alike, lengths_of, named, room_at, Question, WEIGHTS};
use second::file::Form;
use second::questions::files::{form_1_file, form_2_file};
use second::weight::Weight;

/// The files with their forms. That of form 2 has the paper's weight.
const CAGES: [(&str, Form); 4] = [
    ("triangle", Form::One),
    ("pillow", Form::One),
    ("cushion", Form::One),
    ("seamed-cushion", Form::Two),
];

fn file_in_repository(name: &str) -> Vec<u8> {
    let folder = Path::new(env!("CARGO_MANIFEST_DIR")).join("../../cages");
    let path = folder.join(format!("{name}.cage"));
    std::fs::read(&path).unwrap_or_else(|error| panic!("{}: {error}", path.display()))
}

#[test]
fn each_file_is_the_second_programs() {
    for (name, form) in CAGES {
        let (printed, word) = match form {
            Form::One => (form_1_file(&named(name)), ""),
            Form::Two => (form_2_file(&named(name), Weight::Paper), " paper"),
        };
        assert!(
            file_in_repository(name) == printed,
            "cages/{name}.cage is not what `second cage {name}{word}` prints"
        );
    }
}

#[test]
fn each_file_is_read_refined_and_written_alike() {
    for (name, form) in CAGES {
        let (file, cage) = (file_in_repository(name), named(name));
        let read = assert_alike(name, &Question::Read(&file, lengths_of(&cage)));
        assert_eq!(read.tables, as_read(form, &cage), "{name}");
        let writing = match form {
            Form::One => Question::Write(&cage, file.len()),
            Form::Two => Question::WriteForm2(&cage, Weight::Paper, file.len()),
        };
        assert_eq!(assert_alike(name, &writing).file, file, "{name}");
        for depth in 0..=6 {
            for weight in WEIGHTS {
                let question = Question::Refine(&cage, depth, weight, room_at(&cage, depth));
                assert_eq!(assert_alike(name, &question).verdict(), (0, 0), "{name}");
            }
        }
    }
}

#[test]
fn the_cushion_is_a_seat_of_some_300_triangles_with_a_border() {
    let cushion = named("cushion");
    assert!((280..=320).contains(&cushion.triangle_count()));
    assert!(cushion.border_count() > 0);
}

/// A file of form 2 that has no old form, to be tried as it is.
#[test]
fn the_seamed_cushion_has_creases_and_the_papers_weight() {
    let file = file_in_repository("seamed-cushion");
    let lengths = lengths_of(&named("seamed-cushion"));
    let read = assert_alike("seamed-cushion", &Question::Read(&file, lengths));
    assert_eq!((read.answer[2], read.answer[6]), (2, 1));
    assert!(read.tables.creases.contains(&4));
    let moved = assert_alike("seamed-cushion", &Question::ToForm1(&file, file.len()));
    assert_eq!(moved.verdict(), (16, 0));
}
