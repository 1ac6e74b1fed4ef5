//! Writing either form: the answer and every byte of the lent buffer.

use compare::{accepted, assert_alike, assert_written, named, refused, Question, WEIGHTS};
use second::cage::Cage;
use second::check::check;
use second::questions::files::{form_1_file, form_2_file};
use second::suite::suite;
use second::weight::Weight;

#[test]
fn every_accepted_cages_file_byte_by_byte() {
    for entry in accepted() {
        let (name, cage) = (&entry.name, &entry.cage);
        let old = form_1_file(cage);
        let (h, v) = (cage.halfedge_count(), cage.vertex_count());
        assert_eq!(old.len(), 24 + 6 * h + 12 * v, "{name}");
        assert_written(name, &old, |lent| Question::Write(cage, lent));
        for weight in WEIGHTS {
            let new = form_2_file(cage, weight);
            assert_eq!(new.len(), old.len() + 7 + cage.edge_count(), "{name}");
            assert_written(name, &new, |lent| Question::WriteForm2(cage, weight, lent));
        }
    }
}

/// Form 1, but for those that are refused for their creases alone, which are not
/// looked at.
#[test]
fn every_refused_cage_leaves_the_buffer() {
    let mut written = 0;
    for entry in refused() {
        let is_written = check(&entry.cage.clone().without_creases()).is_ok();
        written += usize::from(is_written);
        for lent in [0, 78, 50_000] {
            let question = Question::Write(&entry.cage, lent);
            let (number, place) = assert_alike(&entry.name, &question).verdict();
            match (is_written, lent) {
                (false, _) => assert!((1..=8).contains(&number), "{}", entry.name),
                (true, 50_000) => assert_eq!((number, place), (0, 0), "{}", entry.name),
                (true, 0) => assert_eq!((number, place), (9, 5), "{}", entry.name),
                _ => {}
            }
        }
    }
    assert!(written > 10);
}

/// Form 2, with the number and the place that the check gives, by either weight and
/// before the room.
#[test]
fn every_cage_is_refused_as_the_check_refuses_it() {
    let mut numbers = [0; 16];
    for entry in suite() {
        let (name, cage) = (&entry.name, &entry.cage);
        let checked = assert_alike(name, &Question::Check(cage)).verdict();
        numbers[checked.0 as usize] += 1;
        for weight in WEIGHTS {
            for lent in [0, 50_000] {
                let question = Question::WriteForm2(cage, weight, lent);
                let expected = match (checked, lent) {
                    ((0, 0), 0) => (9, 5),
                    _ => checked,
                };
                assert_eq!(assert_alike(name, &question).verdict(), expected, "{name}");
            }
        }
    }
    for (number, count) in numbers.into_iter().enumerate() {
        let is_the_check_s = number <= 8 || number == 15;
        assert_eq!(count > 0, is_the_check_s, "{number}: {numbers:?}");
    }
}

/// Crease tables of other lengths than E.
#[test]
fn form_2_of_too_few_and_too_many_creases() {
    for name in ["triangle", "pillow", "cushion", "torus-32x16"] {
        let cage = named(name);
        let edges = cage.edge_count();
        for length in [0, edges - 1, edges + 1, 100_000] {
            let cage = Cage {
                creases: vec![0; length],
                ..cage.clone()
            };
            for lent in [0, 50_000] {
                let question = Question::WriteForm2(&cage, Weight::Short, lent);
                assert_eq!(assert_alike(name, &question).verdict(), (1, 0), "{name}");
            }
        }
    }
}

#[test]
fn the_triangles_file_as_document_01_prints_its_start() {
    let cage = named("triangle");
    let outcome = assert_alike("triangle", &Question::Write(&cage, 78));
    assert_eq!(outcome.answer, [0, 0, 78]);
    assert_eq!(outcome.file[..9], [0x10, 6, 0, 1, 0, 3, 0, 3, 0]);
    let short = assert_alike("triangle", &Question::Write(&cage, 77));
    assert_eq!(short.verdict(), (9, 5));
}

/// Document 01's triangle has three edges on its border.
#[test]
fn the_triangles_file_of_form_2() {
    let cage = named("triangle");
    for (weight, byte) in WEIGHTS.into_iter().zip([0, 1]) {
        let outcome = assert_alike("triangle", &Question::WriteForm2(&cage, weight, 88));
        assert_eq!(outcome.answer, [0, 0, 88]);
        assert_eq!(outcome.file[..9], [0x10, 6, 0, 2, 0, 3, 0, 3, 0]);
        assert_eq!(outcome.file[36..42], [0x23, 3, 0, 0, 0, 0]);
        assert_eq!(outcome.file[81..], [0x31, 1, 0, byte, 0x7F, 0, 0]);
    }
}
