//! The moves from form to form: every cage there and back, 16 where a file has no
//! old form, and the check's refusals on what was read.

use std::collections::HashSet;

use compare::{accepted, assert_alike, assert_written, files_of, take, Outcome, Question, WEIGHTS};
use second::cage::Cage;
use second::file::Form;
use second::questions::files::{form_1_file, form_2_file, suite_files};
use second::suite::suite;
use second::weight::Weight;

/// Every file of form 1, and every one of form 2 that is as old: one becomes the
/// other, with a 0 for each edge and weight 0, and the other becomes the one.
#[test]
fn there_and_back_byte_for_byte() {
    let mut seen = HashSet::new();
    for entry in accepted() {
        let plain = entry.cage.clone().without_creases();
        let (old, new) = (form_1_file(&plain), form_2_file(&plain, Weight::Short));
        if seen.insert(old.clone()) {
            assert_written(&entry.name, &new, |lent| Question::ToForm2(&old, lent));
            assert_written(&entry.name, &old, |lent| Question::ToForm1(&new, lent));
        }
    }
    assert!(seen.len() > 400, "{}", seen.len());
}

/// The library's own files, each from the one before.
#[test]
fn there_and_back_with_what_the_library_wrote() {
    let moved = |name: &str, question: Question| {
        let outcome = assert_alike(name, &question);
        assert_eq!(outcome.verdict(), (0, 0), "{name}");
        outcome.file[..outcome.answer[2] as usize].to_vec()
    };
    for entry in accepted() {
        let (name, cage) = (&entry.name, &entry.cage);
        let old = moved(name, Question::Write(cage, 50_000));
        let new = moved(name, Question::ToForm2(&old, 50_000));
        assert!(
            moved(name, Question::ToForm1(&new, 50_000)) == old,
            "{name}"
        );
        let plain = cage.clone().without_creases();
        let written = moved(name, Question::WriteForm2(&plain, Weight::Short, 50_000));
        assert!(written == new, "{name}");
    }
}

/// With a crease or the paper's weight there is no old form, whatever the room.
#[test]
fn a_file_that_is_not_old() {
    let mut refused = [0, 0];
    for entry in accepted() {
        let has_crease = entry.cage.creases.iter().any(|&number| number > 0);
        for weight in WEIGHTS {
            if has_crease || weight == Weight::Paper {
                refused[usize::from(has_crease)] += 1;
                let file = form_2_file(&entry.cage, weight);
                for lent in [0, 78, file.len()] {
                    let outcome = assert_alike(&entry.name, &Question::ToForm1(&file, lent));
                    assert_eq!(outcome.answer, [16, 0, 0], "{}", entry.name);
                }
            }
        }
    }
    assert!(refused.iter().all(|&count| count > 400), "{refused:?}");
}

/// By 11 at 0, as if there were no such form, before all that is wrong with it.
#[test]
fn a_file_of_the_form_that_is_moved_to() {
    for entry in suite() {
        for (form, file) in files_of(&entry.cage) {
            for lent in [0, file.len()] {
                let other_move = match form {
                    Form::One => Question::ToForm1(&file, lent),
                    Form::Two => Question::ToForm2(&file, lent),
                };
                let outcome = assert_alike(&entry.name, &other_move);
                assert_eq!(outcome.answer, [11, 0, 0], "{}", entry.name);
            }
        }
    }
}

/// What reading left of a file.
fn held(read: &Outcome) -> Cage {
    let [form, h, v, e] = [2, 3, 4, 5].map(|at| read.answer[at] as usize);
    let tables = &read.tables;
    let cage = Cage {
        twin: tables.twin[..h].to_vec(),
        vert: tables.vert[..h].to_vec(),
        edge: tables.edge[..h].to_vec(),
        points: tables.points[..3 * v].to_vec(),
        creases: tables.creases[..e].to_vec(),
    };
    if form == 1 {
        cage.without_creases()
    } else {
        cage
    }
}

/// For every cage of the suite that a file can hold: the move from its form answers
/// as the check does of what reading gives, and then asks whether it is old.
#[test]
fn a_move_refuses_what_the_check_refuses_of_what_is_read() {
    let mut numbers = [0; 17];
    for file in suite_files() {
        let taken = take(&file.name, &file.bytes);
        if taken.read.verdict() == (0, 0) {
            let cage = held(&taken.read);
            let checked = assert_alike(&file.name, &Question::Check(&cage)).verdict();
            let is_old =
                taken.read.answer[6] == 0 && cage.creases.iter().all(|&number| number == 0);
            let (moved, expected) = match (taken.read.answer[2], checked) {
                (1, _) => (&taken.to_form_2, checked),
                (_, (0, 0)) if !is_old => (&taken.to_form_1, (16, 0)),
                _ => (&taken.to_form_1, checked),
            };
            assert_eq!(moved.verdict(), expected, "{}", file.name);
            numbers[expected.0 as usize] += 1;
        }
    }
    for number in [0, 3, 4, 5, 6, 7, 8, 15, 16] {
        assert!(numbers[number] > 0, "{number}: {numbers:?}");
    }
}
