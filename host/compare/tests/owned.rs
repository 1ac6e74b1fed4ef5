//! What the safe crate allocates itself: a cage read, a cage built, a file written
//! or moved, STL, and all levels of a cage.

use compare::{
    accepted, chosen, files_of, handed, named, refused, room_at, stl_length, verdict_with,
    Question, SecondProgram, WEIGHTS,
};
use ryebadger::{
    moved_to_form_1, moved_to_form_2, Cage, CageFile, OwnedCage, Refined, Refusal, Weight,
};
use second::check::check;
use second::file::{read_cage, Form, LONGEST_FORM_1, LONGEST_FORM_2};
use second::questions::files::{damaged, suite_files};
use second::questions::{stl, triangles};

/// Number and place.
fn told(refusal: Refusal) -> (u64, u64) {
    (refusal.number().into(), refusal.place().into())
}

/// Form, weight and every table; of form 1 a 0 for each edge and the short weight.
#[test]
fn a_cage_file_is_what_the_second_program_reads() {
    for file in suite_files().chain(damaged()) {
        match (CageFile::read(&file.bytes), read_cage(&file.bytes)) {
            (Ok(read), Ok(judged)) => {
                assert_eq!(read.form as u16, judged.form.number(), "{}", file.name);
                assert_eq!(read.weight, chosen(judged.weight), "{}", file.name);
                // Not assert_eq, which would print both cages.
                assert!(read.cage.as_cage() == handed(&judged.cage), "{}", file.name);
            }
            (Err(refusal), Err(judged)) => {
                let judged = (judged.number.into(), judged.place);
                assert_eq!(told(refusal), judged, "{}", file.name);
            }
            _ => panic!("{}: one of the two refuses it", file.name),
        }
    }
}

#[test]
fn written_files_are_the_second_programs() {
    for entry in accepted() {
        let (name, cage) = (&entry.name, handed(&entry.cage));
        let [(_, old), (_, short), (_, paper)] = files_of(&entry.cage);
        assert!(cage.to_file() == Ok(old), "{name}");
        assert!(cage.to_form_2_file(Weight::Short) == Ok(short), "{name}");
        assert!(cage.to_form_2_file(Weight::Paper) == Ok(paper), "{name}");
    }
    for entry in refused() {
        let judged = check(&entry.cage).expect_err(&entry.name);
        for weight in WEIGHTS {
            let refusal = handed(&entry.cage).to_form_2_file(chosen(weight));
            let numbers = refusal.map_err(told).expect_err(&entry.name);
            assert_eq!(numbers, (judged.number.into(), judged.place));
        }
    }
    assert_eq!(ryebadger::LONGEST_FORM_1, LONGEST_FORM_1);
    assert_eq!(ryebadger::LONGEST_FORM_2, LONGEST_FORM_2);
    assert_eq!(ryebadger::LONGEST_FILE, LONGEST_FORM_2);
}

#[test]
fn moved_files_are_the_second_programs() {
    let mut numbers = [0; 17];
    for file in suite_files().chain(damaged()) {
        let bytes = &file.bytes;
        let to_form_2 = Question::ToForm2(bytes, LONGEST_FORM_2);
        let to_form_1 = Question::ToForm1(bytes, LONGEST_FORM_2);
        for (moved, question) in [
            (moved_to_form_2(bytes), to_form_2),
            (moved_to_form_1(bytes), to_form_1),
        ] {
            let judged = question.put_to(&SecondProgram);
            let length = judged.answer[2] as usize;
            match moved {
                Ok(moved) => assert!(moved == judged.file[..length], "{}", file.name),
                Err(refusal) => assert_eq!(told(refusal), judged.verdict(), "{}", file.name),
            }
            numbers[judged.answer[0] as usize] += 1;
        }
    }
    for (number, count) in numbers.into_iter().enumerate() {
        let is_a_moves = !matches!(number, 9 | 13 | 14);
        assert_eq!(count > 0, is_a_moves, "{number}: {numbers:?}");
    }
}

/// Without a crease table there is a 0 for each edge in the file.
#[test]
fn a_cage_without_creases_is_written_with_zeros() {
    for entry in accepted() {
        let plain = entry.cage.clone().without_creases();
        let without = Cage {
            creases: None,
            ..handed(&entry.cage)
        };
        for (weight, (form, file)) in WEIGHTS
            .into_iter()
            .zip(files_of(&plain).into_iter().skip(1))
        {
            assert_eq!(form, Form::Two);
            let written = without.to_form_2_file(chosen(weight));
            assert!(written == Ok(file), "{}", entry.name);
        }
    }
}

/// Tables as long as VERT, of which building needs no more, and its refusals.
#[test]
fn a_cage_from_triangles_is_what_the_second_program_builds() {
    let mut accepted = 0;
    for question in triangles::questions() {
        let (name, vert, points) = (&question.name, &question.vert, &question.points);
        let asked = Question::Build(vert, points, [vert.len(); 2]);
        let judged = asked.put_to(&SecondProgram);
        match OwnedCage::from_triangles(vert, points) {
            Ok(cage) => {
                accepted += 1;
                assert_eq!(judged.verdict(), (0, 0), "{name}");
                assert_eq!(cage.twin, judged.tables.twin, "{name}");
                assert_eq!(cage.edge, judged.tables.edge, "{name}");
                assert_eq!((&cage.vert, &cage.points), (vert, points), "{name}");
                assert_eq!(cage.creases, vec![0; judged.answer[3] as usize], "{name}");
            }
            Err(refusal) => assert_eq!(told(refusal), judged.verdict(), "{name}"),
        }
    }
    assert!(accepted > 100);
}

/// The STL of a level is as long as it has to be, or is refused.
fn assert_stl(name: &str, level: Cage<'_>) {
    let Cage { vert, points, .. } = level;
    let asked = Question::WriteStl(vert, points, stl_length(vert));
    let judged = asked.put_to(&SecondProgram);
    match level.to_stl() {
        // Not assert_eq, which would print both files.
        Ok(file) => assert!(judged.answer[0] == 0 && file == judged.file, "{name}"),
        Err(refusal) => assert_eq!(told(refusal), judged.verdict(), "{name}"),
    }
}

#[test]
fn the_stl_of_a_level_is_what_the_second_program_writes() {
    for entry in accepted().iter().filter(|entry| !entry.is_large()) {
        let refined = Refined::new(handed(&entry.cage), 4, Weight::Short).expect(&entry.name);
        for level in refined.levels() {
            assert_stl(&entry.name, level);
        }
    }
    for question in stl::questions().into_iter().chain(stl::long_questions()) {
        let (vert, points) = (&question.vert, &question.points);
        let level = Cage {
            vert,
            points,
            ..Cage::default()
        };
        assert_stl(&question.name, level);
    }
}

/// The levels one after the other.
fn end_to_end(refined: &Refined) -> second::cage::Cage {
    let levels: Vec<_> = refined.levels().collect();
    let twin = levels.iter().map(|level| level.twin).collect::<Vec<_>>();
    let vert = levels.iter().map(|level| level.vert).collect::<Vec<_>>();
    let edge = levels.iter().map(|level| level.edge).collect::<Vec<_>>();
    let points = levels.iter().map(|level| level.points).collect::<Vec<_>>();
    let creases = levels.iter().filter_map(|level| level.creases);
    second::cage::Cage {
        twin: twin.concat(),
        vert: vert.concat(),
        edge: edge.concat(),
        points: points.concat(),
        creases: creases.collect::<Vec<_>>().concat(),
    }
}

#[test]
fn refined_levels_end_to_end_are_the_second_programs_tables() {
    for entry in accepted().iter().filter(|entry| !entry.is_large()) {
        let passes = |weight: &_| verdict_with(*weight, &entry.cage) == (0, 0);
        for weight in WEIGHTS.into_iter().filter(passes) {
            for depth in [0, 1, 4] {
                let room = room_at(&entry.cage, depth);
                let question = Question::Refine(&entry.cage, depth, weight, room);
                let judged = question.put_to(&SecondProgram).tables;
                let refined = Refined::new(handed(&entry.cage), depth, chosen(weight));
                let refined = refined.expect(&entry.name);
                assert_eq!(refined.levels().count() as u64, depth + 1);
                assert_eq!(end_to_end(&refined), judged, "{}", entry.name);
            }
        }
    }
}

#[test]
fn there_is_no_level_past_the_depth() {
    let cage = named("pillow");
    let refined = Refined::new(handed(&cage), 2, Weight::Paper).expect("accepted");
    assert_eq!(refined.depth(), 2);
    assert!(refined.level(2).is_some());
    for level in [3, 6, 7, usize::MAX] {
        assert_eq!(refined.level(level), None);
    }
}

/// Refusals 1 to 8 and 15 of the cage and the depth, in refining's order.
#[test]
fn refused_cages_and_depths_are_refused_by_number_and_place() {
    let past_the_limit = |name: &str| (name.to_string(), named(name), vec![7, u64::MAX]);
    let refused = refused().into_iter();
    let refused = refused.map(|entry| (entry.name, entry.cage, vec![0, 6, 7, u64::MAX]));
    for (name, cage, depths) in refused.chain(["pillow", "cushion"].map(past_the_limit)) {
        for depth in depths {
            for weight in WEIGHTS {
                let question = Question::Refine(&cage, depth, weight, [0; 5]);
                let judged = question.put_to(&SecondProgram);
                let refusal = Refined::new(handed(&cage), depth, chosen(weight));
                let numbers = refusal.map_err(told).expect_err(&name);
                assert_eq!(numbers, judged.verdict(), "{name}");
            }
        }
    }
}

/// Refusal 14, by its name.
#[test]
fn an_inner_vertex_of_too_many_corners_is_refused_with_the_papers_weight() {
    let cage = named("double-pyramid-33");
    for depth in [0, 1, 6] {
        let refusal = Refined::new(handed(&cage), depth, Weight::Paper);
        assert_eq!(refusal, Err(Refusal::Valence { vertex: 33 }));
        assert!(Refined::new(handed(&cage), depth, Weight::Short).is_ok());
    }
}
