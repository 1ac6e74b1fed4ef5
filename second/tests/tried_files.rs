//! The files that are there to try, against what is known of them: document 01,
//! "The cage file", and document 02, §7, "Form 2 files".

mod common;

use std::collections::HashSet;

use common::{document_triangle, form_2_file_of, read_into, ROOM_PLACES};
use second::cage::Cage;
use second::file::{read_cage, to_form_1, to_form_2, FileCage, Form, LONGEST_FORM_2};
use second::questions::files::{
    damaged, drawn_files, every_head_byte, foreseen, form_1_file, form_2_file, heads, suite_files,
};
use second::refusal::Refusal;
use second::suite::accepted_cages;
use second::weight::Weight;

/// Room for any file.
const ROOM: [usize; 5] = [3_072, 3_072, 3_072, 6_144, 3_072];

/// What the two moves answer, to form 2 and to form 1.
fn moves(file: &[u8]) -> [Option<Refusal>; 2] {
    let mut lent = vec![7; LONGEST_FORM_2];
    [
        to_form_2(file, &mut lent).err(),
        to_form_1(file, &mut lent).err(),
    ]
}

/// What the two moves have to answer, where the one that starts from the form of the
/// file answers this. Where the form cannot be read, both do.
fn expected_moves(file: &[u8], moving: Option<Refusal>) -> [Option<Refusal>; 2] {
    let wrong_form = Some(Refusal::new(11, 0));
    match file {
        [0x10, 6, 0, 1, 0, _, _, _, _, ..] => [moving, wrong_form],
        [0x10, 6, 0, 2, 0, _, _, _, _, ..] => [wrong_form, moving],
        [0x10, 6, 0, _, _, _, _, _, _, ..] => [wrong_form; 2],
        _ => [moving; 2],
    }
}

/// The bytes of what a file holds.
fn bytes_of(read: &FileCage) -> Vec<u8> {
    match read.form {
        Form::One => form_1_file(&read.cage),
        Form::Two => form_2_file(&read.cage, read.weight),
    }
}

#[test]
fn foreseen_files_meet_what_is_foreseen() {
    let (mut reading, mut moving) = ([0; 17], [0; 17]);
    let number = |refusal: Option<Refusal>| refusal.map_or(0, |r| r.number as usize);
    for known in foreseen() {
        let (name, bytes) = (&known.file.name, &known.file.bytes);
        assert_eq!(read_cage(bytes).err(), known.reading, "{name}");
        assert_eq!(read_into(bytes, ROOM).err(), known.reading, "{name}");
        assert_eq!(moves(bytes), expected_moves(bytes, known.moving), "{name}");
        reading[number(known.reading)] += 1;
        moving[number(known.moving)] += 1;
    }
    for number in [0, 1, 2, 3, 10, 11, 12] {
        assert!(reading[number] >= 20, "{number}: {reading:?}");
    }
    for number in [0, 3, 4, 5, 6, 7, 8, 15, 16] {
        assert!(moving[number] >= 4, "{number}: {moving:?}");
    }
}

/// Every place at which a field can be refused, in both forms.
#[test]
fn every_field_is_refused_somewhere() {
    let known = foreseen();
    for (form, name) in [(Form::One, "form-1-"), (Form::Two, "form-2-")] {
        let of_form = known
            .iter()
            .filter(|known| known.file.name.starts_with(name));
        let met: HashSet<(u32, u64)> = of_form
            .filter_map(|known| known.reading)
            .map(|refusal| (refusal.number, refusal.place))
            .collect();
        let mut heads = heads(form, &document_triangle());
        let end = heads.pop().expect("a length");
        for head in heads {
            assert!(met.contains(&(10, head as u64)), "{name} {head}");
            assert!(met.contains(&(11, head as u64)), "{name} {head}");
        }
        assert!(met.contains(&(12, end as u64)), "{name}");
    }
}

#[test]
fn no_two_files_have_the_same_name() {
    let known = foreseen();
    let names: HashSet<&str> = known.iter().map(|known| known.file.name.as_str()).collect();
    assert_eq!(names.len(), known.len());
    let damaged = damaged();
    assert_eq!(damaged.len(), known.len());
    for (file, known) in damaged.iter().zip(&known) {
        assert_eq!(
            (&file.name, &file.bytes),
            (&known.file.name, &known.file.bytes)
        );
    }
    let suite: Vec<String> = suite_files().map(|file| file.name).collect();
    let distinct: HashSet<&String> = suite.iter().collect();
    assert_eq!(distinct.len(), suite.len());
}

/// What is read is what the file holds, to the last byte, and only that; with room
/// one short the first short table answers.
#[test]
fn a_file_that_is_read_is_that_of_what_it_holds() {
    let known = foreseen().into_iter().map(|known| known.file);
    let mut read_files = 0;
    for tried in suite_files().chain(drawn_files()).chain(known) {
        let (name, bytes) = (&tried.name, &tried.bytes);
        let Ok(read) = read_cage(bytes) else {
            continue;
        };
        assert_eq!(bytes_of(&read), *bytes, "{name}");
        read_files += 1;
        let FileCage { form, cage, weight } = read;
        let h = cage.halfedge_count();
        let e = if form == Form::Two {
            cage.edge_count()
        } else {
            0
        };
        let exact = [h, h, h, cage.points.len(), e];
        let (counts, tables) = read_into(bytes, exact).expect(name);
        assert_eq!(counts.form, u64::from(form.number()), "{name}");
        let paper = u64::from(weight == Weight::Paper);
        assert_eq!((counts.edges, counts.weight), (e as u64, paper), "{name}");
        let creases = match form {
            Form::One => vec![],
            Form::Two => cage.creases.clone(),
        };
        assert_eq!(tables, Cage { creases, ..cage }, "{name}");
        for (table, place) in ROOM_PLACES.into_iter().enumerate() {
            let mut short = exact;
            if let Some(less) = exact[table].checked_sub(1) {
                short[table] = less;
                assert_eq!(read_into(bytes, short).err(), Some(Refusal::new(9, place)));
            }
        }
    }
    assert!(read_files >= 3 * accepted_cages().len(), "{read_files}");
}

/// What reading refuses, the move that starts from the file's form refuses alike.
/// Drawn files meet every refusal but those of the whole cage.
#[test]
fn drawn_files_are_answered() {
    let mut numbers = [0; 17];
    for tried in drawn_files() {
        let reading = read_cage(&tried.bytes).err();
        let moving = moves(&tried.bytes);
        if let Some(refusal) = reading {
            assert_eq!(moving, expected_moves(&tried.bytes, reading));
            numbers[refusal.number as usize] += 1;
        }
        for refusal in moving.into_iter().flatten() {
            numbers[refusal.number as usize] += 1;
        }
    }
    for number in [1, 2, 3, 4, 6, 8, 10, 11, 12, 15, 16] {
        assert!(numbers[number] >= 10, "{number}: {numbers:?}");
    }
}

#[test]
fn the_heads_of_a_file() {
    let triangle = document_triangle();
    assert_eq!(heads(Form::One, &triangle), [0, 9, 18, 27, 36, 75, 78]);
    let form_2 = [0, 9, 18, 27, 36, 42, 81, 85, 88];
    assert_eq!(heads(Form::Two, &triangle), form_2);
    for entry in accepted_cages() {
        let files = [
            (Form::One, form_1_file(&entry.cage)),
            (Form::Two, form_2_file(&entry.cage, Weight::Paper)),
        ];
        for (form, file) in files {
            let mut heads = heads(form, &entry.cage);
            assert_eq!(heads.pop(), Some(file.len()), "{}", entry.name);
            let tags: Vec<u8> = heads.iter().map(|&head| file[head]).collect();
            let expected: &[u8] = match form {
                Form::One => &[0x10, 0x20, 0x21, 0x22, 0x30, 0x7F],
                Form::Two => &[0x10, 0x20, 0x21, 0x22, 0x23, 0x30, 0x31, 0x7F],
            };
            assert_eq!(tags, expected, "{}", entry.name);
        }
    }
}

/// 256 files for each byte of each head, in which no other byte differs.
#[test]
fn every_byte_of_every_head() {
    let file = form_2_file_of(&document_triangle(), Weight::Paper);
    let heads = heads(Form::Two, &document_triangle());
    let files: Vec<Vec<u8>> = every_head_byte(&file, &heads).collect();
    assert_eq!(files.len(), 8 * 3 * 256);
    let distinct: HashSet<&Vec<u8>> = files.iter().collect();
    assert_eq!(distinct.len(), 8 * 3 * 255 + 1);
    for changed in &files {
        let differs = (0..file.len()).find(|&at| changed[at] != file[at]);
        let head = differs.and_then(|at| heads.iter().rfind(|&&head| head <= at));
        let refusal = head.map(|&head| Refusal::new(11, head));
        assert_eq!(read_cage(changed).err(), refusal);
        let differing = (0..file.len()).filter(|&at| changed[at] != file[at]);
        assert_eq!(differing.count(), usize::from(head.is_some()));
    }
    // Whatever the heads are, nothing past the file is changed.
    assert_eq!(every_head_byte(&file, &[87, 88, usize::MAX]).count(), 256);
    assert_eq!(every_head_byte(&[], &heads).count(), 0);
}
