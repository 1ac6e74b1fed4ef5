//! Document 02, §7, "Form 2 files": the moves from form to form.

mod common;

use common::{creased_pair, document_pillow, document_triangle, file_of, form_2_file_of, WEIGHTS};
use second::cage::{Cage, COORDINATE_LIMIT};
use second::check::check;
use second::file::{read_cage, to_form_1, to_form_2, LONGEST_FORM_2};
use second::questions::files::{form_1_file, form_2_file};
use second::refusal::{Refusal, NOT_OLD};
use second::suite::{accepted_cages, suite};
use second::weight::Weight;

type Move = fn(&[u8], &mut [u8]) -> Result<u64, Refusal>;

/// The file that a move makes. The buffer is as before past it, and all of it on a
/// refusal.
fn moved(to_other_form: Move, file: &[u8]) -> Result<Vec<u8>, Refusal> {
    let mut lent = vec![7; LONGEST_FORM_2 + 9];
    let answer = to_other_form(file, &mut lent);
    let past = lent.split_off(answer.map_or(0, |length| length as usize));
    assert!(past.iter().all(|&byte| byte == 7));
    answer.map(|_| lent)
}

/// What either move refuses this file for.
fn refusals(file: &[u8]) -> [Option<Refusal>; 2] {
    [to_form_1, to_form_2].map(|to_other_form: Move| {
        let refusal = moved(to_other_form, file).err();
        // Room is asked for last.
        let ninth = refusal.unwrap_or(Refusal::new(9, 5));
        assert_eq!(to_other_form(file, &mut []), Err(ninth));
        refusal
    })
}

const WRONG_FORM: Option<Refusal> = Some(Refusal {
    number: 11,
    place: 0,
});

#[test]
fn the_triangle_there_and_back() {
    let form_1 = file_of(&document_triangle());
    let form_2 = form_2_file_of(&document_triangle(), Weight::Short);
    assert_eq!((form_1.len(), form_2.len()), (78, 88));
    assert_eq!(moved(to_form_2, &form_1), Ok(form_2.clone()));
    assert_eq!(moved(to_form_1, &form_2), Ok(form_1));
}

/// "The move from form 1 adds zeros and weight 0", and "there and back, where both
/// exist, gives the same bytes for every file of a valid cage".
#[test]
fn there_and_back_gives_the_same_bytes() {
    for entry in accepted_cages() {
        let form_1 = file_of(&entry.cage);
        let form_2 = moved(to_form_2, &form_1).expect(&entry.name);
        let plain = entry.cage.without_creases();
        assert_eq!(form_2, form_2_file_of(&plain, Weight::Short));
        assert_eq!(moved(to_form_1, &form_2), Ok(form_1), "{}", entry.name);
    }
}

/// "The move back exists exactly for cages whose crease numbers and weight are all
/// 0." Then the way back from there gives the same bytes too.
#[test]
fn the_move_back_exists_for_old_cages_alone() {
    let (mut old, mut new) = (0, 0);
    for entry in accepted_cages() {
        let is_plain = entry.cage.creases.iter().all(|&number| number == 0);
        for weight in WEIGHTS {
            let form_2 = form_2_file_of(&entry.cage, weight);
            let answer = moved(to_form_1, &form_2);
            if is_plain && weight == Weight::Short {
                let form_1 = answer.expect(&entry.name);
                assert_eq!(form_1, file_of(&entry.cage), "{}", entry.name);
                assert_eq!(moved(to_form_2, &form_1), Ok(form_2));
                old += 1;
            } else {
                assert_eq!(answer, Err(Refusal::new(NOT_OLD, 0)), "{}", entry.name);
                new += 1;
            }
        }
    }
    assert!(old >= 100 && new >= 100, "{old} {new}");
}

/// One crease anywhere, of any number, is enough; the weight alone is too.
#[test]
fn sixteen_for_a_crease_or_the_weight() {
    let not_old = Some(Refusal::new(16, 0));
    for (edge, number) in (0..3).flat_map(|edge| [1, 2, 10].map(|number| (edge, number))) {
        let mut pillow = document_pillow();
        pillow.creases[edge] = number;
        for weight in WEIGHTS {
            let file = form_2_file_of(&pillow, weight);
            assert_eq!(refusals(&file), [not_old, WRONG_FORM]);
        }
    }
    let paper = form_2_file_of(&document_pillow(), Weight::Paper);
    assert_eq!(refusals(&paper), [not_old, WRONG_FORM]);
    let short = form_2_file_of(&document_pillow(), Weight::Short);
    assert_eq!(refusals(&short), [None, WRONG_FORM]);
}

/// "11 at 0 for a form [...] other than a move starts from": before 1 and 2, and
/// before any other field.
#[test]
fn a_move_starts_from_its_form() {
    let first_field = |form: u16, h: u16, v: u16| {
        let numbers = [form, h, v].map(u16::to_le_bytes).concat();
        [&[0x10, 6, 0], &numbers[..]].concat()
    };
    for (h, v, number) in [(0, 3, 1), (4, 2_049, 1), (3_075, 3, 2), (3, 2_049, 2)] {
        let found = Some(Refusal::new(number, 0));
        assert_eq!(refusals(&first_field(1, h, v)), [WRONG_FORM, found]);
        assert_eq!(refusals(&first_field(2, h, v)), [found, WRONG_FORM]);
        for form in [0, 3, 256, 257, 258, 65_535] {
            assert_eq!(refusals(&first_field(form, h, v)), [WRONG_FORM; 2]);
        }
    }
    // The first field has to be whole.
    for form in [0, 1, 2] {
        let short = Some(Refusal::new(10, 0));
        assert_eq!(refusals(&first_field(form, 3, 3)[..8]), [short; 2]);
    }
    let next = Some(Refusal::new(10, 9));
    assert_eq!(refusals(&first_field(1, 3, 3)), [WRONG_FORM, next]);
    assert_eq!(refusals(&first_field(2, 3, 3)), [next, WRONG_FORM]);
}

/// The files of every cage of the suite that files can hold: the cage checks answer,
/// for form 1 with zeros.
#[test]
fn moves_refuse_as_the_check_does() {
    let mut numbers = [0; 17];
    let mut count = |refusal: Option<Refusal>| {
        numbers[refusal.map_or(0, |refusal| refusal.number as usize)] += 1;
    };
    for entry in suite() {
        let (name, cage) = (&entry.name, &entry.cage);
        let plain = cage.clone().without_creases();
        let form_1 = form_1_file(&plain);
        if read_cage(&form_1).is_ok_and(|read| read.cage == plain) {
            let found = check(&plain).err();
            assert_eq!(refusals(&form_1), [WRONG_FORM, found], "{name}");
            count(found);
        }
        let form_2 = form_2_file(cage, Weight::Paper);
        if read_cage(&form_2).is_ok_and(|read| read.cage == *cage) {
            let found = check(cage).err().unwrap_or(Refusal::new(NOT_OLD, 0));
            assert_eq!(refusals(&form_2), [Some(found), WRONG_FORM], "{name}");
            count(Some(found));
        }
    }
    for number in [0, 3, 4, 5, 6, 7, 8, 15, 16] {
        assert!(numbers[number] >= 10, "{number}: {numbers:?}");
    }
}

/// Reading's, the cage check's, 16, then 9: each hides what comes after it.
#[test]
fn refusals_in_their_order() {
    let paper = |cage: &Cage| form_2_file(cage, Weight::Paper);
    let creased = creased_pair(1);
    assert_eq!(refusals(&paper(&creased))[0], Some(Refusal::new(16, 0)));
    let mut far_point = creased.clone();
    far_point.points[11] = COORDINATE_LIMIT + 1;
    assert_eq!(refusals(&paper(&far_point))[0], Some(Refusal::new(8, 11)));
    let mut border = far_point.clone();
    border.creases[4] = 1;
    assert_eq!(refusals(&paper(&border))[0], Some(Refusal::new(15, 4)));
    let mut edge = border.clone();
    edge.edge[5] = 5;
    assert_eq!(refusals(&paper(&edge))[0], Some(Refusal::new(6, 5)));
    let mut vertex = edge.clone();
    vertex.vert[5] = 4;
    assert_eq!(refusals(&paper(&vertex))[0], Some(Refusal::new(4, 5)));
    // All of reading comes before: a byte after the end, then a wrong weight.
    let longer = [&paper(&vertex)[..], &[0]].concat();
    let end = longer.len() - 1;
    assert_eq!(refusals(&longer)[0], Some(Refusal::new(12, end)));
    let mut weight = longer;
    weight[end - 4] = 2;
    assert_eq!(refusals(&weight)[0], Some(Refusal::new(11, end - 7)));
    // Check 3 is reading's too, and comes before the fields after it.
    weight[12] = 6;
    assert_eq!(refusals(&weight)[0], Some(Refusal::new(3, 0)));
    // In form 1 it is the cage check's, and comes after all fields.
    let mut old = file_of(&creased);
    old[12] = 6;
    old[13] = 0;
    assert_eq!(refusals(&old)[1], Some(Refusal::new(3, 0)));
    let length = old.len();
    let longer = [&old[..], &[0]].concat();
    assert_eq!(refusals(&longer)[1], Some(Refusal::new(12, length)));
}

#[test]
fn the_buffer_has_to_hold_the_new_file() {
    let form_1 = file_of(&document_pillow());
    let form_2 = form_2_file_of(&document_pillow(), Weight::Short);
    assert_eq!(form_2.len(), form_1.len() + 10);
    let moves: [(Move, &[u8], &[u8]); 2] =
        [(to_form_2, &form_1, &form_2), (to_form_1, &form_2, &form_1)];
    for (to_other_form, from, to) in moves {
        let mut exact = vec![7; to.len()];
        assert_eq!(to_other_form(from, &mut exact), Ok(to.len() as u64));
        assert_eq!(exact, to);
        let mut short = vec![7; to.len() - 1];
        let room = Refusal::new(9, 5);
        assert_eq!(to_other_form(from, &mut short), Err(room));
        assert!(short.iter().all(|&byte| byte == 7));
    }
    // 16 comes before 9.
    let paper = form_2_file_of(&document_pillow(), Weight::Paper);
    assert_eq!(to_form_1(&paper, &mut []), Err(Refusal::new(16, 0)));
}
