//! Document 02, §7, "Form 2 files": reading and writing them.

mod common;

use common::{
    creased_pair, document_pillow, document_triangle, file_of, form_2_file_of, lendable, read_into,
    ROOM_PLACES, WEIGHTS,
};
use second::cage::MARKER;
use second::check::check;
use second::file::{
    read_cage, write_cage_file, write_form_2_file, FileCage, FileCounts, Form, LONGEST_FORM_2,
};
use second::refusal::Refusal;
use second::suite::{accepted_cages, suite};
use second::weight::Weight;

/// The triangle of P4 in form 2 with the short weight, field by field.
const TRIANGLE: [&[u8]; 8] = [
    &[0x10, 6, 0, 2, 0, 3, 0, 3, 0],
    &[0x20, 6, 0, 255, 255, 255, 255, 255, 255],
    &[0x21, 6, 0, 0, 0, 1, 0, 2, 0],
    &[0x22, 6, 0, 0, 0, 1, 0, 2, 0],
    &[0x23, 3, 0, 0, 0, 0],
    &[
        0x30, 36, 0, // three points
        0, 0, 0, 0, 0, 0, 0, 0, 0, 0, 0, 0, // (0, 0, 0)
        32, 3, 0, 0, 0, 0, 0, 0, 0, 0, 0, 0, // (800, 0, 0)
        0, 0, 0, 0, 32, 3, 0, 0, 0, 0, 0, 0, // (0, 800, 0)
    ],
    &[0x31, 1, 0, 0],
    &[0x7F, 0, 0],
];

/// The offsets of the triangle's heads, and the file's end.
const HEADS: [usize; 9] = [0, 9, 18, 27, 36, 42, 81, 85, 88];

/// Those that are looked at after check 3.
const CREASES_HEAD: usize = HEADS[4];
const WEIGHT_HEAD: usize = HEADS[6];

/// Room for the triangle.
const EXACT: [usize; 5] = [3, 3, 3, 9, 3];

fn triangle_file() -> Vec<u8> {
    form_2_file_of(&document_triangle(), Weight::Short)
}

/// The file with one byte changed.
fn with_byte(file: &[u8], offset: usize, byte: u8) -> Vec<u8> {
    let mut changed = file.to_vec();
    changed[offset] = byte;
    changed
}

fn refusal_of(file: &[u8]) -> Option<Refusal> {
    let answer = read_into(file, EXACT).err();
    assert_eq!(read_cage(file).err(), answer);
    answer
}

#[test]
fn the_triangle_byte_by_byte() {
    assert_eq!(triangle_file(), TRIANGLE.concat());
    assert_eq!(triangle_file().len(), 88);
    assert_eq!(file_of(&document_triangle()).len(), 78);
    // The weight is one byte, and all that differs.
    let paper = form_2_file_of(&document_triangle(), Weight::Paper);
    assert_eq!(paper, with_byte(&TRIANGLE.concat(), 84, 1));
}

/// "Form 2 puts 2 in the first field and adds tag 23 hex after tag 22, with one
/// byte per edge, and tag 31 hex after tag 30, with one byte", word for word.
#[test]
fn a_form_2_file_is_that_of_form_1_and_two_fields_more() {
    for entry in accepted_cages() {
        let (cage, form_1) = (&entry.cage, file_of(&entry.cage));
        let creases_head = 18 + 6 * cage.halfedge_count();
        let weight_head = creases_head + 3 + 12 * cage.vertex_count();
        let [low, high] = (cage.creases.len() as u16).to_le_bytes();
        for (weight, byte) in [(Weight::Short, 0), (Weight::Paper, 1)] {
            let form_2 = [
                &form_1[..3],
                &[2, 0],
                &form_1[5..creases_head],
                &[0x23, low, high],
                &cage.creases,
                &form_1[creases_head..weight_head],
                &[0x31, 1, 0, byte],
                &form_1[weight_head..],
            ];
            assert_eq!(form_2_file_of(cage, weight), form_2.concat());
        }
    }
}

#[test]
fn a_cage_written_and_read_is_the_same() {
    for entry in accepted_cages() {
        let (name, cage) = (&entry.name, &entry.cage);
        let h = cage.halfedge_count();
        let exact = [h, h, h, cage.points.len(), cage.creases.len()];
        for weight in WEIGHTS {
            let file = form_2_file_of(cage, weight);
            let (counts, tables) = read_into(&file, exact).expect(name);
            assert_eq!(tables, *cage, "{name}");
            let expected = FileCounts {
                form: 2,
                halfedges: h as u64,
                vertices: cage.vertex_count() as u64,
                edges: cage.edge_count() as u64,
                weight: u64::from(weight == Weight::Paper),
            };
            assert_eq!(counts, expected, "{name}");
            let expected = FileCage {
                form: Form::Two,
                cage: cage.clone(),
                weight,
            };
            assert_eq!(read_cage(&file), Ok(expected), "{name}");
        }
    }
}

#[test]
fn a_file_read_and_written_is_the_same() {
    for entry in accepted_cages() {
        for weight in WEIGHTS {
            let file = form_2_file_of(&entry.cage, weight);
            let read = read_cage(&file).expect(&entry.name);
            assert_eq!(form_2_file_of(&read.cage, read.weight), file);
        }
    }
}

/// The whole check, with the creases, then 9; on a refusal no byte changes.
#[test]
fn writing_refuses_as_the_check_does_and_leaves_the_buffer() {
    let mut numbers = [0; 16];
    for entry in suite() {
        for weight in WEIGHTS {
            let refusal = check(&entry.cage).err();
            let mut file = [7; 50];
            let answer = write_form_2_file(&entry.cage, weight, &mut file);
            assert_eq!(answer, Err(refusal.unwrap_or(Refusal::new(9, 5))));
            assert_eq!(write_form_2_file(&entry.cage, weight, &mut []), answer);
            assert_eq!(file, [7; 50], "{}", entry.name);
            numbers[refusal.map_or(9, |refusal| refusal.number as usize)] += 1;
        }
    }
    for number in [1, 2, 3, 4, 5, 6, 7, 8, 9, 15] {
        assert!(numbers[number] >= 10, "{number}: {numbers:?}");
    }
}

#[test]
fn writing_needs_the_whole_file_and_leaves_the_bytes_past_it() {
    let cage = document_triangle();
    let mut file = [7; 100];
    assert_eq!(write_form_2_file(&cage, Weight::Short, &mut file), Ok(88));
    assert_eq!(file[..88], TRIANGLE.concat());
    assert_eq!(file[88..], [7; 12]);
    let mut exact = [7; 88];
    assert_eq!(write_form_2_file(&cage, Weight::Short, &mut exact), Ok(88));
    let mut short = [7; 87];
    let answer = write_form_2_file(&cage, Weight::Short, &mut short);
    assert_eq!(answer, Err(Refusal::new(9, 5)));
    assert_eq!(short, [7; 87]);
    // Form 1 has room in it.
    assert_eq!(write_cage_file(&cage, &mut short), Ok(78));
}

#[test]
fn a_file_cut_anywhere_is_short_at_its_last_head() {
    let file = triangle_file();
    for length in 0..88 {
        let head = HEADS.iter().filter(|&&head| head <= length).max();
        let refusal = head.map(|&head| Refusal::new(10, head));
        assert_eq!(refusal_of(&file[..length]), refusal, "{length}");
    }
    assert_eq!(refusal_of(&file), None);
    let longer = [&file[..], &[0]].concat();
    assert_eq!(refusal_of(&longer), Some(Refusal::new(12, 88)));
}

#[test]
fn any_wrong_byte_of_a_head_is_refused_there() {
    let file = triangle_file();
    for &head in &HEADS[..8] {
        for offset in head..head + 3 {
            for change in 1..=255 {
                let changed = with_byte(&file, offset, file[offset] ^ change);
                let expected = Some(Refusal::new(11, head));
                assert_eq!(refusal_of(&changed), expected);
                // A whole wrong head comes before its short payload.
                assert_eq!(refusal_of(&changed[..head + 3]), expected);
                // A head cut short comes before its wrong tag.
                let short = Some(Refusal::new(10, head));
                assert_eq!(refusal_of(&changed[..head + 2]), short);
            }
        }
    }
}

/// "Once tag 22's payload is whole and before tag 23's head is looked at."
#[test]
fn check_3_comes_after_the_edges_and_before_the_creases() {
    // Itself, not returned, past the table and far past it, at either end.
    for (h, twin) in [(0, 0), (0, 1), (2, 3), (1, 254), (2, 2)] {
        let mut file = triangle_file();
        file[12 + 2 * h..14 + 2 * h].copy_from_slice(&[twin, 0]);
        let found = Some(Refusal::new(3, h));
        assert_eq!(refusal_of(&file), found);
        for length in CREASES_HEAD..88 {
            assert_eq!(refusal_of(&file[..length]), found, "{length}");
        }
        for offset in CREASES_HEAD..88 {
            assert_eq!(refusal_of(&with_byte(&file, offset, 99)), found);
        }
        let short = Some(Refusal::new(10, 27));
        assert_eq!(refusal_of(&file[..CREASES_HEAD - 1]), short);
        for head in [0, 9, 18, 27] {
            let wrong = with_byte(&file, head, 99);
            assert_eq!(refusal_of(&wrong), Some(Refusal::new(11, head)));
        }
        // Form 1 is read with any twins.
        let mut form_1 = file_of(&document_triangle());
        form_1[12 + 2 * h..14 + 2 * h].copy_from_slice(&[twin, 0]);
        let read = read_cage(&form_1).expect("read").cage;
        assert_eq!(read.twin[h], u32::from(twin));
        assert_eq!(read.twin[(h + 1) % 3], MARKER);
    }
}

/// The lowest halfedge answers, also where the wrong cell is its twin's.
#[test]
fn check_3_gives_the_lowest_halfedge() {
    let file = form_2_file_of(&document_pillow(), Weight::Paper);
    for (h, twin, place) in [(0, 0, 0), (5, 5, 0), (4, 6, 1), (2, 4, 2), (3, 255, 2)] {
        let wrong = with_byte(&file, 12 + 2 * h, twin);
        let refusal = Some(Refusal::new(3, place));
        assert_eq!(read_into(&wrong, [0; 5]).err(), refusal, "{h}");
        assert_eq!(read_cage(&wrong).err(), refusal, "{h}");
    }
    // No other check is run: no vertex and no edge is in range here.
    let mut strange = triangle_file();
    strange[21..27].fill(255);
    strange[30..36].fill(255);
    strange[39..42].fill(255);
    let cage = read_cage(&strange).expect("read").cage;
    assert_eq!(cage.vert, [65_535; 3]);
    assert_eq!(cage.edge, [65_535; 3]);
    assert_eq!(cage.creases, [255; 3]);
}

/// "E for the length of tag 23 is counted by 01's rule from the twins just read."
#[test]
fn the_edges_are_counted_from_the_twins() {
    for (cage, e) in [
        (document_triangle(), 3),
        (document_pillow(), 3),
        (creased_pair(4), 5),
    ] {
        let file = form_2_file_of(&cage, Weight::Short);
        let head = 18 + 6 * cage.halfedge_count();
        assert_eq!(file[head..head + 3], [0x23, e, 0]);
        for length in (0..=7).filter(|&length| length != e) {
            let wrong = [
                &file[..head],
                &[0x23, length, 0],
                &vec![0; length.into()],
                &file[head + 3 + usize::from(e)..],
            ];
            let refusal = Some(Refusal::new(11, head));
            assert_eq!(read_cage(&wrong.concat()).err(), refusal);
        }
    }
}

/// "11 at tag 31's head for a weight byte above 1", before the next head.
#[test]
fn a_weight_byte_is_0_or_1() {
    let file = triangle_file();
    for byte in 0..=255 {
        let weighed = with_byte(&file, WEIGHT_HEAD + 3, byte);
        if byte <= 1 {
            let read = read_cage(&weighed).expect("read");
            assert_eq!(read.weight, WEIGHTS[usize::from(byte)]);
            let (counts, _) = read_into(&weighed, EXACT).expect("read");
            assert_eq!(counts.weight, byte.into());
            continue;
        }
        let refusal = Some(Refusal::new(11, WEIGHT_HEAD));
        assert_eq!(refusal_of(&weighed), refusal, "{byte}");
        for length in WEIGHT_HEAD + 4..88 {
            assert_eq!(refusal_of(&weighed[..length]), refusal, "{byte}");
        }
        assert_eq!(refusal_of(&with_byte(&weighed, 85, 0)), refusal);
        assert_eq!(refusal_of(&with_byte(&weighed, 86, 1)), refusal);
        assert_eq!(refusal_of(&[&weighed[..], &[0]].concat()), refusal);
        // Its payload has to be whole.
        let short = Some(Refusal::new(10, WEIGHT_HEAD));
        assert_eq!(refusal_of(&weighed[..WEIGHT_HEAD + 3]), short);
    }
}

/// Places 1, 2, 3, 4, then 7; all of them after the last byte was read.
#[test]
fn room_comes_last_and_cells_past_it_are_untouched() {
    let cage = creased_pair(7);
    let file = form_2_file_of(&cage, Weight::Paper);
    let exact = [6, 6, 6, 12, 5];
    for (table, place) in ROOM_PLACES.into_iter().enumerate() {
        let mut short = exact;
        short[table] -= 1;
        let room = Some(Refusal::new(9, place));
        assert_eq!(read_into(&file, short).err(), room);
        // The first short one answers.
        short[table..].fill(0);
        assert_eq!(read_into(&file, short).err(), room);
        let longer = [&file[..], &[0]].concat();
        let extra = Some(Refusal::new(12, file.len()));
        assert_eq!(read_into(&longer, short).err(), extra);
    }
    let longer = [9, 8, 7, 20, 11];
    let (counts, tables) = read_into(&file, longer).expect("read");
    assert_eq!((counts.edges, counts.weight), (5, 1));
    let before = lendable(longer);
    assert_eq!(tables.twin, [&cage.twin, &before.twin[6..]].concat());
    assert_eq!(tables.vert, [&cage.vert, &before.vert[6..]].concat());
    assert_eq!(tables.edge, [&cage.edge, &before.edge[6..]].concat());
    assert_eq!(tables.points, [&cage.points, &before.points[12..]].concat());
    assert_eq!(
        tables.creases,
        [&cage.creases, &before.creases[5..]].concat()
    );
    // Form 1 needs no room for creases.
    let form_1 = file_of(&cage);
    let (counts, _) = read_into(&form_1, [6, 6, 6, 12, 0]).expect("read");
    assert_eq!((counts.form, counts.edges, counts.weight), (1, 0, 0));
}

/// No halfedge has a twin, so that E is H. Only reading takes such a cage.
#[test]
fn the_longest_file_is_read() {
    let h = 3_072_u16.to_le_bytes();
    let field = |tag: u8, payload: &[u8]| {
        let [low, high] = (payload.len() as u16).to_le_bytes();
        [&[tag, low, high], payload].concat()
    };
    let file = [
        field(0x10, &[2, 0, h[0], h[1], 0, 8]),
        field(0x20, &[255; 6_144]),
        field(0x21, &[1; 6_144]),
        field(0x22, &[2; 6_144]),
        field(0x23, &[3; 3_072]),
        field(0x30, &[4; 24_576]),
        field(0x31, &[1]),
        field(0x7F, &[]),
    ]
    .concat();
    assert_eq!(file.len(), LONGEST_FORM_2);
    let exact = [3_072, 3_072, 3_072, 6_144, 3_072];
    let (counts, tables) = read_into(&file, exact).expect("read");
    let expected = FileCounts {
        form: 2,
        halfedges: 3_072,
        vertices: 2_048,
        edges: 3_072,
        weight: 1,
    };
    assert_eq!(counts, expected);
    assert_eq!(tables.twin, vec![MARKER; 3_072]);
    assert_eq!(tables.creases, vec![3; 3_072]);
    assert_eq!(tables.points, vec![0x0404_0404; 6_144]);
    let written = suite()
        .into_iter()
        .filter(|entry| check(&entry.cage).is_ok());
    let longest = written.map(|entry| form_2_file_of(&entry.cage, Weight::Paper).len());
    assert!(longest.max().is_some_and(|length| length < LONGEST_FORM_2));
}
