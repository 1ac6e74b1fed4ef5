//! Document 01, "The cage file": form 1. Document 02, §6: such files have no place
//! for creases, and "count as all zeros"; §7: form, E and weight of what was read.

mod common;

use common::{document_triangle, file_of, lendable, read_into};
use second::cage::MARKER;
use second::check::check;
use second::draw::Draw;
use second::file::{
    read_cage, write_cage_file, FileCage, FileCounts, Form, LONGEST_FORM_1, LONGEST_FORM_2,
};
use second::refusal::Refusal;
use second::suite::{accepted_cages, suite};
use second::weight::Weight;

/// The offsets of the triangle's heads, and the file's end.
const HEADS: [usize; 7] = [0, 9, 18, 27, 36, 75, 78];

fn refusal_of(file: &[u8]) -> Option<Refusal> {
    let answer = read_into(file, [3, 3, 3, 9, 5]).err();
    assert_eq!(read_cage(file).err(), answer);
    answer
}

/// The triangle's file with one byte changed.
fn with_byte(offset: usize, byte: u8) -> Vec<u8> {
    let mut file = file_of(&document_triangle());
    file[offset] = byte;
    file
}

#[test]
fn a_cage_written_and_read_is_the_same() {
    for entry in accepted_cages() {
        let cage = entry.cage;
        let h = cage.halfedge_count();
        let exact = [h, h, h, cage.points.len(), 0];
        let (counts, tables) = read_into(&file_of(&cage), exact).expect(&entry.name);
        let cage = cage.without_creases();
        assert_eq!(tables.without_creases(), cage, "{}", entry.name);
        let expected = FileCounts {
            form: 1,
            halfedges: h as u64,
            vertices: cage.vertex_count() as u64,
            edges: 0,
            weight: 0,
        };
        assert_eq!(counts, expected, "{}", entry.name);
        let expected = FileCage {
            form: Form::One,
            weight: Weight::Short,
            cage: cage.clone(),
        };
        assert_eq!(read_cage(&file_of(&cage)), Ok(expected));
    }
}

#[test]
fn a_file_read_and_written_is_the_same() {
    for entry in accepted_cages() {
        let file = file_of(&entry.cage);
        let cage = read_cage(&file).expect(&entry.name).cage;
        assert_eq!(file_of(&cage), file, "{}", entry.name);
        let (h, v) = (cage.halfedge_count(), cage.vertex_count());
        assert_eq!(file.len(), 24 + 6 * h + 12 * v, "{}", entry.name);
    }
}

#[test]
fn writing_refuses_as_the_check_does_and_leaves_the_buffer() {
    for entry in suite() {
        if let Err(refusal) = check(&entry.cage.clone().without_creases()) {
            let mut file = [7; 100];
            assert_eq!(write_cage_file(&entry.cage, &mut file), Err(refusal));
            assert_eq!(write_cage_file(&entry.cage, &mut []), Err(refusal));
            assert_eq!(file, [7; 100], "{}", entry.name);
        }
    }
}

#[test]
fn bytes_past_the_file_are_untouched() {
    let mut file = [7; 90];
    assert_eq!(write_cage_file(&document_triangle(), &mut file), Ok(78));
    assert_eq!(file[..78], file_of(&document_triangle()));
    assert_eq!(file[78..], [7; 12]);
}

#[test]
fn a_file_cut_anywhere_is_short_at_its_last_head() {
    let file = file_of(&document_triangle());
    for length in 0..78 {
        let head = HEADS.iter().filter(|&&head| head <= length).max();
        let refusal = head.map(|&head| Refusal::new(10, head));
        assert_eq!(refusal_of(&file[..length]), refusal, "{length}");
    }
}

#[test]
fn any_wrong_byte_of_a_head_is_refused_there() {
    let file = file_of(&document_triangle());
    for &head in &HEADS[..6] {
        for (offset, byte) in file.iter().enumerate().skip(head).take(3) {
            for change in [1, 2, 128, 255] {
                let changed = with_byte(offset, byte ^ change);
                let expected = Some(Refusal::new(11, head));
                assert_eq!(refusal_of(&changed), expected);
                // A whole wrong head comes before its short payload.
                assert_eq!(refusal_of(&changed[..head + 3]), expected);
                // A head cut short comes before its wrong tag.
                let short = Some(Refusal::new(10, head));
                assert_eq!(refusal_of(&changed[..head + 2]), short);
            }
        }
    }
}

#[test]
fn the_first_payload_in_order() {
    // Form, then H, then the limits, all before the next head.
    let wrong_form = Some(Refusal::new(11, 0));
    for byte in [3, 4, 128, 255] {
        assert_eq!(refusal_of(&with_byte(3, byte)), wrong_form);
        assert_eq!(refusal_of(&with_byte(4, byte)), wrong_form);
    }
    assert_eq!(refusal_of(&with_byte(3, 0)), wrong_form);
    assert_eq!(refusal_of(&with_byte(4, 1)), wrong_form);
    assert_eq!(refusal_of(&with_byte(4, 2)), wrong_form);
    // Form 2 has creases before the points.
    assert_eq!(refusal_of(&with_byte(3, 2)), Some(Refusal::new(11, 36)));
    for h in [0, 1, 2, 4, 5] {
        assert_eq!(refusal_of(&with_byte(5, h)), Some(Refusal::new(1, 0)));
    }
    let first_field = |form: u16, h: u16, v: u16| {
        let numbers = [form, h, v].map(u16::to_le_bytes).concat();
        [&[0x10, 6, 0], &numbers[..]].concat()
    };
    let refused = |form, h, v| refusal_of(&first_field(form, h, v));
    assert_eq!(refused(0, 0, 0), wrong_form);
    assert_eq!(refused(3, 4, 65_535), wrong_form);
    assert_eq!(refused(257, 3_075, 3), wrong_form);
    for form in [1, 2] {
        assert_eq!(refused(form, 3_074, 2_049), Some(Refusal::new(1, 0)));
        assert_eq!(refused(form, 3_075, 0), Some(Refusal::new(2, 0)));
        assert_eq!(refused(form, 3_072, 2_049), Some(Refusal::new(2, 0)));
        assert_eq!(refused(form, 65_535, 65_535), Some(Refusal::new(2, 0)));
        assert_eq!(refused(form, 3_072, 2_048), Some(Refusal::new(10, 9)));
        assert_eq!(refused(form, 3, 0), Some(Refusal::new(10, 9)));
    }
}

#[test]
fn a_file_without_vertices_is_read() {
    let file = [
        &[0x10, 6, 0, 1, 0, 3, 0, 0, 0][..],
        &[0x20, 6, 0, 1, 0, 2, 0, 3, 0],
        &[0x21, 6, 0, 4, 0, 5, 0, 6, 0],
        &[0x22, 6, 0, 7, 0, 8, 0, 9, 0],
        &[0x30, 0, 0, 0x7F, 0, 0],
    ]
    .concat();
    let (counts, tables) = read_into(&file, [3, 3, 3, 0, 0]).expect("read");
    assert_eq!((counts.halfedges, counts.vertices), (3, 0));
    assert_eq!(tables.twin, [1, 2, 3]);
    assert_eq!(tables.vert, [4, 5, 6]);
    assert_eq!(tables.edge, [7, 8, 9]);
}

#[test]
fn only_the_twin_payload_knows_the_marker() {
    let mut file = file_of(&document_triangle());
    for head in [9, 18, 27] {
        file[head + 3..head + 9].copy_from_slice(&[255, 255, 254, 255, 0, 128]);
    }
    file[39..43].copy_from_slice(&[0, 0, 0, 128]);
    let cage = read_cage(&file).expect("read").cage;
    assert_eq!(cage.twin, [MARKER, 65_534, 32_768]);
    assert_eq!(cage.vert, [65_535, 65_534, 32_768]);
    assert_eq!(cage.edge, [65_535, 65_534, 32_768]);
    assert_eq!(cage.points[0], i32::MIN);
}

#[test]
fn room_comes_last_and_cells_past_it_are_untouched() {
    let file = file_of(&document_triangle());
    let exact = [3, 3, 3, 9, 0];
    for table in 0..4 {
        let mut short = exact;
        short[table] -= 1;
        let room = Some(Refusal::new(9, table + 1));
        assert_eq!(read_into(&file, short).err(), room);
        let longer = [&file[..], &[0]].concat();
        let extra = Some(Refusal::new(12, 78));
        assert_eq!(read_into(&longer, short).err(), extra);
    }
    let (_, tables) = read_into(&file, [4, 5, 6, 13, 7]).expect("read");
    let before = lendable([4, 5, 6, 13, 0]);
    assert_eq!(tables.twin[3..], before.twin[3..]);
    assert_eq!(tables.vert[3..], before.vert[3..]);
    assert_eq!(tables.edge[3..], before.edge[3..]);
    assert_eq!(tables.points[9..], before.points[9..]);
}

/// Whatever bytes come, reading answers.
#[test]
fn drawn_bytes_are_answered() {
    let mut draw = Draw::new(12);
    let file = file_of(&document_triangle());
    for _ in 0..20_000 {
        let mut bytes = file.clone();
        for _ in 0..draw.between(1..=3) {
            let offset = draw.place(bytes.len());
            bytes[offset] = draw.number() as u8;
        }
        bytes.truncate(draw.between(70..=78) as usize);
        if let Ok(read) = read_cage(&bytes) {
            let counts = (read.cage.halfedge_count(), read.cage.vertex_count());
            assert_eq!((read.form, counts), (Form::One, (3, 3)));
        }
    }
}

/// 24 bytes of heads and of the first payload, and form 2's two fields more.
#[test]
fn the_longest_files() {
    assert_eq!(LONGEST_FORM_1, 24 + 6 * 3_072 + 12 * 2_048);
    assert_eq!(LONGEST_FORM_2, LONGEST_FORM_1 + 3 + 3_072 + 4);
    let lengths = accepted_cages()
        .into_iter()
        .map(|entry| file_of(&entry.cage).len());
    assert_eq!(lengths.max(), Some(LONGEST_FORM_1));
}
