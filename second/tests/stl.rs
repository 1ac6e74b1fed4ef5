//! Document 02, §2, "STL out to the mill".

mod common;

use std::collections::HashSet;

use common::{document_pillow, document_triangle, file_of, levels};
use second::cage::Cage;
use second::questions::stl::{long_questions, questions};
use second::refusal::Refusal;
use second::stl::{level_0_stl, write_stl};
use second::suite::{accepted_cages, suite, Expected};

/// The longest VERT table that is written.
const LONGEST: usize = 12_582_912;

/// Writes into a buffer of this length. On a refusal it must be as before, and
/// past the file always.
fn written_into(vert: &[u32], points: &[i32], length: usize) -> Result<Vec<u8>, Refusal> {
    let before: Vec<u8> = (0..length).map(|at| (at % 251) as u8 ^ 0xA5).collect();
    let mut buffer = before.clone();
    let answer = write_stl(vert, points, &mut buffer);
    let written = answer.map_or(0, |length| length as usize);
    assert_eq!(buffer[written..], before[written..]);
    buffer.truncate(written);
    answer.map(|_| buffer)
}

/// With room for the file, and some more.
fn written(vert: &[u32], points: &[i32]) -> Result<Vec<u8>, Refusal> {
    written_into(vert, points, stl_length(vert) + 77)
}

/// The length of the file: 84 bytes, then 50 for each triangle.
fn stl_length(vert: &[u32]) -> usize {
    84 + 50 * (vert.len() / 3)
}

fn refusal_of(vert: &[u32], points: &[i32]) -> Option<(u32, u64)> {
    let refusal = written(vert, points).err();
    refusal.map(|refusal| (refusal.number, refusal.place))
}

fn refused(number: u32, place: u64) -> Option<(u32, u64)> {
    Some((number, place))
}

/// The file holds these triangles and nothing else. Each float times 1024 is
/// the coordinate exactly.
fn assert_holds(stl: &[u8], vert: &[u32], points: &[i32]) {
    let (head, facets) = stl.split_at(84);
    assert_eq!(head[..80], [0; 80]);
    assert_eq!(head[80..], (vert.len() as u32 / 3).to_le_bytes());
    let (facets, rest) = facets.as_chunks::<50>();
    assert_eq!((3 * facets.len(), rest.len()), (vert.len(), 0));
    for (facet, corners) in facets.iter().zip(vert.chunks(3)) {
        let (normal, last) = (&facet[..12], &facet[48..]);
        assert_eq!((normal, last), (&[0; 12][..], &[0; 2][..]));
        let (floats, _) = facet[12..].as_chunks::<4>();
        let coordinates = corners.iter().flat_map(|&v| &points[3 * v as usize..][..3]);
        for (&float, &coordinate) in floats.iter().zip(coordinates) {
            let millimetres = f64::from(f32::from_le_bytes(float));
            assert_eq!(millimetres * 1_024.0, f64::from(coordinate));
        }
    }
}

/// Document 01's triangle on the points of P4. 800/1024 is 25/32.
#[test]
fn the_triangle_byte_by_byte() {
    let expected = [
        &[0; 80][..],
        // One triangle.
        &[1, 0, 0, 0],
        // The normal.
        &[0, 0, 0, 0, 0, 0, 0, 0, 0, 0, 0, 0],
        // (0,0,0), (800,0,0) and (0,800,0).
        &[0, 0, 0, 0, 0, 0, 0, 0, 0, 0, 0, 0],
        &[0x00, 0x00, 0x48, 0x3F, 0, 0, 0, 0, 0, 0, 0, 0],
        &[0, 0, 0, 0, 0x00, 0x00, 0x48, 0x3F, 0, 0, 0, 0],
        // The last word.
        &[0, 0],
    ]
    .concat();
    assert_eq!(expected.len(), 134);
    let cage = document_triangle();
    assert_eq!(written(&cage.vert, &cage.points), Ok(expected.clone()));
    assert_eq!(level_0_stl(&file_of(&cage)), Ok(expected));
}

/// Corners as stored, not turned and not in another order.
#[test]
fn the_pillow_facet_by_facet() {
    let Cage { vert, points, .. } = document_pillow();
    let stl = written(&vert, &points).expect("written");
    // 16/1024 is 1/64.
    let (zero, sixteen) = ([0; 4], [0x00, 0x00, 0x80, 0x3C]);
    let (a, b, c) = ([zero; 3], [sixteen, zero, zero], [zero, sixteen, zero]);
    assert_eq!(stl.len(), 184);
    assert_eq!(stl[80..84], [2, 0, 0, 0]);
    assert_eq!(stl[96..132], *[a, b, c].as_flattened().as_flattened());
    assert_eq!(stl[146..182], *[a, c, b].as_flattened().as_flattened());
}

/// 2,097,153 coordinates make 233,017 triangles that share nothing.
#[test]
fn the_whole_coordinate_range() {
    let points: Vec<i32> = (-1_048_576..=1_048_576).collect();
    let vert: Vec<u32> = (0..points.len() as u32 / 3).collect();
    assert_eq!(vert.len(), 3 * 233_017);
    let stl = written(&vert, &points).expect("written");
    assert_holds(&stl, &vert, &points);
}

#[test]
fn each_level_of_each_cage() {
    for entry in accepted_cages() {
        let depth = if entry.is_large() { 1 } else { 3 };
        for (depth, level) in levels(&entry.cage, depth).iter().enumerate() {
            let stl = written(&level.vert, &level.points).expect(&entry.name);
            let triangles = entry.cage.triangle_count() << (2 * depth);
            assert_eq!(stl.len(), 84 + 50 * triangles, "{}", entry.name);
            assert_holds(&stl, &level.vert, &level.points);
        }
    }
}

#[test]
fn lengths_that_make_no_triangle_or_no_point() {
    for cells in [0, 1, 2, 4, 5] {
        assert_eq!(refusal_of(&vec![0; cells], &[0; 9]), refused(1, 0));
    }
    for coordinates in [1, 2, 4, 5, 8, 10] {
        let points = vec![0; coordinates];
        assert_eq!(refusal_of(&[0, 0, 0], &points), refused(1, 0));
    }
    assert_eq!(refusal_of(&[], &[]), refused(1, 0));
}

#[test]
fn a_corner_past_the_points() {
    for past in [3, 4, 65_536, u32::MAX] {
        for h in 0..6 {
            let mut vert = [0, 1, 2, 2, 1, 0];
            vert[h..].fill(past);
            assert_eq!(refusal_of(&vert, &[0; 9]), refused(4, h as u64));
        }
    }
    assert_eq!(refusal_of(&[0, 1, 2], &[]), refused(4, 0));
    assert_eq!(refusal_of(&[0, 0, 1], &[0; 3]), refused(4, 2));
}

/// Also where no triangle has the point.
#[test]
fn a_coordinate_out_of_range() {
    for far in [1_048_577, -1_048_577, i32::MAX, i32::MIN] {
        for index in 0..12 {
            let mut points = [0; 12];
            points[index..].fill(far);
            assert_eq!(refusal_of(&[0, 1, 2], &points), refused(8, index as u64));
        }
    }
    for coordinate in [1_048_576, -1_048_576] {
        assert_eq!(refusal_of(&[0, 1, 2], &[coordinate; 9]), None);
    }
}

#[test]
fn refusals_in_number_order() {
    let far = i32::MIN;
    assert_eq!(refusal_of(&[0, 1, 9, 0], &[far; 9]), refused(1, 0));
    assert_eq!(refusal_of(&[0, 1, 9], &[far; 8]), refused(1, 0));
    assert_eq!(refusal_of(&[0, 1, 9], &[far; 9]), refused(4, 2));
    assert_eq!(refusal_of(&[0, 1, 2], &[far; 9]), refused(8, 0));
    let without_room = |vert: &[u32], points: &[i32]| written_into(vert, points, 0).err();
    assert_eq!(without_room(&[0], &[]), Some(Refusal::new(1, 0)));
    assert_eq!(without_room(&[0, 1, 3], &[0; 9]), Some(Refusal::new(4, 2)));
    assert_eq!(
        without_room(&[0, 1, 2], &[far; 9]),
        Some(Refusal::new(8, 0))
    );
    assert_eq!(without_room(&[0, 1, 2], &[0; 9]), Some(Refusal::new(9, 6)));
}

/// What is no cage is written too: the request asks for nothing else.
#[test]
fn nothing_else_is_asked_for() {
    let points: Vec<i32> = (0..15).collect();
    let tables: [&[u32]; 5] = [
        &[0, 0, 0],
        &[1, 0, 1],
        &[0, 1, 2, 0, 1, 2],
        &[0, 1, 2, 0, 3, 4],
        &[4, 4, 4, 4, 4, 4],
    ];
    for vert in tables {
        let stl = written(vert, &points).expect("written");
        assert_holds(&stl, vert, &points);
    }
}

#[test]
fn room_exact_one_short_and_longer() {
    for entry in accepted_cages() {
        let Cage { vert, points, .. } = &entry.cage;
        let length = stl_length(vert);
        let exact = written_into(vert, points, length).expect(&entry.name);
        let longer = written_into(vert, points, length + 1_000);
        assert_eq!(longer.as_ref(), Ok(&exact), "{}", entry.name);
        for short in [0, 1, 79, 80, 84, 133, length - 50, length - 1] {
            let answer = written_into(vert, points, short.min(length - 1));
            assert_eq!(answer, Err(Refusal::new(9, 6)), "{}", entry.name);
        }
    }
}

/// The longest table is written, and none longer: one triangle more is refused
/// by 2, also where the cells are wrong, but one cell more by 1.
#[test]
fn tables_up_to_the_limit() {
    let mut file = vec![7; 84 + 50 * LONGEST / 3 + 9];
    let mut lengths = HashSet::new();
    for question in long_questions() {
        let (vert, points) = (&question.vert, &question.points);
        let answer = write_stl(vert, points, &mut file);
        match question.expected {
            Expected::Accepted => {
                let length = stl_length(vert);
                assert_eq!(answer, Ok(length as u64), "{}", question.name);
                assert_holds(&file[..length], vert, points);
                file[..length].fill(7);
                let short = write_stl(vert, points, &mut file[..length - 1]);
                assert_eq!(short, Err(Refusal::new(9, 6)));
            }
            Expected::Refused(known) => assert_eq!(answer, Err(known), "{}", question.name),
            Expected::Unforeseen => panic!("{}", question.name),
        }
        assert!(file.iter().all(|&byte| byte == 7), "{}", question.name);
        lengths.insert((vert.len(), answer.map_or_else(|r| r.number, |_| 0)));
    }
    for known in [
        (LONGEST, 0),
        (LONGEST, 4),
        (LONGEST + 1, 1),
        (LONGEST + 3, 2),
    ] {
        assert!(lengths.contains(&known), "{known:?}");
    }
}

/// What document 02 says, word for word, where there is room.
fn said(vert: &[u32], points: &[i32]) -> Result<Vec<u8>, Refusal> {
    let v = points.len() as u64 / 3;
    let wrong = |length: usize| !length.is_multiple_of(3);
    if vert.is_empty() || wrong(vert.len()) || wrong(points.len()) {
        return Err(Refusal::new(1, 0));
    }
    for (h, &vertex) in vert.iter().enumerate() {
        if u64::from(vertex) >= v {
            return Err(Refusal::new(4, h));
        }
    }
    for (index, &coordinate) in points.iter().enumerate() {
        if !(-1_048_576..=1_048_576).contains(&coordinate) {
            return Err(Refusal::new(8, index));
        }
    }
    let mut stl = vec![0; 80];
    stl.extend((vert.len() as u32 / 3).to_le_bytes());
    for corners in vert.chunks(3) {
        let mut record = [0.0_f32; 12];
        for (at, &vertex) in corners.iter().enumerate() {
            for axis in 0..3 {
                let units = points[3 * vertex as usize + axis];
                record[3 + 3 * at + axis] = (f64::from(units) / 1_024.0) as f32;
            }
        }
        stl.extend(record.map(f32::to_le_bytes).as_flattened());
        stl.extend(0_u16.to_le_bytes());
    }
    Ok(stl)
}

#[test]
fn the_rules_word_for_word() {
    for question in questions() {
        let (vert, points) = (&question.vert, &question.points);
        assert_eq!(
            written(vert, points),
            said(vert, points),
            "{}",
            question.name
        );
    }
    for entry in suite() {
        let (vert, points) = (&entry.cage.vert, &entry.cage.points);
        assert_eq!(written(vert, points), said(vert, points), "{}", entry.name);
    }
}

/// Every set of faults among them: the first in the order 1, 4, 8 answers, each
/// of them before 9.
#[test]
fn the_questions_are_answered_as_foreseen() {
    let mut numbers = [0; 10];
    for question in questions() {
        let (vert, points) = (&question.vert, &question.points);
        let refusal = written(vert, points).err();
        match question.expected {
            Expected::Accepted => assert_eq!(refusal, None, "{}", question.name),
            Expected::Refused(known) => assert_eq!(refusal, Some(known), "{}", question.name),
            Expected::Unforeseen => {}
        }
        let ninth = Refusal::new(9, 6);
        let without_room = written_into(vert, points, 0).err();
        assert_eq!(without_room, refusal.or(Some(ninth)), "{}", question.name);
        numbers[refusal.map_or(0, |refusal| refusal.number as usize)] += 1;
    }
    for number in [0, 1, 4, 8] {
        assert!(numbers[number] >= 100, "{number}: {numbers:?}");
    }
}

#[test]
fn names_differ() {
    let mut names = HashSet::new();
    for question in questions().into_iter().chain(long_questions()) {
        assert!(names.insert(question.name.clone()), "{}", question.name);
    }
}
