//! Document 02, §2, "STL out to the mill": from the bytes of a cage file of either
//! form to the STL of level 0, or to the level lister's refusal.

mod common;

use common::{creased_pair, document_pillow, document_triangle, file_of, form_2_file_of, WEIGHTS};
use second::cage::MARKER;
use second::check::check;
use second::draw::Draw;
use second::file::read_cage;
use second::lister::level_lines;
use second::questions::files::{form_1_file, form_2_file};
use second::refusal::Refusal;
use second::stl::{level_0_stl, write_stl};
use second::suite::suite;
use second::weight::Weight;

/// The STL of a file's level 0 is that of its tables; what the level lister
/// refuses is refused alike.
fn assert_as_listed(file: &[u8]) -> Option<Refusal> {
    let answer = level_0_stl(file);
    let refusal = answer.as_ref().err().copied();
    assert_eq!(refusal, level_lines(file).err());
    if let Ok(stl) = answer {
        let cage = read_cage(file).expect("read").cage;
        let mut written = vec![7; 84 + 50 * cage.triangle_count()];
        let length = write_stl(&cage.vert, &cage.points, &mut written);
        assert_eq!(length, Ok(written.len() as u64));
        assert_eq!(stl, written);
    }
    refusal
}

/// Whether this twin has a number of its own in a file.
fn has_room(twin: &u32) -> bool {
    *twin < 65_535 || *twin == MARKER
}

/// Every cage of the suite that a file can hold, in form 1 without its creases, in
/// form 2 with them: refusals 3 to 8 and 15.
#[test]
fn cages_are_refused_as_the_lister_does() {
    let mut numbers = [0; 16];
    for entry in suite() {
        let plain = entry.cage.clone().without_creases();
        let [short, paper] = WEIGHTS.map(|weight| form_2_file(&entry.cage, weight));
        let files = [
            (form_1_file(&plain), &plain),
            (short, &entry.cage),
            (paper, &entry.cage),
        ];
        for (file, cage) in files {
            let is_held = match read_cage(&file) {
                Ok(read) => read.cage == *cage,
                Err(refusal) => refusal.number == 3 && cage.twin.iter().all(has_room),
            };
            if is_held {
                let refusal = assert_as_listed(&file);
                assert_eq!(refusal, check(cage).err(), "{}", entry.name);
                numbers[refusal.map_or(0, |refusal| refusal.number as usize)] += 1;
            }
        }
    }
    for number in [0, 3, 4, 5, 6, 7, 8, 15] {
        assert!(numbers[number] >= 10, "{number}: {numbers:?}");
    }
}

/// Reading's own refusals are there too: bytes are changed, cut off and added.
#[test]
fn drawn_bytes_are_refused_as_the_lister_does() {
    let draw = &mut Draw::new(134);
    let cages = [document_triangle(), document_pillow(), creased_pair(3)];
    let files = cages.map(|cage| [file_of(&cage), form_2_file_of(&cage, Weight::Paper)]);
    let mut numbers = [0; 16];
    for _ in 0..20_000 {
        let mut bytes = files[draw.place(3)][draw.place(2)].clone();
        for _ in 0..draw.below(3) {
            let (offset, any) = (draw.place(bytes.len()), draw.number() as u8);
            bytes[offset] = draw.choice(any, &[0, 1, 2, 3, 255]);
        }
        let (length, cut) = (bytes.len(), draw.place(bytes.len()));
        bytes.resize(draw.choice(length, &[length, length, length + 1, cut]), 0);
        let refusal = assert_as_listed(&bytes);
        numbers[refusal.map_or(0, |refusal| refusal.number as usize)] += 1;
    }
    for number in [0, 1, 2, 3, 4, 6, 8, 10, 11, 12, 15] {
        assert!(numbers[number] >= 10, "{number}: {numbers:?}");
    }
}
