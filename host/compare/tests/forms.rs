//! Form 2: its creases and its weight, the turn of check 3, and files of either
//! form whose answers are known beforehand.

use compare::{accepted, assert_alike, named, take, Question, WEIGHTS};
use second::cage::{Cage, MARKER};
use second::check::check;
use second::draw::Draw;
use second::file::Form;
use second::questions::files::{drawn_files, foreseen, form_1_file, form_2_file, heads};
use second::refusal::Refusal;
use second::weight::Weight;

/// The fields of form 2, by their places in the file: those that are named here.
const EDGE: usize = 3;
const CREASES: usize = 4;
const WEIGHT: usize = 6;

/// The form that a file's first field tells, where it tells one.
fn form_told(file: &[u8]) -> Form {
    match file.get(3..5) {
        Some([2, 0]) => Form::Two,
        _ => Form::One,
    }
}

fn verdict(refusal: Option<Refusal>) -> (u64, u64) {
    refusal.map_or((0, 0), |refusal| (refusal.number.into(), refusal.place))
}

/// 9 where nothing else is refused.
fn without_room(verdict: (u64, u64), place: u64) -> (u64, u64) {
    match verdict {
        (0, 0) => (9, place),
        refusal => refusal,
    }
}

/// Also with no room at all, which is looked at last.
#[test]
fn every_file_whose_answer_is_known() {
    let files = foreseen();
    assert!(files.len() > 1_000);
    for known in files {
        let (name, file) = (&known.file.name, &known.file.bytes);
        let (reading, moving) = (verdict(known.reading), verdict(known.moving));
        let form = form_told(file);
        let taken = take(name, file);
        if reading == (0, 0) {
            assert_eq!(taken.read.verdict(), (0, 0), "{name}");
            assert_eq!(taken.moved_from(form).verdict(), moving, "{name}");
        } else {
            taken.assert_refused(name, form, reading);
        }
        let unread = assert_alike(name, &Question::Read(file, [0; 5]));
        assert_eq!(unread.verdict(), without_room(reading, 1), "{name}");
        let move_on = match form {
            Form::One => Question::ToForm2(file, 0),
            Form::Two => Question::ToForm1(file, 0),
        };
        let unmoved = assert_alike(name, &move_on);
        assert_eq!(unmoved.verdict(), without_room(moving, 5), "{name}");
    }
}

#[test]
fn drawn_changes() {
    let mut read = 0;
    for file in drawn_files() {
        let (number, _) = take(&file.name, &file.bytes).read.verdict();
        read += usize::from(number == 0);
    }
    assert!(read > 1_000, "{read}");
}

/// The file of a cage with this weight byte.
fn assert_weighed(name: &str, cage: &Cage, byte: u8) {
    let head = heads(Form::Two, cage)[WEIGHT];
    let mut file = form_2_file(cage, Weight::Short);
    file[head + 3] = byte;
    let taken = take(name, &file);
    if byte <= 1 {
        assert_eq!(taken.read.answer[..3], [0, 0, 2], "{name}");
        assert_eq!(taken.read.answer[6], byte.into(), "{name}");
    } else {
        taken.assert_refused(name, Form::Two, (11, head as u64));
    }
}

#[test]
fn every_weight_byte() {
    for name in ["triangle", "pillow", "creased-number-10-closed", "disc-33"] {
        let cage = named(name);
        for byte in 0..=255 {
            assert_weighed(name, &cage, byte);
        }
    }
    for entry in accepted() {
        for byte in [0, 1, 2, 255] {
            assert_weighed(&entry.name, &entry.cage, byte);
        }
    }
}

/// Reading takes any byte for a crease. The move back asks for 0, and before that
/// for what the check asks.
#[test]
fn every_byte_for_each_crease() {
    for name in ["triangle", "pillow", "pillow-slit", "strip-2"] {
        let cage = named(name);
        for edge in 0..cage.edge_count() {
            for byte in 0..=255 {
                let mut cage = cage.clone();
                cage.creases[edge] = byte;
                let taken = take(name, &form_2_file(&cage, Weight::Short));
                let (h, v) = (cage.halfedge_count(), cage.vertex_count());
                let e = cage.edge_count();
                let answer = [0, 0, 2, h, v, e, 0].map(|number| number as u64);
                assert_eq!(taken.read.answer, answer, "{name}");
                assert_eq!(taken.read.tables.creases[..e], cage.creases, "{name}");
                let moved = match check(&cage) {
                    Err(_) => (15, edge as u64),
                    Ok(_) if byte > 0 => (16, 0),
                    Ok(_) => (0, 0),
                };
                assert_eq!(taken.to_form_1.verdict(), moved, "{name}, {byte}");
            }
        }
    }
}

/// The file of a cage with so many creases, which are not as many as its edges: with
/// the head that goes with them, and with the one that there was.
fn assert_miscounted(name: &str, cage: &Cage, creases: usize) {
    let (head, e) = (heads(Form::Two, cage)[CREASES], cage.edge_count());
    let mut miscounted = cage.clone();
    miscounted.creases.resize(creases, 0);
    let mut file = form_2_file(&miscounted, Weight::Paper);
    take(name, &file).assert_refused(name, Form::Two, (11, head as u64));
    file[head + 1..head + 3].copy_from_slice(&(e as u16).to_le_bytes());
    let (number, place) = take(name, &file).read.verdict();
    let next_or_end = [(10, head), (10, head + 3 + e), (11, head + 3 + e)];
    assert!(next_or_end.contains(&(number, place as usize)), "{name}");
}

/// As many as one more or less, as there would be if all edges were inner ones or
/// all on a border, and none.
#[test]
fn creases_as_many_as_edges_and_no_others() {
    for entry in accepted() {
        let cage = &entry.cage;
        let (h, e) = (cage.halfedge_count(), cage.edge_count());
        for count in [0, e - 1, e + 1, h / 2, h, cage.border_count()] {
            if count != e {
                assert_miscounted(&entry.name, cage, count);
            }
        }
    }
    for name in ["triangle", "pillow", "strip-2", "disc-33"] {
        let cage = named(name);
        let e = cage.edge_count();
        for count in (0..=2 * e).filter(|&count| count != e) {
            assert_miscounted(name, &cage, count);
        }
    }
}

/// One twin cell of a cage with each of these numbers, other than it has.
fn with_wrong_twins(cage: &Cage) -> Vec<Cage> {
    let h = cage.halfedge_count() as u32;
    let numbers = (0..=h + 1).chain([3_071, 3_072, 65_534, MARKER]);
    let cells = numbers.flat_map(|number| (0..h as usize).map(move |at| (at, number)));
    let wrong = cells.filter(|&(at, number)| cage.twin[at] != number);
    let spoiled = wrong.map(|(at, number)| {
        let mut spoiled = cage.clone();
        spoiled.twin[at] = number;
        spoiled
    });
    spoiled.collect()
}

/// Form 1 is read with any twins, and refused in the move. Form 2 is refused in
/// reading, whatever comes after EDGE.
#[test]
fn every_wrong_twin() {
    for name in ["triangle", "pillow", "strip-2", "octahedron"] {
        for spoiled in with_wrong_twins(&named(name)) {
            let refusal = check(&spoiled).expect_err(name);
            let expected = (refusal.number.into(), refusal.place);
            assert_eq!(expected.0, 3, "{name}");
            let old = take(name, &form_1_file(&spoiled));
            assert_eq!(old.read.verdict(), (0, 0), "{name}");
            assert_eq!(old.to_form_2.verdict(), expected, "{name}");
            for weight in WEIGHTS {
                let file = form_2_file(&spoiled, weight);
                take(name, &file).assert_refused(name, Form::Two, expected);
            }
        }
    }
}

/// A file with a wrong twin, cut at every byte and with every byte changed: what is
/// wrong up to the last byte of EDGE comes before 3, and nothing after it does.
#[test]
fn check_3_comes_once_edge_is_whole() {
    for (name, at) in [("triangle", 2), ("pillow", 4), ("strip-2", 1)] {
        let mut spoiled = named(name);
        spoiled.twin[at] = at as u32;
        let file = form_2_file(&spoiled, Weight::Short);
        let heads = heads(Form::Two, &spoiled);
        let place = check(&spoiled).expect_err(name).place;
        for offset in 0..file.len() {
            let cut = take(name, &file[..offset]);
            let mut changed = file.clone();
            changed[offset] ^= 0x55;
            let changed = take(name, &changed);
            if offset >= heads[CREASES] {
                cut.assert_refused(name, Form::Two, (3, place));
                changed.assert_refused(name, Form::Two, (3, place));
            } else {
                let field = heads.partition_point(|&head| head <= offset) - 1;
                assert!(field <= EDGE);
                cut.assert_refused(name, Form::Two, (10, heads[field] as u64));
                let is_in_head = offset < heads[field] + 3;
                let in_head = (11, heads[field] as u64);
                assert!(!is_in_head || changed.read.verdict() == in_head, "{name}");
            }
        }
    }
}

/// Every cage with a drawn twin and a drawn byte after EDGE.
#[test]
fn check_3_hides_what_comes_after_it() {
    let draw = &mut Draw::new(71);
    for entry in accepted() {
        let mut spoiled = entry.cage.clone();
        let (at, other) = (
            draw.place(spoiled.twin.len()),
            draw.place(spoiled.twin.len()),
        );
        spoiled.twin[at] = draw.choice(at as u32, &[other as u32, 3_072, 65_534]);
        let Err(refusal) = check(&spoiled) else {
            continue;
        };
        let mut file = form_2_file(&spoiled, Weight::Short);
        let after = heads(Form::Two, &spoiled)[CREASES];
        for _ in 0..8 {
            let offset = after + draw.place(file.len() - after);
            file[offset] = draw.number() as u8;
            let expected = (3, refusal.place);
            take(&entry.name, &file).assert_refused(&entry.name, Form::Two, expected);
            let cut = &file[..offset];
            take(&entry.name, cut).assert_refused(&entry.name, Form::Two, expected);
        }
    }
}
