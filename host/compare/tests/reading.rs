//! Reading, and the moves, which read first: the answer and every lent cell and
//! byte, for whole files of either form, cut ones, changed ones and bytes that are
//! no file.

use std::collections::HashSet;

use compare::{
    accepted, as_read, assert_alike, files_of, lengths_of, named, take, take_without_room,
    Question, Taken, PLACES,
};
use second::draw::Draw;
use second::file::Form;
use second::questions::files::{every_head_byte, form_1_file, heads, suite_files};

/// A file with the form it has, and the offsets of its heads and of its end.
struct Whole {
    name: String,
    form: Form,
    heads: Vec<usize>,
    file: Vec<u8>,
}

/// The files of each accepted cage in both forms, form 2 with either weight in turn.
/// One that several cages have is there once.
fn whole_files() -> Vec<Whole> {
    let mut seen = HashSet::new();
    let mut all = Vec::new();
    for (entry, turn) in accepted().into_iter().zip(0..) {
        let [old, short, paper] = files_of(&entry.cage);
        let new = if turn % 2 == 0 { short } else { paper };
        for (form, file) in [old, new] {
            if seen.insert(file.clone()) {
                all.push(Whole {
                    name: entry.name.clone(),
                    form,
                    heads: heads(form, &entry.cage),
                    file,
                });
            }
        }
    }
    assert!(all.len() > 1_000, "{}", all.len());
    all
}

impl Whole {
    fn is_large(&self) -> bool {
        self.file.len() > 1_600
    }

    /// The file cut to this length, which is refused by 10 at the last head that
    /// there is something of.
    fn assert_cut(&self, length: usize, taken_by: fn(&str, &[u8]) -> Taken) {
        let taken = taken_by(&self.name, &self.file[..length]);
        let field = self.heads.partition_point(|&head| head <= length) - 1;
        let expected = (10, self.heads[field] as u64);
        taken.assert_refused(&self.name, self.form, expected);
    }

    /// The file with each byte of each head changed to every value.
    fn assert_every_head_byte(&self) {
        for changed in every_head_byte(&self.file, &self.heads) {
            let is_changed = |&&head: &&usize| {
                let ends = head..self.file.len().min(head + 3);
                changed[ends.clone()] != self.file[ends]
            };
            let taken = take_without_room(&self.name, &changed);
            match self.heads.iter().find(is_changed) {
                Some(&head) => {
                    taken.assert_refused(&self.name, self.form, (11, head as u64));
                }
                None => assert_eq!(taken.read.verdict(), (9, 1), "{}", self.name),
            }
        }
    }
}

/// The file with one byte changed.
fn with_byte(file: &[u8], offset: usize, byte: u8) -> Vec<u8> {
    let mut changed = file.to_vec();
    changed[offset] = byte;
    changed
}

/// Form 1 tells 0 for E and for the weight.
#[test]
fn every_accepted_cages_files_are_read_back_as_the_cage() {
    for entry in accepted() {
        let (name, cage) = (&entry.name, &entry.cage);
        let (h, v) = (cage.halfedge_count() as u64, cage.vertex_count() as u64);
        for ((form, file), weight) in files_of(cage).into_iter().zip([0, 0, 1]) {
            let outcome = assert_alike(name, &Question::Read(&file, lengths_of(cage)));
            let e = match form {
                Form::One => 0,
                Form::Two => cage.edge_count() as u64,
            };
            let number = form.number().into();
            assert_eq!(outcome.answer, [0, 0, number, h, v, e, weight], "{name}");
            assert_eq!(outcome.tables, as_read(form, cage), "{name}");
        }
    }
}

/// Also those of cages that the check refuses, as far as a file can hold them.
#[test]
fn every_file_of_the_suite() {
    let mut numbers = HashSet::new();
    for file in suite_files() {
        let taken = take(&file.name, &file.bytes);
        let outcomes = [&taken.read, &taken.to_form_2, &taken.to_form_1];
        numbers.extend(outcomes.map(|outcome| outcome.verdict().0));
    }
    let every = [0, 1, 2, 3, 4, 5, 6, 7, 8, 11, 15, 16];
    assert_eq!(numbers, HashSet::from(every));
}

#[test]
fn small_files_cut_at_every_byte() {
    for whole in whole_files().iter().filter(|whole| !whole.is_large()) {
        for length in 0..whole.file.len() {
            whole.assert_cut(length, take);
        }
    }
}

#[test]
fn large_files_of_form_1_cut_at_every_byte() {
    assert_large_cut_at_every_byte(Form::One);
}

#[test]
fn large_files_of_form_2_cut_at_every_byte() {
    assert_large_cut_at_every_byte(Form::Two);
}

/// Beside each head and each payload with room, elsewhere without any.
fn assert_large_cut_at_every_byte(form: Form) {
    let files = whole_files();
    for whole in files.iter().filter(|whole| whole.is_large()) {
        if whole.form != form {
            continue;
        }
        for length in 0..whole.file.len() {
            let is_beside = |&head: &usize| (head.saturating_sub(3)..=head + 5).contains(&length);
            let taken_by = if whole.heads.iter().any(is_beside) {
                take
            } else {
                take_without_room
            };
            whole.assert_cut(length, taken_by);
        }
    }
}

#[test]
fn one_byte_added_to_every_file() {
    for Whole {
        name, form, file, ..
    } in whole_files()
    {
        let longer = [&file[..], &[0]].concat();
        let expected = (12, file.len() as u64);
        take(&name, &longer).assert_refused(&name, form, expected);
    }
}

#[test]
fn every_byte_of_form_1s_heads_changed_to_every_value() {
    assert_every_head_byte_changed(Form::One);
}

#[test]
fn every_byte_of_form_2s_heads_changed_to_every_value() {
    assert_every_head_byte_changed(Form::Two);
}

/// Of one file of each H, V and E, which is one of each list of heads.
fn assert_every_head_byte_changed(form: Form) {
    let mut seen = HashSet::new();
    for whole in whole_files() {
        if whole.form == form && seen.insert(whole.heads.clone()) {
            whole.assert_every_head_byte();
        }
    }
}

#[test]
fn every_byte_of_the_first_payload_changed_to_every_value() {
    for name in ["triangle", "pillow", "strip-2", "creased-number-10-closed"] {
        for (_, file) in files_of(&named(name)) {
            for (offset, byte) in (3..9).flat_map(|at| (0..=255).map(move |byte| (at, byte))) {
                take(name, &with_byte(&file, offset, byte));
            }
        }
    }
}

#[test]
fn every_byte_of_every_files_heads_changed_to_a_drawn_value() {
    let draw = &mut Draw::new(35);
    for Whole {
        name,
        form,
        heads,
        file,
    } in whole_files()
    {
        let in_heads = heads
            .iter()
            .flat_map(|&head| (head..head + 3).map(move |at| (head, at)));
        for (head, offset) in in_heads.filter(|&(_, offset)| offset < file.len()) {
            let change = 1 + draw.below(255) as u8;
            let changed = with_byte(&file, offset, file[offset] ^ change);
            take(&name, &changed).assert_refused(&name, form, (11, head as u64));
        }
    }
}

#[test]
fn first_payloads_of_wrong_form_h_and_v() {
    let rest = &form_1_file(&named("triangle"))[9..];
    for form in [0, 1, 2, 3, 256, 257, 258, 65_535_u16] {
        for h in [0, 1, 2, 3, 4, 3_071, 3_072, 3_075, 65_535_u16] {
            for v in [0, 1, 3, 2_048, 2_049, 65_535_u16] {
                let numbers = [form, h, v].map(u16::to_le_bytes).concat();
                let first = [&[0x10, 6, 0], &numbers[..]].concat();
                let followed = [&first[..], rest].concat();
                for bytes in [&first, &followed] {
                    let taken = take("first payload", bytes);
                    let from = if form == 2 { Form::Two } else { Form::One };
                    let expected = match (form, h, v) {
                        (form, ..) if form != 1 && form != 2 => Some((11, 0)),
                        (_, h, _) if h == 0 || h % 3 != 0 => Some((1, 0)),
                        (_, h, v) if h > 3_072 || v > 2_048 => Some((2, 0)),
                        _ => None,
                    };
                    if let Some(expected) = expected {
                        taken.assert_refused("first payload", from, expected);
                    }
                }
            }
        }
    }
}

#[test]
fn drawn_bytes() {
    let draw = &mut Draw::new(31);
    for _ in 0..20_000 {
        let length = draw.between(0..=120) as usize;
        let bytes: Vec<u8> = (0..length).map(|_| draw.number() as u8).collect();
        take("drawn bytes", &bytes);
    }
}

#[test]
fn drawn_bytes_after_a_valid_head() {
    let draw = &mut Draw::new(32);
    for name in ["triangle", "octahedron", "disc-33"] {
        let cage = named(name);
        for (form, file) in files_of(&cage) {
            for _ in 0..1_500 {
                let kept = draw.choice(3, &heads(form, &cage)) + draw.between(0..=9) as usize;
                let kept = &file[..kept.min(file.len())];
                let more = draw.between(0..=200);
                let drawn: Vec<u8> = (0..more).map(|_| draw.number() as u8).collect();
                take(name, &[kept, &drawn].concat());
            }
        }
    }
}

/// Reading takes every number of a payload as it stands, but for 65535 among the
/// twins, and for the twins of form 2, which are left as they are here.
#[test]
fn drawn_payloads_between_valid_heads() {
    let draw = &mut Draw::new(33);
    for name in ["triangle", "octahedron", "disc-33", "torus-32x16"] {
        let cage = named(name);
        for (form, file) in files_of(&cage) {
            let heads = heads(form, &cage);
            let fields = match form {
                Form::One => 1..5,
                Form::Two => 2..6,
            };
            for _ in 0..100 {
                let mut drawn = file.clone();
                for field in fields.clone() {
                    for byte in &mut drawn[heads[field] + 3..heads[field + 1]] {
                        let any = draw.number() as u8;
                        *byte = draw.choice(any, &[0, 128, 254, 255]);
                    }
                }
                assert_eq!(take(name, &drawn).read.verdict(), (0, 0), "{name}");
            }
        }
    }
}

/// Form 1 needs no room for creases.
#[test]
fn room_exact_and_one_short_and_extra_before_it() {
    for entry in accepted() {
        let (name, cage) = (&entry.name, &entry.cage);
        for (form, file) in files_of(cage) {
            let longer = [&file[..], &[0]].concat();
            let reading = |file, lengths| assert_alike(name, &Question::Read(file, lengths));
            for (table, place) in PLACES.into_iter().enumerate() {
                let mut short = lengths_of(cage);
                short[table] -= 1;
                let expected = match (form, place) {
                    (Form::One, 7) => (0, 0),
                    _ => (9, place),
                };
                assert_eq!(reading(&file, short).verdict(), expected, "{name}");
                let extra = (12, file.len() as u64);
                assert_eq!(reading(&longer, short).verdict(), extra, "{name}");
                // And with no cell in this table and in those after it.
                short[table..].fill(0);
                assert_eq!(reading(&file, short).verdict(), expected, "{name}");
            }
        }
    }
}

#[test]
fn files_without_vertices_and_far_too_long() {
    let tables = [
        &[0x20, 6, 0, 255, 255, 2, 0, 1, 0][..],
        &[0x21, 6, 0, 4, 0, 5, 0, 255, 255],
        &[0x22, 6, 0, 7, 0, 8, 0, 255, 255],
    ]
    .concat();
    let form_1 = [
        &[0x10, 6, 0, 1, 0, 3, 0, 0, 0][..],
        &tables,
        &[0x30, 0, 0, 0x7F, 0, 0],
    ];
    let form_2 = [
        &[0x10, 6, 0, 2, 0, 3, 0, 0, 0][..],
        &tables,
        &[0x23, 2, 0, 11, 255, 0x30, 0, 0, 0x31, 1, 0, 1, 0x7F, 0, 0],
    ];
    for (file, answer) in [
        (form_1.concat(), [0, 0, 1, 3, 0, 0, 0]),
        (form_2.concat(), [0, 0, 2, 3, 0, 2, 1]),
    ] {
        let question = Question::Read(&file, [3, 3, 3, 0, 2]);
        assert_eq!(assert_alike("no vertices", &question).answer, answer);
        take("no vertices", &file);
    }
    let longest = named("most-halfedges-and-vertices");
    assert_eq!(form_1_file(&longest).len(), 43_032);
    for (form, file) in files_of(&longest) {
        let mut longer = file.clone();
        longer.resize(200_000, 0x10);
        let expected = (12, file.len() as u64);
        take("long", &longer).assert_refused("long", form, expected);
    }
}

#[test]
fn the_triangles_78_bytes_77_and_79() {
    let file = form_1_file(&named("triangle"));
    assert_eq!(file.len(), 78);
    assert_eq!(file[..9], [0x10, 6, 0, 1, 0, 3, 0, 3, 0]);
    let read = |file: &[u8]| take("triangle", file).read;
    assert_eq!(read(&file).answer, [0, 0, 1, 3, 3, 0, 0]);
    assert_eq!(read(&file[..77]).verdict(), (10, 75));
    let longer = [&file[..], &[0]].concat();
    assert_eq!(read(&longer).verdict(), (12, 78));
}
