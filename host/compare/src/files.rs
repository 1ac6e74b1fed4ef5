//! Document 01, "The cage file", and document 02, "Form 2 files": the files of a
//! cage, and all that takes one; and the length of document 02's STL.

use second::cage::Cage;
use second::file::{Form, LONGEST_FORM_2};
use second::questions::files::{form_1_file, form_2_file};

use crate::{assert_alike, marked_tables, Outcome, Question, WEIGHTS};

/// The files of a cage: of form 1, and of form 2 with either weight.
pub fn files_of(cage: &Cage) -> [(Form, Vec<u8>); 3] {
    let [short, paper] = WEIGHTS.map(|weight| (Form::Two, form_2_file(cage, weight)));
    [(Form::One, form_1_file(cage)), short, paper]
}

/// The lengths of the tables of a cage.
pub fn lengths_of(cage: &Cage) -> [usize; 5] {
    let of_halfedges = [&cage.twin, &cage.vert, &cage.edge];
    let [twin, vert, edge] = of_halfedges.map(|table| table.len());
    [twin, vert, edge, cage.points.len(), cage.creases.len()]
}

/// What reading the cage's file of a form leaves in marked tables as long as the
/// cage's: form 1 has no creases, and the lent ones stay.
pub fn as_read(form: Form, cage: &Cage) -> Cage {
    let creases = match form {
        Form::One => marked_tables(lengths_of(cage)).creases,
        Form::Two => cage.creases.clone(),
    };
    Cage {
        creases,
        ..cage.clone()
    }
}

/// What all that takes a file leaves of one: reading it, and moving it to either
/// form.
pub struct Taken {
    pub read: Outcome,
    pub to_form_2: Outcome,
    pub to_form_1: Outcome,
}

/// Takes a file, with more room than it can need.
pub fn take(name: &str, file: &[u8]) -> Taken {
    // A halfedge has three numbers of two bytes, a coordinate four bytes, and there
    // are at most as many edges as halfedges.
    let bytes = file.len().min(LONGEST_FORM_2);
    let (h, coordinates) = (bytes / 6, bytes / 4);
    let tables = [h + 1, h + 2, h + 3, coordinates + 4, h + 5];
    take_into(name, file, tables, bytes + h + 13)
}

/// Takes a file with no room at all, which is asked for after all else of it.
pub fn take_without_room(name: &str, file: &[u8]) -> Taken {
    take_into(name, file, [0; 5], 0)
}

fn take_into(name: &str, file: &[u8], tables: [usize; 5], moved: usize) -> Taken {
    Taken {
        read: assert_alike(name, &Question::Read(file, tables)),
        to_form_2: assert_alike(name, &Question::ToForm2(file, moved)),
        to_form_1: assert_alike(name, &Question::ToForm1(file, moved)),
    }
}

impl Taken {
    /// The move that starts from this form.
    pub fn moved_from(&self, form: Form) -> &Outcome {
        match form {
            Form::One => &self.to_form_2,
            Form::Two => &self.to_form_1,
        }
    }

    /// The verdicts on a file that reading refuses: the move from this form, which
    /// is the file's, refuses it alike, and the other does unless it refuses the
    /// form before.
    pub fn assert_refused(&self, name: &str, form: Form, refusal: (u64, u64)) {
        let other = match form {
            Form::One => self.moved_from(Form::Two),
            Form::Two => self.moved_from(Form::One),
        };
        assert_eq!(self.read.verdict(), refusal, "{name}");
        assert_eq!(self.moved_from(form).verdict(), refusal, "{name}");
        assert!([refusal, (11, 0)].contains(&other.verdict()), "{name}");
    }
}

/// Puts a question whose answer is this file, with just the room for it, with more
/// and with less.
pub fn assert_written<'a>(name: &str, file: &[u8], into: impl Fn(usize) -> Question<'a>) {
    let length = file.len();
    let ask = |lent| assert_alike(name, &into(lent));
    let exact = ask(length);
    assert_eq!(exact.answer, [0, 0, length as u64], "{name}");
    // Not assert_eq, which would print both files.
    assert!(exact.file == file, "{name}");
    assert!(ask(length + 33).file.starts_with(file), "{name}");
    for short in [length - 1, length / 2, 9, 3, 0] {
        assert_eq!(ask(short).verdict(), (9, 5), "{name}");
    }
}

/// The bytes of the STL of a VERT table.
pub fn stl_length(vert: &[u32]) -> usize {
    84 + 50 * (vert.len() / 3)
}
