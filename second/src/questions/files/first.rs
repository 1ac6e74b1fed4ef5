//! For trying what document 01 says about "The cage file", and document 02 in
//! "Form 2 files": what stands in the first field. The form is looked at before H,
//! H before the limits, and all of them before the next head.

use super::draft::Draft;
use super::{bases, ForeseenFile};
use crate::cage::{HALFEDGE_LIMIT, VERTEX_LIMIT};
use crate::file::{Form, Tag};
use crate::refusal::{Refusal, FIELD, LIMIT, SHAPE, SHORT};

/// Numbers of forms that there are, and of others: among them two that are forms
/// in their low byte alone, and two in their high byte alone.
const FORMS: [u16; 9] = [0, 1, 2, 3, 256, 256 + 1, 256 + 2, 512, 65_535];

/// Counts that are not those of any file: no triangles, or past the limits. In
/// form 0, which there is not, the form answers before them.
const COUNTS: [(u16, u16); 24] = [
    (0, 3),
    (0, 0),
    (0, 2_049),
    (1, 3),
    (2, 3),
    (4, 3),
    (5, 3),
    (4, 65_535),
    (3_071, 3),
    (3_073, 3),
    (3_074, 2_049),
    (65_534, 3),
    (3_075, 3),
    (3_075, 0),
    (3_075, 2_049),
    (32_769, 2_048),
    (65_535, 3),
    (65_535, 65_535),
    (3, 2_049),
    (3_072, 2_049),
    (3, 4_096),
    (3, 32_768),
    (3, 65_535),
    (6, 65_535),
];

/// Each number with the rest of either form, whole and damaged.
pub(super) fn forms() -> Vec<ForeseenFile> {
    let mut files = Vec::new();
    for (name, cage) in [("triangle", bases::triangle()), ("pillow", bases::pillow())] {
        for draft in Draft::both_forms(name, &cage) {
            files.extend(FORMS.map(|number| with_form(&draft, number)));
            let strange = with_counts(&draft, [Some(0), None, None]);
            files.extend(strange.damages_around(Tag::First, Refusal::new(FIELD, 0)));
        }
    }
    files
}

/// The file with this number, and all else as it was. The first field answers that
/// the form of this number does not have, or that it has and is not there.
fn with_form(draft: &Draft, number: u16) -> ForeseenFile {
    let changed = with_counts(draft, [Some(number), None, None]);
    let mut forms = [Form::One, Form::Two].into_iter();
    match (forms.find(|form| form.number() == number), draft.form) {
        (None, _) => changed.refused(FIELD, 0),
        (Some(Form::One), Form::Two) => changed.refused(FIELD, draft.head(Tag::Creases)),
        (Some(Form::Two), Form::One) => changed.refused(FIELD, draft.head(Tag::Points)),
        _ => changed.read(None),
    }
}

/// H and V that no file may have, in files of both forms, of no form, and cut
/// after the first field; then some that are not those of the fields after it.
pub(super) fn sizes() -> Vec<ForeseenFile> {
    let mut files = Vec::new();
    for draft in Draft::both_forms("triangle", &bases::triangle()) {
        for (h, v) in COUNTS {
            let number = if h.is_multiple_of(3) && h != 0 {
                LIMIT
            } else {
                SHAPE
            };
            let counts = [None, Some(h), Some(v)];
            files.push(with_counts(&draft, counts).refused(number, 0));
            let alone = first_field_alone(&draft);
            files.push(with_counts(&alone, counts).refused(number, 0));
            let of_no_form = with_counts(&draft, [Some(0), Some(h), Some(v)]);
            files.push(of_no_form.refused(FIELD, 0));
        }
        let no_triangle = with_counts(&draft, [None, Some(4), None]);
        files.extend(no_triangle.damages_around(Tag::First, Refusal::new(SHAPE, 0)));
        let too_many = with_counts(&draft, [None, Some(3_075), None]);
        files.extend(too_many.damages_around(Tag::First, Refusal::new(LIMIT, 0)));
        files.extend(sizes_of_other_files(&draft));
    }
    files
}

/// H and V that a file may have, but not this one.
fn sizes_of_other_files(draft: &Draft) -> Vec<ForeseenFile> {
    let (most_h, most_v) = (HALFEDGE_LIMIT as u16, VERTEX_LIMIT as u16);
    let other_h = [(6, 3), (most_h, 3), (most_h, most_v), (6, 0)];
    let other_v = [(3, 0), (3, 2), (3, 4), (3, most_v)];
    let alone = first_field_alone(draft);
    let twin_head = draft.head(Tag::Twin);
    let mut files = Vec::new();
    for (h, v) in other_h.into_iter().chain(other_v) {
        let counts = [None, Some(h), Some(v)];
        let first_wrong = if h == 3 { Tag::Points } else { Tag::Twin };
        let place = draft.head(first_wrong);
        files.push(with_counts(draft, counts).refused(FIELD, place));
        files.push(with_counts(&alone, counts).refused(SHORT, twin_head));
    }
    files
}

/// The draft with other numbers in its first field, where there are some: the
/// form, H and V.
fn with_counts(draft: &Draft, numbers: [Option<u16>; 3]) -> Draft {
    let changed = draft.with(Tag::First, |field| {
        let (cells, _) = field.payload.as_chunks_mut::<2>();
        for (cell, number) in cells.iter_mut().zip(numbers) {
            *cell = number.map_or(*cell, u16::to_le_bytes);
        }
    });
    let words = numbers.map(|number| number.map_or("as-it-was".into(), |n| n.to_string()));
    changed.named(format!("with-counts-{}", words.join("-")))
}

/// The file cut after its first field.
fn first_field_alone(draft: &Draft) -> Draft {
    let mut alone = draft.clone();
    alone.fields.truncate(1);
    alone.named("first-field-alone")
}
