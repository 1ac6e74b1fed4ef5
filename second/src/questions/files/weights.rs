//! For trying what document 02 says in "Form 2 files": tag 31 hex has "one byte, 0
//! short and 1 the paper's", and any other is refused at its head, before the next
//! head is looked at.

use super::cages::not_old;
use super::draft::Draft;
use super::{bases, ForeseenFile};
use crate::file::{Tag, HEAD_LENGTH};
use crate::refusal::{Refusal, FIELD};
use crate::weight::Weight;

/// Bytes that stand for a weight, and others.
const BYTES: [u8; 8] = [0, 1, 2, 3, 127, 128, 254, 255];

pub(super) fn weight_bytes() -> Vec<ForeseenFile> {
    let mut files = Vec::new();
    for (name, cage) in bases::small() {
        let draft = Draft::form_2(name, &cage, Weight::Short);
        let head = draft.head(Tag::Weight);
        files.extend(BYTES.map(|byte| {
            let weighed = draft.with_payload(Tag::Weight, vec![byte]);
            let weighed = weighed.named(format!("weight-byte-{byte}"));
            match byte {
                0 => weighed.read(not_old(&cage, Weight::Short)),
                1 => weighed.read(not_old(&cage, Weight::Paper)),
                _ => weighed.refused(FIELD, head),
            }
        }));
        let wrong = draft
            .with_payload(Tag::Weight, vec![255])
            .named("weight-255");
        files.extend(wrong.damages_around(Tag::Weight, Refusal::new(FIELD, head)));
    }
    files
}

/// No byte, or two: with the length in the head, which is then wrong, and without.
/// Where there is none, the next tag stands in its place.
pub(super) fn wrong_lengths() -> Vec<ForeseenFile> {
    let draft = Draft::form_2("pillow", &bases::pillow(), Weight::Short);
    let head = draft.head(Tag::Weight);
    let mut files = Vec::new();
    for (what, payload, next_wrong) in [
        ("no-weight", vec![], head),
        ("two-weights", vec![0, 0], head + HEAD_LENGTH + 1),
        ("two-weights-of-1", vec![1, 1], head + HEAD_LENGTH + 1),
    ] {
        let followed = draft.with_payload(Tag::Weight, payload).named(what);
        let alone = followed.with(Tag::Weight, |field| field.length = 1);
        files.push(followed.refused(FIELD, head));
        files.push(alone.named("with-the-old-head").refused(FIELD, next_wrong));
    }
    files
}
