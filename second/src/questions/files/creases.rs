//! For trying what document 02 says in "Form 2 files": tag 23 hex has "one byte
//! per edge", and E "is counted by 01's rule from the twins just read".

use super::draft::Draft;
use super::{bases, ForeseenFile};
use crate::cage::Cage;
use crate::file::{Tag, HEAD_LENGTH};
use crate::refusal::FIELD;
use crate::weight::Weight;

/// One byte too few and one too many: with the length in the head, which is then
/// wrong, and without, so that the next head is not where it has to be.
pub(super) fn wrong_lengths() -> Vec<ForeseenFile> {
    let mut files = Vec::new();
    for (name, cage) in bases::small_and_large() {
        let draft = Draft::form_2(name, &cage, Weight::Short);
        let (head, e) = (draft.head(Tag::Creases), cage.edge_count());
        for count in [e - 1, e + 1] {
            let followed = resized(&draft, &cage, count).named("followed-by-the-head");
            files.push(followed.refused(FIELD, head));
            let alone = resized(&draft, &cage, count).with(Tag::Creases, |field| {
                field.length = e as u16;
            });
            let next_head = head + HEAD_LENGTH + e;
            files.push(alone.named("with-the-old-head").refused(FIELD, next_head));
        }
    }
    files
}

/// Tables as long as E would be if all edges were inner ones, 3F/2, or all on a
/// border, H; and of other lengths that E is not.
pub(super) fn miscounted_edges() -> Vec<ForeseenFile> {
    let mut files = Vec::new();
    for (name, cage) in bases::small_and_large() {
        let draft = Draft::form_2(name, &cage, Weight::Short);
        let (h, e, f) = (
            cage.halfedge_count(),
            cage.edge_count(),
            cage.triangle_count(),
        );
        let counts = [
            ("all-inner", 3 * f / 2),
            ("all-border", h),
            ("border", cage.border_count()),
            ("inner", e - cage.border_count()),
            ("vertices", cage.vertex_count()),
        ];
        for (what, count) in counts.into_iter().filter(|&(_, count)| count != e) {
            let wrong = resized(&draft, &cage, count).named(what);
            files.push(wrong.refused(FIELD, draft.head(Tag::Creases)));
        }
    }
    files
}

/// The draft with a crease table of this length, whose head tells it.
fn resized(draft: &Draft, cage: &Cage, count: usize) -> Draft {
    let mut creases = cage.creases.clone();
    creases.resize(count, 0);
    let resized = draft.with_payload(Tag::Creases, creases);
    resized.named(format!("{count}-creases"))
}
